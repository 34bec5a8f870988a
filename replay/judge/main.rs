//! Given `-`, answers the questions of standard input, rows and scripts, as this library has to: as std's
//! `String` and the crate `inlinable_string` 0.1.15 do, except for the departures that `departures.rs` lists.
//! Given files of rows, prints each row that expects something else; then, and given `- met`, it reports to standard
//! error how often it met each departure. replay/README.md says how it is built and run.
use std::error::Error;
use std::fmt::Write;
use std::ops::Deref;
use std::process::ExitCode;

mod call;
mod departures;
mod printed;
mod read;
mod rows;
mod script;

/// The same calls on the crate at each capacity, since each has types and a trait of its own; and the empty text of
/// one of these types.
macro_rules! at {
    ($($capacity:literal $module:ident $original:ident)*) => {
        $(mod $module {
            use $original as original;
            include!("text.rs");
        })*

        fn empty(name: &str) -> Option<Box<dyn Played>> {
            $(if name == concat!("InlineStringN<", $capacity, ">") {
                return Some(Box::new($original::InlineString::new()));
            }
            if name == concat!("InlinableStringN<", $capacity, ">") {
                return Some(Box::new($original::InlinableString::default()));
            })*
            None
        }
    };
}

at! {
    0 at_0 original_0
    1 at_1 original_1
    3 at_3 original_3
    4 at_4 original_4
    8 at_8 original_8
    10 at_10 original_10
    30 at_30 original_30
    39 at_39 original_39
    48 at_48 original_48
}

use call::Call;
use read::Token::{self, Number, Text, Word};
use read::tokens;

/// A text, on which the calls are played.
pub trait Played: Deref<Target = str> {
    /// What a call answers, which may change the text; none where it is none of its calls.
    fn play(&mut self, call: &Call) -> Option<String>;

    /// The storage, nothing of an array, and the capacity.
    fn storage(&self) -> (&'static str, usize);
}

impl at_30::Text for String {}

impl Played for String {
    fn play(&mut self, call: &Call) -> Option<String> {
        departures::played(self, call, at_30::inlinable)
    }

    fn storage(&self) -> (&'static str, usize) {
        ("heap", self.capacity())
    }
}

fn main() -> Result<ExitCode, Box<dyn Error>> {
    // whether the original panics is in the answers
    std::panic::set_hook(Box::new(|_| {}));
    let paths: Vec<String> = std::env::args().skip(1).collect();
    let is_question = paths.first().is_some_and(|path| path == "-");
    let is_right = if is_question { answer_lines()? } else { rows::check(&paths)? };
    if paths != ["-"] {
        departures::report();
    }
    Ok(if is_right { ExitCode::SUCCESS } else { ExitCode::FAILURE })
}

/// Answers the lines of standard input.
fn answer_lines() -> Result<bool, Box<dyn Error>> {
    let mut out = String::new();
    for (before, line) in std::io::read_to_string(std::io::stdin())?.lines().enumerate() {
        let answer = match &tokens(line).unwrap_or_default()[..] {
            [Word("script"), script @ ..] => script::answer(script),
            row => rows::answer(row),
        };
        writeln!(out, "{}", answer.ok_or_else(|| format!("line {}: {line}", before + 1))?)?;
    }
    print!("{out}");
    Ok(true)
}

/// A text of a type as it is made first, with this room unless it says its own; or why there is none.
fn begun(name: &str, start: &[Token], room: Option<usize>) -> Result<Box<dyn Played>, String> {
    let [Text(string), manner @ ..] = start else { return Err(rows::NO_ROW.into()) };
    let (mut room, mut front, mut back) = (room, "", "");
    for pair in manner.chunks(2) {
        match pair {
            [Word("room"), Number(bytes)] => room = Some(*bytes),
            [Word("after"), Text(text)] => front = text,
            [Word("before"), Text(text)] => back = text,
            _ => return Err(rows::NO_ROW.into()),
        }
    }
    let made: Option<Box<dyn Played>> = match name {
        "String" => Some(Box::new(String::new())),
        "InlineString" => empty("InlineStringN<30>"),
        "InlinableString" => empty("InlinableStringN<30>"),
        _ => empty(name),
    };
    let mut text = made.ok_or_else(|| format!("the type {name}"))?;
    let mut calls: Vec<_> = room.iter().map(|room| Call::of("with_capacity", &[Number(*room)])).collect();
    calls.push(Call::of("push_str", &[Text(front.to_string() + string)]));
    calls.extend(front.chars().map(|_| Call::of("remove", &[Number(0)])));
    calls.push(Call::of("push_str", &[Text(back.into())]));
    calls.push(Call::of("truncate", &[Number(string.len())]));
    let is_made = calls.iter().all(|call| text.play(call).is_some_and(|answer| answer != "full"));
    if is_made { Ok(text) } else { Err(format!("such a text of {name}")) }
}

/// A text, and where it is stored unless that is an array.
fn seen(text: &dyn Played) -> String {
    format!("{} {}", call::text(text), text.storage().0).trim_end().into()
}
