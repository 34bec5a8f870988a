//! A line of a script: the rules of the script language over the calls of the original.
use crate::call::{self, Call};
use crate::read::Token::{self, Bytes, Char, Number, Text, Word};
use crate::read::{printed, tokens};
use crate::{Played, begun};

/// More bytes than are stored inline.
const HEAP_ROOM: usize = 31;
const MOST_BYTES: usize = 65_536;

/// A script on the text of a word, with its status and what it prints.
pub fn answer(line: &[Token]) -> Option<String> {
    let (word, input) = match line {
        [Word(word), Text(text)] => (*word, text.as_bytes()),
        [Word(word), Bytes(bytes)] => (*word, &bytes[..]),
        _ => return None,
    };
    let (name, room) = match word {
        "inline" => ("InlinableString", None),
        "inline8" => ("InlinableStringN<8>", None),
        "inline0" => ("InlinableStringN<0>", None),
        "heap" => ("InlinableString", Some(HEAP_ROOM)),
        "string" => ("String", None),
        _ => return None,
    };
    let mut text = begun(name, &[Text(String::new())], room).ok()?;
    let (status, output) = match calls_of(input) {
        Ok(calls) => (0, run(&mut *text, &calls)?),
        Err(fault) => (2, fault + "\n"),
    };
    Some(format!("script {} = {status}, {}", printed(line, " "), call::text(&output)))
}

fn calls_of(input: &[u8]) -> Result<Vec<Call<'_>>, String> {
    if input.len() > MOST_BYTES {
        return Err("input too long".into());
    }
    let Ok(script) = str::from_utf8(input) else {
        return Err("input is not utf-8".into());
    };
    let lines = script.split('\n').enumerate().filter(|(_, line)| !line.is_empty());
    lines.map(|(at, line)| call_of(line).ok_or_else(|| format!("line {}: bad command", at + 1))).collect()
}

/// The call of a line; none where it is bad.
fn call_of(line: &str) -> Option<Call<'_>> {
    let word = line.split(' ').next()?;
    let kinds = match word {
        "pop" | "clear" | "shrink_to_fit" => "",
        "push" => "c",
        "push_str" => "s",
        "insert" => "nc",
        "insert_str" => "ns",
        "truncate" | "remove" | "reserve" | "reserve_exact" => "n",
        "replace_bytes" => "p",
        _ => return None,
    };
    let mut parts = line.splitn(kinds.len() + 1, ' ');
    let is_whole = parts.next() == Some(word);
    let given: Option<Vec<Token>> = kinds.chars().map(|kind| part_of(kind, parts.next()?)).collect();
    given.filter(|_| is_whole).map(|given| Call::of(word, &given))
}

/// A character, a string, a number of at most 20 digits, or bytes of two digits each.
fn part_of(kind: char, part: &str) -> Option<Token<'_>> {
    let digit = |digit: &u8| char::from(*digit).to_digit(16);
    let byte = |pair: &[u8]| Some((16 * digit(pair.first()?)? + digit(pair.get(1)?)?) as u8);
    Some(match kind {
        'c' => Char(part.parse().ok()?),
        's' => Text(part.into()),
        'n' if part.len() > 20 || part.starts_with('+') => return None,
        'n' => Number(part.parse().ok()?),
        _ => Bytes(part.as_bytes().chunks(2).map(byte).collect::<Option<Vec<u8>>>()?),
    })
}

/// The line of each reply, and of the text at the end.
fn run(text: &mut dyn Played, calls: &[Call]) -> Option<String> {
    let mut output = String::new();
    for call in calls {
        let answer = text.play(call)?;
        output += &match tokens(&answer)?[..] {
            [Char(ch)] => format!("char {ch}\n"),
            _ => answer.to_lowercase() + "\n",
        };
    }
    Some(output + &format!("text {}\nlength {}\nstorage {}\n", &**text, text.len(), text.storage().0))
}
