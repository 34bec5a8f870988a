//! Rows played on the original: what is found after each step, and where a row expects otherwise.
use crate::call::Call;
use crate::read::Token::{self, Number, Text, Word};
use crate::read::{printed, tokens};
use crate::{begun, seen};
use std::collections::BTreeMap;
use std::error::Error;
use std::fs::read_to_string;

pub const NO_ROW: &str = "is no row";
/// The rooms with which `every` makes a text that can be on the heap, and the most bytes of an array.
const ROOMS: [Option<usize>; 6] = [None, Some(0), Some(10), Some(30), Some(31), Some(100)];
const MOST: usize = 30;

/// The whole row, with an answer after each call.
pub fn answer(row: &[Token]) -> Option<String> {
    let (head, _) = halves(row, ":");
    let [Word(name), ..] = head else { return None };
    let found = played(row, name, None).ok()?.into_iter().map(|(found, _)| found);
    Some(format!("{}: {}", printed(head, " "), found.collect::<Vec<String>>().join("; ")))
}

/// What is before a sign and after it.
fn halves<'t, 'a>(tokens: &'t [Token<'a>], sign: &str) -> (&'t [Token<'a>], &'t [Token<'a>]) {
    let mut halves = tokens.splitn(2, |token| *token == Word(sign));
    (halves.next().unwrap_or_default(), halves.next().unwrap_or_default())
}

/// Each step with what it answered and the text then, and whether the row expects that; or why the row
/// can't be played.
fn played(row: &[Token], name: &str, room: Option<usize>) -> Result<Vec<(String, bool)>, String> {
    let (head, steps) = halves(row, ":");
    let mut text = begun(name, &head[1..], room)?;
    let mut all = Vec::new();
    for step in steps.split(|token| *token == Word(";")) {
        let (source, wanted) = halves(step, "=");
        let (times, call) = match source {
            [Number(times), Word("times"), call @ ..] => (*times, call),
            call => (1, call),
        };
        let call = match call {
            [Word("held" | "block"), ..] => return Err("memory is held".into()),
            // (how many requests a call makes is not looked at)
            [Word("requests"), Number(_), Word(word), given @ ..] | [Word(word), given @ ..] => Call::of(word, given),
            _ => return Err(NO_ROW.into()),
        };
        let before = (seen(&*text), text.storage());
        let answers: Option<Vec<String>> = (0..times).map(|_| text.play(&call)).collect();
        let mut answers = answers.ok_or_else(|| format!("`{}` of {name}", call.word))?;
        answers.dedup();
        let (answer, (wanted, wanted_seen)) = (answers.join(" or "), halves(wanted, ","));
        // where a text is stored may be left out
        let is_said = |found: &str, wanted: &[Token]| {
            let rest = found.strip_prefix(&printed(wanted, " "));
            !wanted.is_empty() && rest.is_some_and(|rest| ["", " inline", " heap"].contains(&rest))
        };
        let is_same = before == (seen(&*text), text.storage());
        let is_expected = is_said(&answer, wanted) && match wanted_seen {
            [Word("unchanged")] => is_same,
            _ => is_said(&seen(&*text), wanted_seen),
        };
        all.push((format!("{} = {answer}, {}", printed(source, " "), seen(&*text)), is_expected));
    }
    Ok(all)
}

/// Plays the rows of files, and prints each that expects something else than is found, and how many were played
/// and were not, by reason. Whether some were played, and none differs.
pub fn check(paths: &[String]) -> Result<bool, Box<dyn Error>> {
    let (mut answered, mut differing, mut unanswered) = (0, 0, BTreeMap::<String, usize>::new());
    for path in paths {
        let rows = rows_of(&read_to_string(path)?);
        for (line, row) in rows.iter().flat_map(|(line, row)| of_each_type(row).map(move |row| (line, row))) {
            match unexpected(&tokens(&row).unwrap_or_default()) {
                Err(reason) if reason != NO_ROW => *unanswered.entry(reason).or_default() += 1,
                Ok(None) => answered += 1,
                Ok(Some(found)) | Err(found) => {
                    (answered, differing) = (answered + 1, differing + 1);
                    println!("{path}:{line}: {found}");
                }
            }
        }
    }
    println!("{answered} rows answered, {differing} differ, {} not answered:", unanswered.values().sum::<usize>());
    unanswered.iter().for_each(|(reason, count)| println!("{count:>9}  {reason}"));
    Ok(answered > 0 && differing == 0)
}

/// Each row with the number of its first line, and the lines that go on with it.
fn rows_of(file: &str) -> Vec<(usize, String)> {
    let mut rows: Vec<(usize, String)> = Vec::new();
    for (before, line) in file.lines().enumerate() {
        match rows.last_mut() {
            Some((_, row)) if line.starts_with(' ') => row.push_str(line),
            _ if line.is_empty() || line.starts_with('#') => {}
            _ => rows.push((before + 1, line.into())),
        }
    }
    rows
}

/// The row of each type that it names: the text comes after the types, and begins with a quote.
fn of_each_type(row: &str) -> impl Iterator<Item = String> + '_ {
    let (types, rest) = row.split_at(row.find('"').unwrap_or(0));
    types.trim_end().split(", ").map(move |name| format!("{name} {rest}"))
}

/// What is found first that a row does not expect; or why it can't be played.
fn unexpected(row: &[Token]) -> Result<Option<String>, String> {
    let [Word(name), ..] = row else { return Err(NO_ROW.into()) };
    let others = ["InlinableString", "String"].into_iter().flat_map(|name| ROOMS.map(|room| (name, room)));
    let is_long = row.iter().any(|token| matches!(token, Text(text) if text.len() > MOST));
    let settings: Vec<_> = match *name {
        "every" => others.chain((!is_long).then_some(("InlineString", None))).collect(),
        name => vec![(name, None)],
    };
    let (mut reason, mut is_played) = (NO_ROW.into(), false);
    for (name, room) in settings {
        match played(row, name, room) {
            Err(why) => reason = why,
            Ok(found) => match found.into_iter().find(|(_, is_expected)| !is_expected) {
                Some((found, _)) => return Ok(Some(format!("{name}, room {room:?}: {found}"))),
                None => is_played = true,
            },
        }
    }
    if is_played { Ok(None) } else { Err(reason) }
}
