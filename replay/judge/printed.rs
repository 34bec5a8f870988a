//! How a text hashes and prints, and the edits of std's `String` that the original lacks.
use crate::Played;
use crate::call::{self, Call};
use crate::departures::{Departure, meet};
use std::fmt::Display;
use std::hash::{DefaultHasher, Hash, Hasher};

pub fn hashed(text: &impl Hash) -> String {
    let mut state = DefaultHasher::new();
    text.hash(&mut state);
    state.finish().to_string()
}

/// What `Display` of a text of the original prints; of an inline one what that of its string does, since
/// there the original ignores the format.
pub fn displayed<T: Display + Played>(text: &T, call: &Call) -> Option<String> {
    let string: &str = text;
    let (mut printed, wanted) = (in_formats(text, call)?, in_formats(string, call)?);
    if text.storage().0 != "heap" && printed != wanted {
        assert!(printed.iter().all(|each| each == string), "an inline text is not printed as it is");
        meet(Departure::Padding);
        printed = wanted;
    }
    Some(call::text(&printed.join("|")))
}

macro_rules! formats {
    ($($format:literal),*) => { vec![$(format!($format)),*] };
}

/// In several formats, of the call's number.
fn in_formats<T: Display + ?Sized>(text: &T, call: &Call) -> Option<Vec<String>> {
    let number = call.number;
    Some(match call.word {
        "display" => formats!["{text}"],
        "padded" => formats!["{text:number$}", "{text:*<number$}", "{text:>number$}", "{text:é^number$}"],
        "cut" => formats!["{text:.number$}", "{text:<9.number$}", "{text:0>12.number$}", "{text:😀^12.number$}"],
        _ => return None,
    })
}

/// The text after an edit by `String` itself; none where it is none of these.
pub fn owned(text: &str, call: &Call) -> Option<String> {
    let (string, mut own, mut is_kept) = (call.string()?, text.to_string(), false);
    match call.word {
        "retain" => own.retain(|ch| string.contains(ch)),
        "retain_odd" => own.retain(|_| {
            is_kept = !is_kept;
            is_kept
        }),
        "make_ascii_uppercase" => own.make_ascii_uppercase(),
        "make_ascii_lowercase" => own.make_ascii_lowercase(),
        "replace_range" => own.replace_range(call.number..call.end, string),
        "trim_in_place" => own = own.trim().into(),
        "trim_start_in_place" => own = own.trim_start().into(),
        "trim_end_in_place" => own = own.trim_end().into(),
        _ => return None,
    }
    Some(own)
}
