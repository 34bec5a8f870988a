// The calls of both types of the original, and those of them that `String` has. The file is a part of
// `main.rs`, once for each capacity.
use crate::call::{self, Call, bytes, character, done, or, order};
use crate::departures::{Departure, meet, meet_panic, played};
use crate::printed::{displayed, hashed, owned};
use crate::{Played, seen};
use original::{INLINE_STRING_CAPACITY, InlinableString, InlineString, StringExt};
use std::borrow::Cow;
use std::fmt::{Debug, Write};
use std::hash::Hash;
use std::mem;
use std::ops::{Add, Deref};
use std::str::FromStr;

/// A text of a type that can be on the heap.
pub trait Text:
    for<'a> StringExt<'a> + Played + Clone + Debug + Default + Deref<Target = str> + FromStr + Hash + Ord + Write
    + From<String> + for<'a> From<&'a str> + FromIterator<char> + for<'a> FromIterator<&'a str>
    + Extend<char> + for<'a> Extend<&'a char> + for<'a> Extend<&'a str> + for<'a> Add<&'a str, Output = Self>
{
}

impl Text for InlinableString {}

impl Played for InlinableString {
    fn play(&mut self, call: &Call) -> Option<String> {
        played(self, call, inlinable)
    }

    /// And that the capacity is as promised.
    fn storage(&self) -> (&'static str, usize) {
        let is_inline = matches!(self, InlinableString::Inline(_));
        assert!(self.capacity() >= self.len());
        assert!(!is_inline || self.capacity() == INLINE_STRING_CAPACITY);
        (if is_inline { "inline" } else { "heap" }, self.capacity())
    }
}

impl Played for InlineString {
    fn play(&mut self, call: &Call) -> Option<String> {
        played(self, call, array)
    }

    fn storage(&self) -> (&'static str, usize) {
        ("", INLINE_STRING_CAPACITY)
    }
}

/// What a call answers that both types have; else what `others` do.
macro_rules! of_both {
    ($type:ty, $text:ident, $call:ident, $string:ident, $others:expr) => {
        match $call.word {
            "new" => done(*$text = <$type>::new()),
            "default" => done(*$text = <$type>::default()),
            "clone" => done(*$text = $text.clone()),
            "from" => done(*$text = <$type>::from($string)),
            "push" => or("full", $text.push($call.first()?)),
            "push_str" => or("full", $text.push_str($string)),
            "insert" => or("full", $text.insert($call.number, $call.first()?)),
            "insert_str" => or("full", $text.insert_str($call.number, $string)),
            "write_char" => or("write fault", $text.write_char($call.first()?)),
            "write_str" => or("write fault", $text.write_str($string)),
            "write" => or("write fault", write!($text, "{}", $string)),
            "pop" => character($text.pop()),
            "remove" => character(Some($text.remove($call.number))),
            "truncate" => done($text.truncate($call.number)),
            "clear" => done($text.clear()),
            "split_off" => {
                let tail = $text.to_string().split_off($call.number);
                $text.truncate($call.number);
                seen(&<$type>::from(&tail[..]))
            }
            "drain" => {
                let part = <$type>::from(&$text[$call.number..$call.end]);
                let mut own = $text.to_string();
                own.drain($call.number..$call.end);
                $text.clear();
                let _ = $text.push_str(&own);
                seen(&part)
            }
            "split_once" => match $text.split_once($call.first()?) {
                Some((before, after)) => call::text(&format!("{before}|{after}")),
                None => "none".into(),
            },
            "replace_bytes" if $call.bytes.len() != $text.len() => "wrong length".into(),
            "replace_bytes" if $call.string().is_none() => "not UTF-8".into(),
            "replace_bytes" => done(unsafe { $text.as_mut_slice() }.copy_from_slice(&$call.bytes)),
            "into_bytes" => bytes(&mem::take($text).into_bytes()),
            "len" => $text.len().to_string(),
            "is_empty" => $text.is_empty().to_string(),
            "as_bytes" => bytes($text.as_bytes()),
            "as_str" => call::text(&$text[..]),
            "eq" => (*$text == <$type>::from($string)).to_string(),
            "eq_str" => (*$text == *$string).to_string(),
            "hash" => hashed($text),
            "display" | "padded" | "cut" => displayed($text, $call)?,
            _ => $others,
        }
    };
}

fn array(text: &mut InlineString, call: &Call) -> Option<String> {
    let string = call.string().unwrap_or_default();
    if string.len() > INLINE_STRING_CAPACITY && ["from", "eq", "cmp", "partial_cmp"].contains(&call.word) {
        meet_panic(Departure::LongerThanArray, || InlineString::from(string));
        return Some("too long".into());
    }
    Some(of_both!(InlineString, text, call, string, match call.word {
        "copy" => done(*text = text.clone()),
        "capacity" => INLINE_STRING_CAPACITY.to_string(),
        "remaining_capacity" => (INLINE_STRING_CAPACITY - text.len()).to_string(),
        "repeat" => {
            let size = string.len().checked_mul(call.number);
            if size.is_none_or(|size| size > INLINE_STRING_CAPACITY) {
                return Some("full".into());
            }
            done(*text = InlineString::from(&string.repeat(call.number)[..]))
        }
        "is_full" => (text.len() == INLINE_STRING_CAPACITY).to_string(),
        "from_utf8" if call.bytes.len() > INLINE_STRING_CAPACITY => "too long".into(),
        "from_utf8" => match call.string() {
            Some(string) => done(*text = InlineString::from(string)),
            None => "not UTF-8".into(),
        },
        "from_str" | "from_string" | "parse" | "try_from" | "try_from_char" => made(text, |new| new.push_str(string)),
        "add" => or("full", text.push_str(string)),
        "from_chars" => made(text, |made| string.chars().try_for_each(|ch| made.push(ch))),
        "from_strs" => {
            let strings = call.strings()?;
            made(text, |made| strings.iter().try_for_each(|each| made.push_str(each)))
        }
        "from_strs_with" => {
            let own = call.strings()?.join(string);
            made(text, |made| made.push_str(&own))
        }
        "extend_chars" => or("full", string.chars().try_for_each(|ch| text.push(ch))),
        "extend_strs" => or("full", call.strings()?.iter().try_for_each(|each| text.push_str(each))),
        // the original's arrays have no order: that of `str` is wanted
        "cmp" => order(text[..].cmp(string)),
        "partial_cmp" => order(text[..].partial_cmp(string)?),
        "debug" => {
            // the original shows the array: wanted is what the string shows
            assert!(format!("{text:?}").starts_with("InlineString {"));
            meet(Departure::DerivedDebug);
            call::text(&format!("{:?}", &text[..]))
        }
        _ => {
            let own = owned(text, call)?;
            made(text, |made| made.push_str(&own))
        }
    }))
}

/// Makes an array by additions to an empty one.
fn made<E: Debug>(text: &mut InlineString, fill: impl FnOnce(&mut InlineString) -> Result<(), E>) -> String {
    let mut made = InlineString::new();
    or("full", fill(&mut made).map(|()| *text = made))
}

pub fn inlinable<T: Text>(text: &mut T, call: &Call) -> Option<String> {
    let string = call.string().unwrap_or_default();
    let other = || T::from(string);
    Some(of_both!(T, text, call, string, match call.word {
        "from_utf8" => match T::from_utf8(call.bytes.clone()) {
            Ok(made) => done(*text = made),
            Err(error) => format!("not UTF-8 {}", bytes(&error.into_bytes())),
        },
        "from_utf8_unchecked" => done(*text = unsafe { T::from_utf8_unchecked(call.string()?.into()) }),
        "from_utf8_lossy" => match <T as StringExt>::from_utf8_lossy(&call.bytes) {
            Cow::Borrowed(string) => format!("borrowed {}", call::text(string)),
            Cow::Owned(string) => format!("owned {}", call::text(&string)),
        },
        "from_utf16" => or("unpaired", T::from_utf16(&call.units()?).map(|made| *text = made)),
        "from_utf16_lossy" => done(*text = T::from_utf16_lossy(&call.units()?)),
        "with_capacity" => {
            let (capacity, make) = (call.number, || <T as StringExt>::with_capacity(call.number));
            let is_inline = T::default().storage().0 == "inline" && capacity <= INLINE_STRING_CAPACITY;
            if !is_inline && !has_room(capacity, || make()) {
                return Some("no memory".into());
            }
            done(*text = make())
        }
        "from_str" | "parse" => done(*text = string.parse().ok()?),
        "from_string" => done(*text = T::from(string.to_string())),
        "from_strs" | "collect" if call.list.is_some() => {
            *text = T::default();
            done(extend(text, call.strings()?))
        }
        "from_strs_with" => done(*text = T::from(&call.strings()?.join(string)[..])),
        "from_chars" | "collect" => done(*text = string.chars().collect()),
        "add" => done(*text = mem::take(text) + string),
        "extend_strs" | "extend" if call.list.is_some() => done(extend(text, call.strings()?)),
        "extend" | "extend_chars" => done(text.extend(string.chars())),
        "extend_char_refs" => done(text.extend(&string.chars().collect::<Vec<char>>())),
        "shrink_to_fit" => done(text.shrink_to_fit()),
        "reserve" => reserved(text, call, T::reserve),
        "reserve_exact" => reserved(text, call, T::reserve_exact),
        "into_string" => call::text(str::from_utf8(&mem::take(text).into_bytes()).ok()?),
        "capacity" if text.storage().0 == "inline" => text.capacity().to_string(),
        "capacity" => "room".into(),
        "cmp" => order(T::cmp(text, &other())),
        "partial_cmp" => order(T::partial_cmp(text, &other())?),
        "debug" => call::text(&format!("{text:?}")),
        "repeat" if !has_room(string.len().saturating_mul(call.number), || string.repeat(call.number)) => {
            "no memory".into()
        }
        "repeat" => done(*text = T::from(&string.repeat(call.number)[..])),
        _ => {
            let own = owned(text, call)?;
            text.clear();
            done(text.push_str(&own))
        }
    }))
}

/// Whether memory for this many bytes can be had. Where it cannot, the original panics, or ends the
/// process.
fn has_room<T>(size: usize, call: impl FnOnce() -> T) -> bool {
    if isize::try_from(size).is_err() {
        meet_panic(Departure::TooMuch, call);
        return false;
    }
    let is_granted = std::hint::black_box(&mut Vec::<u8>::new()).try_reserve_exact(size).is_ok();
    if !is_granted {
        meet(Departure::RefusedMemory);
    }
    is_granted
}

fn reserved<T: Text>(text: &mut T, call: &Call, reserve: fn(&mut T, usize)) -> String {
    let (additional, mut copy) = (call.number, text.clone());
    let Some(size) = text.len().checked_add(additional) else {
        if text.storage().0 == "inline" {
            reserve(&mut copy, additional);
            assert!(seen(&copy) == seen(text));
            meet(Departure::SumWraps);
        } else {
            meet_panic(Departure::TooMuch, || reserve(&mut copy, additional));
        }
        return "no memory".into();
    };
    if size > text.capacity() && !has_room(size, || reserve(&mut copy, additional)) {
        return "no memory".into();
    }
    reserve(text, additional);
    if text.capacity() >= size { "done" } else { "no room" }.into()
}

/// Without a word on how many will come, where the original goes to the heap for their number alone.
fn extend<T: Text>(text: &mut T, strings: Vec<&str>) {
    let mut copy = text.clone();
    copy.extend(strings.iter().copied());
    if text.storage() != copy.storage() && copy.len() <= INLINE_STRING_CAPACITY && text.storage().0 == "inline" {
        meet(Departure::Hint);
        text.extend(strings.into_iter().filter(|_| true));
    } else {
        text.extend(strings);
    }
}
