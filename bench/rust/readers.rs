//! Workloads on texts that are read from bytes, from UTF-16 and from JSON.
use crate::pieces::{byte_at, pieces_of, sink, summed, texts_of};
use crate::text::Text;
use crate::Task;
use std::borrow::Cow;

#[inline(never)]
pub fn from_utf8<T: Text>(task: &Task) -> u64 {
    let pieces = pieces_of(task);
    summed!(
        pieces.iter(),
        task.rounds,
        |piece, round| match T::read_utf8(piece.to_vec()) {
            Some(text) => sink(&text, round),
            None => 1,
        }
    )
}

#[inline(never)]
pub fn from_utf8_lossy<T: Text>(task: &Task) -> u64 {
    let pieces = pieces_of(task);
    summed!(pieces.iter(), task.rounds, |piece, round| {
        let read = T::read_utf8_lossy(piece);
        sink_of_read(&read, round)
    })
}

#[inline(never)]
fn sink_of_read(read: &Cow<str>, round: usize) -> u64 {
    byte_at(read.as_bytes(), round & 31)
}

#[inline(never)]
pub fn from_utf16<T: Text>(task: &Task) -> u64 {
    let units = units_of(task);
    summed!(
        units.iter(),
        task.rounds,
        |piece, round| match T::read_utf16(piece) {
            Some(text) => sink(&text, round),
            None => 1,
        }
    )
}

#[inline(never)]
pub fn from_utf16_lossy<T: Text>(task: &Task) -> u64 {
    let units = units_of(task);
    summed!(units.iter(), task.rounds, |piece, round| {
        let text = T::read_utf16_lossy(piece);
        sink(&text, round)
    })
}

fn units_of(task: &Task) -> Vec<Vec<u16>> {
    let unit = |pair: &[u8]| u16::from_le_bytes([pair[0], pair[1]]);
    pieces_of(task)
        .iter()
        .map(|piece| piece.chunks_exact(2).map(unit).collect())
        .collect()
}

/// In the place of a JSON value.
pub enum Json {
    Null,
    String(String),
}

#[inline(never)]
fn json_of<T: Text>(text: &T) -> Json {
    if text.len() == usize::MAX {
        Json::Null
    } else {
        Json::String(String::from(&**text))
    }
}

#[inline(never)]
pub fn json<T: Text>(task: &Task) -> u64 {
    let texts: Vec<T> = texts_of(task);
    summed!(texts.iter(), task.rounds, |text, round| match json_of(text) {
        Json::String(string) => {
            let back = T::made(&string);
            sink(&back, round)
        }
        Json::Null => 1,
    })
}
