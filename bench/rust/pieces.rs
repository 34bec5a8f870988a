//! The input in pieces, and sums over them.
use crate::text::Text;
use crate::Task;

/// The sum of what the body gives of each piece, round after round.
macro_rules! summed {
    ($pieces:expr, $rounds:expr, |$piece:pat_param, $round:pat_param| $body:expr) => {{
        let mut sum = 0u64;
        for $round in 0..$rounds {
            for $piece in $pieces {
                sum = sum.wrapping_add($body);
            }
        }
        sum
    }};
}

pub(crate) use summed;

pub fn pieces_of<'a>(task: &Task<'a>) -> Vec<&'a [u8]> {
    if task.width > 0 {
        task.input.chunks_exact(task.width).collect()
    } else {
        task.input.split(|byte| *byte == b' ').collect()
    }
}

pub fn words_of<'a>(task: &Task<'a>) -> Vec<&'a str> {
    let pieces = pieces_of(task);
    pieces
        .into_iter()
        .filter_map(|piece| std::str::from_utf8(piece).ok())
        .collect()
}

pub fn texts_of<T: Text>(task: &Task) -> Vec<T> {
    words_of(task).into_iter().map(T::made).collect()
}

/// A byte at a place that the compiler cannot foresee, so that the text has to be there.
#[inline(never)]
pub fn sink<T: Text>(text: &T, round: usize) -> u64 {
    byte_at(text.as_bytes(), round & 31)
}

pub fn byte_at(bytes: &[u8], at: usize) -> u64 {
    bytes.get(at).map_or(7, |byte| u64::from(*byte))
}
