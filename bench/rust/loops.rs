//! Workloads on texts that are made, edited and read.
use crate::pieces::{sink, summed, texts_of, words_of};
use crate::text::Text;
use crate::{keys, lists, readers, Task};

/// The loop of the one workload that the program is built for. Nothing else calls the text, so no
/// loop has calls out of line because another has them too.
macro_rules! only {
    ($word:expr, $($name:literal => $sum:path,)*) => {
        match $word {
            $(#[cfg(workload = $name)]
            $name => Some($sum as fn(&Task) -> u64),)*
            _ => None,
        }
    };
}

pub fn sum_of<T: Text>(task: &Task) -> Option<u64> {
    let workload = only!(task.workload,
        "read" => read::<T>,
        "from" => from::<T>,
        "from_literal" => from_literal::<T>,
        "push_str" => push_str::<T>,
        "from_push_str" => from_push_str::<T>,
        "push_literal" => push_literal::<T>,
        "push" => push::<T>,
        "insert" => insert::<T>,
        "remove" => remove::<T>,
        "pop" => pop::<T>,
        "clone" => cloned::<T>,
        "eq" => keys::equal::<T>,
        "cmp" => keys::ordered::<T>,
        "hash" => keys::hashed::<T>,
        "sort" => keys::sorted::<T>,
        "set" => keys::set::<T>,
        "intern" => keys::interned::<T>,
        "look_up" => keys::looked_up::<T>,
        "from_utf8" => readers::from_utf8::<T>,
        "from_utf8_lossy" => readers::from_utf8_lossy::<T>,
        "from_utf16" => readers::from_utf16::<T>,
        "from_utf16_lossy" => readers::from_utf16_lossy::<T>,
        "add" => add::<T>,
        "extend_chars" => extend_chars::<T>,
        "from_chars" => from_chars::<T>,
        "from_strs" => from_strs::<T>,
        "json" => readers::json::<T>,
        "run" => lists::run_on::<T>,
        "run_dyn" => lists::run_on::<T>,
        "grow" => lists::grow::<T>,
        "fronts" => lists::fronts::<T>,
    )?;
    Some(workload(task))
}

#[inline(never)]
fn read<T: Text>(task: &Task) -> u64 {
    let texts: Vec<T> = texts_of(task);
    summed!(texts.iter(), task.rounds, |text, round| sink(text, round))
}

/// Workloads on a text of each word: how it is made, and how it is then edited.
macro_rules! edits {
    ($($name:ident: |$word:ident| $made:expr, |$text:ident| $edit:expr;)*) => {$(
        #[inline(never)]
        fn $name<T: Text>(task: &Task) -> u64 {
            let words = words_of(task);
            summed!(words.iter(), task.rounds, |$word, round| {
                #[allow(unused_mut)]
                let mut $text = $made;
                $edit;
                sink(&$text, round)
            })
        }
    )*};
}

edits! {
    from: |word| T::made(word), |text| ();
    push_str: |word| T::empty(), |text| text.push_str(word);
    from_push_str: |word| T::made(word), |text| text.push_str(word);
    push: |word| T::empty(), |text| for ch in word.chars() { text.push(ch) };
    insert: |word| T::made(word), |text| text.insert(0, 'x');
    extend_chars: |word| T::empty(), |text| text.extend(word.chars());
    from_chars: |word| word.chars().collect::<T>(), |text| ();
    from_strs: |word| [*word, "foobar", *word].iter().copied().collect::<T>(), |text| ();
}

#[inline(never)]
fn add<T: Text>(task: &Task) -> u64 {
    let words = words_of(task);
    summed!(words.iter(), task.rounds, |word, round| {
        let text = T::made(word);
        let joined = text + word;
        sink(&joined, round)
    })
}

#[inline(never)]
fn remove<T: Text>(task: &Task) -> u64 {
    let words = words_of(task);
    summed!(words.iter(), task.rounds, |word, round| {
        let mut text = T::made(word);
        let removed = if text.is_empty() {
            0
        } else {
            u64::from(text.remove(0))
        };
        removed.wrapping_add(sink(&text, round))
    })
}

#[inline(never)]
fn pop<T: Text>(task: &Task) -> u64 {
    let words = words_of(task);
    summed!(words.iter(), task.rounds, |word, round| {
        let mut text = T::made(word);
        let mut popped = 0u64;
        for _ in 0..word.len() {
            let Some(last) = text.pop() else {
                break;
            };
            popped = popped.wrapping_add(u64::from(last));
        }
        popped.wrapping_add(sink(&text, round))
    })
}

#[inline(never)]
fn from_literal<T: Text>(task: &Task) -> u64 {
    let mut sum = 0u64;
    for round in 0..task.rounds {
        let text = T::made("foobar");
        sum = sum.wrapping_add(sink(&text, round));
    }
    sum
}

#[inline(never)]
fn push_literal<T: Text>(task: &Task) -> u64 {
    let mut sum = 0u64;
    for round in 0..task.rounds {
        let mut text = T::made("foobar");
        text.push_str("foobar");
        sum = sum.wrapping_add(sink(&text, round));
    }
    sum
}

#[inline(never)]
fn cloned<T: Text>(task: &Task) -> u64 {
    let texts: Vec<T> = texts_of(task);
    summed!(texts.iter(), task.rounds, |text, round| {
        let copy = text.clone();
        sink(&copy, round)
    })
}
