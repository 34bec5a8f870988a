//! Workloads on texts that are compared, hashed, sorted and looked up.
use crate::fold::Fold;
use crate::pieces::{sink, summed, texts_of, words_of};
use crate::text::Text;
use crate::Task;
use std::cmp::Ordering;
use std::collections::{HashMap, HashSet};
use std::hash::{BuildHasherDefault, Hasher};

type Build = BuildHasherDefault<Fold>;

#[inline(never)]
pub fn equal<T: Text>(task: &Task) -> u64 {
    let left: Vec<T> = texts_of(task);
    let right: Vec<T> = texts_of(task);
    summed!(left.iter().zip(right.iter()), task.rounds, |(a, b), _| equality_of(a, b))
}

#[inline(never)]
fn equality_of<T: Text>(a: &T, b: &T) -> u64 {
    if a == b {
        3
    } else {
        1
    }
}

#[inline(never)]
pub fn ordered<T: Text>(task: &Task) -> u64 {
    let texts: Vec<T> = texts_of(task);
    summed!(texts.iter().zip(texts.iter().skip(1)), task.rounds, |(a, b), _| order_of(a, b))
}

#[inline(never)]
fn order_of<T: Text>(a: &T, b: &T) -> u64 {
    match a.cmp(b) {
        Ordering::Less => 3,
        Ordering::Equal => 2,
        Ordering::Greater => 1,
    }
}

#[inline(never)]
pub fn hashed<T: Text>(task: &Task) -> u64 {
    let texts: Vec<T> = texts_of(task);
    summed!(texts.iter(), task.rounds, |text, _| hash_of(text))
}

#[inline(never)]
fn hash_of<T: Text>(text: &T) -> u64 {
    let mut hasher = Fold::default();
    text.hash(&mut hasher);
    hasher.finish()
}

#[inline(never)]
pub fn sorted<T: Text>(task: &Task) -> u64 {
    let mut sum = 0u64;
    for round in 0..task.rounds {
        let mut texts: Vec<T> = texts_of(task);
        texts.sort_unstable();
        for text in texts.iter() {
            sum = sum.wrapping_mul(3).wrapping_add(sink(text, round));
        }
    }
    sum
}

#[inline(never)]
pub fn set<T: Text>(task: &Task) -> u64 {
    let words = words_of(task);
    let mut sum = 0u64;
    for _ in 0..task.rounds {
        let mut texts: HashSet<T, Build> = HashSet::default();
        for word in words.iter() {
            if texts.insert(T::made(word)) {
                sum = sum.wrapping_add(1);
            }
        }
    }
    sum
}

#[inline(never)]
pub fn interned<T: Text>(task: &Task) -> u64 {
    let words = words_of(task);
    let mut sum = 0u64;
    for _ in 0..task.rounds {
        let mut numbers: HashMap<T, usize, Build> = HashMap::default();
        for word in words.iter() {
            let next = numbers.len();
            let number = *numbers.entry(T::made(word)).or_insert(next);
            sum = sum.wrapping_mul(3).wrapping_add(number as u64);
        }
    }
    sum
}

/// Each word is there, and its text was made before.
#[inline(never)]
pub fn looked_up<T: Text>(task: &Task) -> u64 {
    let mut numbers: HashMap<T, usize, Build> = HashMap::default();
    for text in texts_of(task) {
        let next = numbers.len();
        numbers.entry(text).or_insert(next);
    }
    let texts: Vec<T> = texts_of(task);
    summed!(texts.iter(), task.rounds, |text, _| number_of(&numbers, text))
}

#[inline(never)]
fn number_of<T: Text>(numbers: &HashMap<T, usize, Build>, text: &T) -> u64 {
    numbers.get(text).map_or(7, |number| *number as u64)
}
