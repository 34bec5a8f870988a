//! The jobs `growth-*` and `deletions-*` of `crates/jobs` by hand over maps of Rust's std, on the same inputs: it takes
//! the same words, and prints the same digest.
mod drawn;
mod fold;

use drawn::{Drawn, Names};
use fold::Fold;
use std::collections::{BTreeMap, HashMap};
use std::hash::{Hash, Hasher};

struct Task {
    seed: u64,
    size: u64,
    inputs: u64,
}

fn add_found(digest: &mut Fold, text: Option<&String>) {
    match text {
        Some(text) => text.hash(digest),
        None => digest.write_u8(0),
    }
}

fn add_number(digest: &mut Fold, number: Option<&u64>) {
    match number {
        Some(number) => digest.write_u64(*number),
        None => digest.write_u8(0),
    }
}

trait Table: Default {
    fn put(&mut self, key: &str, value: &str, digest: &mut Fold);
    fn add_found(&self, key: &str, digest: &mut Fold);
}

/// What it costs to draw the keys and the values.
#[derive(Default)]
struct Nothing;

impl Table for Nothing {
    fn put(&mut self, key: &str, value: &str, digest: &mut Fold) {
        digest.write_u64(key.len() as u64);
        digest.write_u64(value.len() as u64);
    }

    fn add_found(&self, key: &str, digest: &mut Fold) {
        digest.write_u64(key.len() as u64);
    }
}

impl Table for BTreeMap<String, String> {
    fn put(&mut self, key: &str, value: &str, _: &mut Fold) {
        self.insert(key.into(), value.into());
    }

    fn add_found(&self, key: &str, digest: &mut Fold) {
        add_found(digest, self.get(key));
    }
}

impl Table for HashMap<String, String> {
    fn put(&mut self, key: &str, value: &str, _: &mut Fold) {
        self.insert(key.into(), value.into());
    }

    fn add_found(&self, key: &str, digest: &mut Fold) {
        add_found(digest, self.get(key));
    }
}

/// The ids of a symbol table.
impl Table for HashMap<String, u64> {
    fn put(&mut self, key: &str, _: &str, digest: &mut Fold) {
        let id = self.len() as u64;
        self.insert(key.into(), id);
        digest.write_u64(id);
    }

    fn add_found(&self, key: &str, digest: &mut Fold) {
        add_number(digest, self.get(key));
    }
}

fn growth<T: Table>(task: &Task) -> u64 {
    let mut digest = Fold::default();
    for input in 0..task.inputs {
        let names = Names::new(task.seed, input);
        let (mut key, mut value) = (String::new(), String::new());
        let mut table = T::default();
        for number in 0..task.size {
            names.write_distinct(number, &mut key);
            names.write_value(number, &mut value);
            table.put(&key, &value, &mut digest);
        }
        for number in Drawn::new(task.seed, task.size).chain(task.size..3 * task.size) {
            names.write_distinct(number, &mut key);
            table.add_found(&key, &mut digest);
        }
    }
    digest.finish()
}

/// A map, and what is needed to put keys in by their numbers, which are the values.
struct Numbered {
    names: Names,
    key: String,
    map: BTreeMap<String, u64>,
    digest: Fold,
}

impl Numbered {
    fn put(&mut self, number: u64) {
        self.names.write_rising(number, &mut self.key);
        self.map.insert(self.key.clone(), number);
    }

    fn delete(&mut self, number: u64) {
        self.names.write_rising(number, &mut self.key);
        add_number(&mut self.digest, self.map.remove(&self.key).as_ref());
    }

    fn delete_first(&mut self) {
        self.key.clear();
        if let Some(key) = self.map.keys().next() {
            self.key.push_str(key);
        }
        add_number(&mut self.digest, self.map.remove(&self.key).as_ref());
    }

    fn fill(&mut self, task: &Task) {
        Drawn::new(task.seed, task.size).for_each(|number| self.put(number));
    }

    fn refill(&mut self, task: &Task) {
        let drawn = Drawn::new(task.seed.wrapping_add(1), task.size);
        drawn.filter(|number| number % 10 != 0).for_each(|number| self.delete(number));
        self.fill(task);
    }

    fn queue(&mut self, task: &Task) {
        for number in 0..4 * task.size {
            self.delete(number);
            self.put(number + task.size);
        }
    }

    fn delete_all(&mut self, task: &Task, order: &str) -> Option<()> {
        match order {
            "none" => (),
            "rising" => (0..task.size).for_each(|number| self.delete(number)),
            "falling" => (0..task.size).rev().for_each(|number| self.delete(number)),
            "drawn" => Drawn::new(task.seed.wrapping_add(1), task.size).for_each(|number| self.delete(number)),
            "first" => (0..task.size).for_each(|_| self.delete_first()),
            "queue" => self.queue(task),
            "refill" => (0..2).for_each(|_| self.refill(task)),
            _ => return None,
        }
        Some(())
    }
}

fn deletions(task: &Task, order: &str) -> Option<u64> {
    let mut digest = Fold::default();
    for input in 0..task.inputs {
        let names = Names::new(task.seed, input);
        let mut numbered = Numbered { names, key: String::new(), map: BTreeMap::new(), digest };
        numbered.fill(task);
        numbered.delete_all(task, order)?;
        numbered.map.values().for_each(|number| numbered.digest.write_u64(*number));
        digest = numbered.digest;
    }
    Some(digest.finish())
}

fn digest() -> Option<u64> {
    let words: Vec<String> = std::env::args().skip(1).collect();
    let task = Task {
        seed: words.get(1)?.parse().ok()?,
        size: words.get(2)?.parse().ok()?,
        inputs: words.get(3)?.parse().ok()?,
    };
    match words[0].as_str() {
        "growth-drawn" => Some(growth::<Nothing>(&task)),
        "growth-tree" => Some(growth::<BTreeMap<String, String>>(&task)),
        "growth-hash" => Some(growth::<HashMap<String, String>>(&task)),
        "growth-ids" => Some(growth::<HashMap<String, u64>>(&task)),
        job => deletions(&task, job.strip_prefix("deletions-")?),
    }
}

fn main() -> std::process::ExitCode {
    match digest() {
        Some(digest) => {
            println!("{digest:016x}");
            std::process::ExitCode::SUCCESS
        }
        None => std::process::ExitCode::FAILURE,
    }
}
