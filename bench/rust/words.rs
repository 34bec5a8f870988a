//! The program `word_index` by hand over a map of Rust's std, `btree` or `hash`: it prints the same.
use std::collections::{BTreeMap, HashMap};
use std::env;
use std::io::{self, BufRead, BufWriter, Write};

#[derive(Clone, Copy)]
struct Uses {
    count: usize,
    line: usize,
}

trait Words: Default {
    fn uses_of(&mut self, word: &str) -> Option<&mut Uses>;
    fn put(&mut self, word: &str, uses: Uses);
    fn entries(self) -> Vec<(String, Uses)>;
}

macro_rules! words {
    ($map:ident) => {
        impl Words for $map<String, Uses> {
            fn uses_of(&mut self, word: &str) -> Option<&mut Uses> {
                self.get_mut(word)
            }

            fn put(&mut self, word: &str, uses: Uses) {
                self.insert(word.to_string(), uses);
            }

            fn entries(self) -> Vec<(String, Uses)> {
                self.into_iter().collect()
            }
        }
    };
}

words!(BTreeMap);
words!(HashMap);

/// The words of standard input, the most frequent first; of those that are used equally often the lesser first.
fn ranked<W: Words>() -> io::Result<Vec<(String, Uses)>> {
    let mut words = W::default();
    let mut line = String::new();
    let mut input = io::stdin().lock();
    for number in 1.. {
        line.clear();
        if input.read_line(&mut line)? == 0 {
            break;
        }
        for word in line.split_whitespace() {
            match words.uses_of(word) {
                Some(uses) => uses.count += 1,
                None => words.put(word, Uses { count: 1, line: number }),
            }
        }
    }
    let mut ranked = words.entries();
    ranked.sort_by(|a, b| b.1.count.cmp(&a.1.count).then_with(|| a.0.cmp(&b.0)));
    Ok(ranked)
}

fn main() -> io::Result<()> {
    let ranked = match env::args().nth(1).as_deref() {
        Some("btree") => ranked::<BTreeMap<String, Uses>>()?,
        Some("hash") => ranked::<HashMap<String, Uses>>()?,
        _ => return Err(io::Error::other("btree or hash")),
    };
    let mut out = BufWriter::new(io::stdout().lock());
    for (word, uses) in ranked {
        writeln!(out, "{:>7} {:>7} {word}", uses.count, uses.line)?;
    }
    out.flush()
}
