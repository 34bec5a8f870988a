//! A workload of `crates/bench` by hand over a Rust type: it takes the same words, and prints the
//! same sum. The type is `String`; built with `--cfg original`, the text of the original crate.
// Built with `--cfg workload="WORD"`; the loops of other workloads lie unused.
#![allow(dead_code, unused_imports)]
mod fold;
mod keys;
mod lists;
mod loops;
mod pieces;
mod readers;
mod text;

use std::io::Read;

/// A workload on an input, as in `crates/bench`.
pub struct Task<'a> {
    pub workload: &'a str,
    pub input: &'a [u8],
    pub width: usize,
    pub rounds: usize,
}

fn checksum() -> Option<u64> {
    let words: Vec<String> = std::env::args().skip(1).collect();
    let mut input = Vec::new();
    std::io::stdin().read_to_end(&mut input).ok()?;
    let task = Task {
        workload: words.get(1)?,
        input: &input,
        width: words.get(2)?.parse().ok()?,
        rounds: words.get(3)?.parse().ok()?,
    };
    let name = if cfg!(original) { "InlinableString" } else { "String" };
    if words[0] == name { loops::sum_of::<text::Own>(&task) } else { None }
}

fn main() -> std::process::ExitCode {
    match checksum() {
        Some(sum) => {
            println!("{sum}");
            std::process::ExitCode::SUCCESS
        }
        None => std::process::ExitCode::FAILURE,
    }
}
