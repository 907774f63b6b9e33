//! Counts the words of standard input: a program in Rust that knows nothing of components.
//!
//! Each argument is a word that is not counted. It prints a line for each other word, the most frequent first, and ends with status 1 where
//! there is none.
use std::collections::{BTreeMap, BTreeSet};
use std::io::{self, BufRead};
use std::process::exit;

/// How often each word occurs, apart from these.
fn counted(input: impl BufRead, skipped: &BTreeSet<String>) -> io::Result<BTreeMap<String, usize>> {
    let mut counts = BTreeMap::new();
    for line in input.lines() {
        for word in line?.split_whitespace().map(str::to_lowercase) {
            if !skipped.contains(&word) {
                *counts.entry(word).or_default() += 1;
            }
        }
    }
    Ok(counts)
}

fn main() -> io::Result<()> {
    let skipped = std::env::args().skip(1).collect();
    let mut words: Vec<_> = counted(io::stdin().lock(), &skipped)?.into_iter().collect();
    words.sort_by_key(|(_, count)| std::cmp::Reverse(*count));
    for (word, count) in &words {
        println!("{count} {word}");
    }
    if words.is_empty() {
        eprintln!("{}", std::env::var("NOTHING").unwrap_or_else(|_| "no words".to_owned()));
        exit(1);
    }
    Ok(())
}
