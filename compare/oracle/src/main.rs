//! Answers each question of standard input. With the word `by` it says in front of each answer whose it is: `rust` or `documents`.
use oracle::questions::{By, answer};
use std::io::{BufRead, BufWriter, Write, stdin, stdout};

fn main() {
    let by = std::env::args().nth(1).is_some_and(|w| w == "by");
    let mut out = BufWriter::new(stdout().lock());
    for line in stdin().lock().lines() {
        let line = line.expect("a question");
        let (whose, text) = answer(&line).unwrap_or((By::Documents, "bad".into()));
        let front = match (by, whose) {
            (false, _) => "",
            (true, By::Rust) => "rust ",
            (true, By::Documents) => "documents ",
        };
        writeln!(out, "{front}{text}").expect("an answer");
    }
}
