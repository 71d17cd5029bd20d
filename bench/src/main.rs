//! Measures the Rust and this library on the same inputs, in one run, call by call in turn: the best time of many rounds, and the ratio.
mod binding;
mod cache;
mod entries;
mod inputs;
mod ours;

use inputs::{Case, cases, cyrillic, sql};
use oracle::prepared::{Environment, Prepared, block, read};
use std::hint::black_box;
use std::time::Instant;

/// The best time of a call in nanoseconds. Each round takes at least so long that the clock's step does not count.
fn best(mut call: impl FnMut()) -> f64 {
    let mut turns = 1;
    loop {
        let start = Instant::now();
        (0..turns).for_each(|_| call());
        if start.elapsed().as_micros() > 300 {
            break;
        }
        turns *= 2;
    }
    (0..60)
        .map(|_| {
            let start = Instant::now();
            (0..turns).for_each(|_| call());
            start.elapsed().as_nanos() as f64 / turns as f64
        })
        .fold(f64::INFINITY, f64::min)
}

/// Keeps a result, and drops it, so that the work for it is done.
fn seen<T>(result: T) {
    drop(black_box(result));
}

fn row(name: &str, old: f64, new: f64) {
    println!("{name:<52} {old:>12.0} {new:>12.0} {:>8.1}", old / new);
}

/// Writing a line and reading it back, on both sides; the two lines must be equal.
fn lines(case: &Case, ours: &mut ours::Buffers) {
    let prepared = Prepared::new(&inputs::wide("export.exe"), &case.args);
    let flat = ours::Flat::new(&case.args);
    let line = prepared.line(case.force);
    assert_eq!(line, ours.line(&inputs::wide("export.exe"), &flat, case.force), "{}", case.name);
    let (program, name) = (inputs::wide("export.exe"), case.name);
    let old = best(|| seen(prepared.line(case.force)));
    let new = best(|| seen(ours.line(&program, &flat, case.force).len()));
    row(&format!("write {name}"), old, new);
    let count = read(&line).len();
    assert_eq!(count, ours.read(&line), "{name}");
    let old = best(|| seen(read(black_box(&line))));
    let new = best(|| seen(ours.read(black_box(&line))));
    row(&format!("read {name}"), old, new);
}

fn batches(case: &Case, ours: &mut ours::Buffers) {
    let (script, flat) = (inputs::wide("load.bat"), ours::Flat::new(&case.args));
    let prepared = Prepared::new(&script, &case.args);
    assert_eq!(prepared.batch(case.force), ours.batch(&script, &flat, case.force), "{}", case.name);
    let old = best(|| seen(prepared.batch(case.force)));
    let new = best(|| seen(ours.batch(&script, &flat, case.force).len()));
    row(&format!("batch {}", case.name), old, new);
}

/// The Rust's time for a block. It takes its map by value, so the map is cloned outside the time that counts.
fn best_block(environment: &Environment) -> f64 {
    (0..2000)
        .map(|_| {
            let map = environment.map();
            let start = Instant::now();
            black_box(block(map));
            start.elapsed().as_nanos() as f64
        })
        .fold(f64::INFINITY, f64::min)
}

/// A block of 60 entries.
fn blocks(ours: &mut ours::Buffers) {
    let entries = inputs::entries();
    let environment = Environment::new(&entries);
    let flat = ours::Flat::of_entries(&entries);
    assert_eq!(block(environment.map()), ours.block(&flat));
    let old = best_block(&environment);
    let new = best(|| seen(ours.block(&flat).len()));
    row("block of 60 entries", old, new);
}

fn statuses(ours: &mut ours::Buffers) {
    for status in [7, 3_221_225_477] {
        let old = best(|| seen(oracle::process::status(black_box(status)).0));
        let new = best(|| seen(ours.status(black_box(status))));
        row(&format!("status {status}"), old, new);
    }
}

/// How time grows with the units: linear time is 30 times from 1,000 to 30,000.
fn growth(ours: &mut ours::Buffers) {
    println!("\n{:<52} {:>12} {:>12} {:>8}", "growth, ours, ns", "1,000 units", "30,000 units", "times");
    for (name, text) in [("SQL with blanks", sql as fn(usize) -> Vec<u16>), ("Cyrillic", cyrillic)] {
        let flats = [1_000, 30_000].map(|n| ours::Flat::new(&[text(n)]));
        let program = inputs::wide("export.exe");
        let write = [0, 1].map(|i| best(|| seen(ours.line(&program, &flats[i], false).len())));
        let lines = [0, 1].map(|i| ours.line(&program, &flats[i], false).to_vec());
        let back = [0, 1].map(|i| best(|| seen(ours.read(black_box(&lines[i])))));
        for (verb, [small, large]) in [("write", write), ("read", back)] {
            println!("{:<52} {small:>12.0} {large:>12.0} {:>8.1}", format!("{verb} {name}"), large / small);
        }
    }
}

fn main() {
    let mut ours = ours::Buffers::new();
    println!("outputs are lent once and not cleared; the binding allocates its results, as the Rust does");
    println!("{:<52} {:>12} {:>12} {:>8}", "best of 60 rounds, ns a call", "the Rust", "ours", "ratio");
    for case in cases() {
        lines(&case, &mut ours);
    }
    for case in cases().iter().filter(|c| c.batch) {
        batches(case, &mut ours);
    }
    blocks(&mut ours);
    statuses(&mut ours);
    binding::rows();
    growth(&mut ours);
    entries::rows(&mut ours);
    cache::rows(&mut ours);
}
