//! The launch line cache: a lookup and a storing, beside building the same line by the Rust and by this library.
use crate::inputs::{cases, sql, wide};
use crate::{best, ours, seen};
use aslapush::{CommandLine, LineCache};
use oracle::prepared::Prepared;
use std::hint::black_box;

/// How many entries are held.
const HELD: [usize; 3] = [1, 16, 64];

/// A list that is looked up, its line, and what building it takes on both sides.
struct List {
    name: &'static str,
    program: Vec<u16>,
    args: Vec<Vec<u16>>,
    flat: ours::Flat,
    line: Vec<u16>,
    rust: f64,
    ours: f64,
}

impl List {
    fn new(name: &'static str, args: Vec<Vec<u16>>, ours: &mut ours::Buffers) -> List {
        let program = wide("export.exe");
        let (prepared, flat) = (Prepared::new(&program, &args), ours::Flat::new(&args));
        let line = prepared.line(false);
        assert_eq!(line, ours.line(&program, &flat, false), "{name}");
        let rust = best(|| seen(prepared.line(false)));
        let ours = best(|| seen(ours.line(&program, &flat, false).len()));
        List { name, program, args, flat, line, rust, ours }
    }

    /// The same list but for the last unit of its last argument, so that comparing the two goes to the end.
    fn other(&self, i: usize) -> ours::Flat {
        let mut args = self.args.clone();
        *args.last_mut().unwrap().last_mut().unwrap() = 0x100 + i as u16;
        ours::Flat::new(&args)
    }

    /// A store of others under fingerprints.
    fn others(&self, fingerprints: &[u64]) -> ours::Store {
        let uses = 3 * self.line.len();
        let mut store = ours::Store::new(64 * uses);
        for (i, fingerprint) in fingerprints.iter().enumerate() {
            store.store(*fingerprint, &self.program, &self.other(i)).unwrap();
        }
        store
    }

    /// A store of so many, this list the last, each under a fingerprint of its own from 1 on.
    fn held(&self, count: usize) -> ours::Store {
        let before: Vec<u64> = (1..count as u64).collect();
        let mut store = self.others(&before);
        assert_eq!(store.store(count as u64, &self.program, &self.flat), Some(&self.line[..]), "{}", self.name);
        store
    }

    /// A call's times, by how many entries are held.
    fn row(&self, call: &str, times: &[f64]) {
        print!("{:<52} {:>12.0} {:>12.0}", format!("{call}, {}", self.name), self.rust, self.ours);
        times.iter().for_each(|time| print!(" {time:>12.0}"));
        println!();
    }

    /// The time of a lookup that must come to what is expected.
    fn looked(&self, store: &ours::Store, fingerprint: u64, expected: Option<&[u16]>) -> f64 {
        assert_eq!(store.look(fingerprint, &self.program, &self.flat), expected, "{}", self.name);
        best(|| seen(store.look(black_box(fingerprint), &self.program, &self.flat)))
    }

    /// Hits and misses. The times of the hits.
    fn lookups(&self) -> [f64; 3] {
        let hits = HELD.map(|count| self.looked(&self.held(count), count as u64, Some(&self.line)));
        self.row("hit", &hits);
        self.row("miss by fingerprint", &HELD.map(|count| self.looked(&self.held(count), 0, None)));
        self.row("miss under equal fingerprints", &HELD.map(|count| self.looked(&self.others(&vec![7; count]), 7, None)));
        hits
    }

    /// Storing in a store that is cleared before each call.
    fn storing(&self) {
        let mut store = self.held(1);
        let time = best(|| {
            store.clear();
            seen(store.store(black_box(1), &self.program, &self.flat).is_some());
        });
        assert_eq!(store.look(1, &self.program, &self.flat), Some(&self.line[..]), "{}", self.name);
        self.row("clear and store", &[time]);
    }

    /// The binding, with a fingerprint that is at hand and with its own.
    fn binding(&self) {
        let list = self.args.iter().fold(CommandLine::new(&self.program), |list, arg| list.arg(arg));
        let (mut cache, print) = (LineCache::new(3 * self.line.len()), list.fingerprint());
        assert_eq!(cache.get_or_build(print, &list), Ok(&self.line[..]), "{}", self.name);
        assert_eq!(cache.get(print, &list), Ok(Some(&self.line[..])), "{}", self.name);
        self.row("binding: hit", &[best(|| seen(cache.get(black_box(print), &list)))]);
        self.row("binding: fingerprint and hit", &[best(|| seen(cache.get(black_box(&list).fingerprint(), &list)))]);
    }
}

/// Whether a goal is reached: a time, as a part of another.
fn goal(what: &str, time: f64, other: f64, most: f64) {
    let part = time / other;
    println!("goal: {what}: at most {most:.2}, is {part:.2}: {}", if part <= most { "reached" } else { "not reached" });
}

/// All rows, and the goals.
pub fn rows(ours: &mut ours::Buffers) {
    println!("\nshort: the 16 short arguments; long: one argument, SQL of 10,000 units; the list that is hit was stored last");
    println!(
        "{:<52} {:>12} {:>12} {:>12} {:>12} {:>12}",
        "launch line cache, ns a call", "Rust builds", "ours builds", "1 held", "16 held", "64 held"
    );
    let short = List::new("short", cases().swap_remove(0).args, ours);
    let long = List::new("long", vec![sql(10_000)], ours);
    let [hits, long_hits] = [&short, &long].map(|list| {
        let hits = list.lookups();
        list.storing();
        list.binding();
        hits
    });
    let (text, copy) = (sql(10_000), sql(10_000));
    let plain = best(|| seen(black_box(&text) == black_box(&copy)));
    long.row("plain comparison", &[plain]);
    goal("a short hit, 1 held, of the Rust's building", hits[0], short.rust, 1.0 / 10.0);
    goal("a short hit, 64 held, of the Rust's building", hits[2], short.rust, 1.0 / 6.0);
    goal("a long hit, 1 held, of a plain comparison", long_hits[0], plain, 1.2);
}
