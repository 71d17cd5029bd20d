//! The Rust binding beside the Rust's own functions: both allocate their results and drop them.
use crate::inputs::{Case, cases, entries, wide};
use crate::{best, best_block, row, seen};
use aslapush::{CommandLine, EnvironmentBlock, parse};
use oracle::prepared::{Environment, Prepared, block, read};
use std::hint::black_box;

/// A list for the binding.
fn listed(program: &[u16], case: &Case) -> CommandLine {
    case.args.iter().fold(CommandLine::new(program), |line, arg| line.arg(arg)).force_quotes(case.force)
}

/// Building from a list that is ready, and parsing what was built. The lines must be equal.
fn lines(case: &Case) {
    let (program, name) = (wide("export.exe"), case.name);
    let (prepared, list) = (Prepared::new(&program, &case.args), listed(&program, case));
    let line = prepared.line(case.force);
    assert_eq!(Ok(&line), list.build().as_ref(), "{name}");
    let old = best(|| seen(prepared.line(case.force)));
    let new = best(|| seen(black_box(&list).build()));
    row(&format!("binding: build {name}"), old, new);
    assert_eq!(Ok(read(&line).len()), parse(&line, &[]).map(|args| args.len()), "{name}");
    let old = best(|| seen(read(black_box(&line))));
    let new = best(|| seen(parse(black_box(&line), &[])));
    row(&format!("binding: parse {name}"), old, new);
}

/// Making the list from units and building its line: the binding copies them, the Rust turns them into its own text.
fn making(case: &Case) {
    let program = wide("export.exe");
    let old = best(|| seen(Prepared::new(&program, black_box(&case.args)).line(case.force)));
    let new = best(|| seen(listed(&program, black_box(case)).build()));
    row(&format!("binding: list and build {}", case.name), old, new);
}

fn batches(case: &Case) {
    let (script, name) = (wide("load.bat"), case.name);
    let (prepared, list) = (Prepared::new(&script, &case.args), listed(&script, case));
    assert_eq!(Ok(prepared.batch(case.force)), list.build_batch(), "{name}");
    let old = best(|| seen(prepared.batch(case.force)));
    let new = best(|| seen(black_box(&list).build_batch()));
    row(&format!("binding: batch {name}"), old, new);
}

fn blocks() {
    let entries = entries();
    let environment = Environment::new(&entries);
    let list = entries.iter().fold(EnvironmentBlock::new(), |b, (key, value)| b.entry(key, value));
    assert_eq!(Ok(block(environment.map())), list.build());
    row("binding: block of 60 entries", best_block(&environment), best(|| seen(black_box(&list).build())));
}

/// All rows of the binding.
pub fn rows() {
    let cases = cases();
    cases.iter().for_each(lines);
    making(&cases[0]);
    cases.iter().filter(|case| case.batch).for_each(batches);
    blocks();
}
