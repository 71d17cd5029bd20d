//! Reading a block, beside what is done without it: a plain search for NUL over the same units, from entry to entry up to the final one.
use crate::inputs::{Entries, entries, wide};
use crate::{best, ours, seen};
use aslapush::{BLOCK_UNITS, EnvironmentBlock};
use std::hint::black_box;

/// The blocks that are read.
fn blocks() -> [(&'static str, Vec<u16>); 4] {
    let usual = entries();
    let many: Entries = usual.iter().cycle().take(1_260).cloned().collect();
    let short: Entries = vec![(wide("A"), vec![]); 20_000];
    let long: Entries = vec![(wide("PATH"), usual.iter().flat_map(|(_, value)| value).copied().cycle().take(60_000).collect())];
    [
        ("60 entries", units(&usual)),
        ("65,535 units", up_to_limit(units(&many))),
        ("20,000 entries of 3 units", units(&short)),
        ("one value of 60,000 units", units(&long)),
    ]
}

fn units(entries: &Entries) -> Vec<u16> {
    entries.iter().fold(EnvironmentBlock::new(), |block, (key, value)| block.entry(key, value)).build().unwrap()
}

/// A block made longer by a last entry up to the limit.
fn up_to_limit(mut block: Vec<u16>) -> Vec<u16> {
    block.pop();
    block.extend(wide("LAST="));
    block.resize(BLOCK_UNITS - 2, 97);
    block.extend([0, 0]);
    block
}

/// The plain search: how many entries there are, and how many units with the final NUL.
fn searched(block: &[u16]) -> (usize, usize) {
    let (mut count, mut at) = (0, 0);
    loop {
        match block[at..].iter().position(|&unit| unit == 0) {
            Some(0) => return (count, at + 1),
            Some(end) => at += end + 1,
            None => panic!("the block has a final NUL"),
        }
        count += 1;
    }
}

/// All rows: by the C interface over a table that is lent once, and by the binding, which allocates it.
pub fn rows(ours: &mut ours::Buffers) {
    println!("\n{:<52} {:>12} {:>12} {:>8}", "reading a block, ns a call", "plain search", "ours", "times");
    for (name, block) in &blocks() {
        let expected = searched(block);
        let read = EnvironmentBlock::read(block).unwrap();
        assert_eq!([ours.entries(block), (read.len(), read.block().len())], [expected; 2], "{name}");
        let plain = best(|| seen(searched(black_box(block))));
        let lent = best(|| seen(ours.entries(black_box(block))));
        let bound = best(|| seen(EnvironmentBlock::read(black_box(block))));
        println!("{name:<52} {plain:>12.0} {lent:>12.0} {:>8.1}", lent / plain);
        println!("{:<52} {plain:>12.0} {bound:>12.0} {:>8.1}", format!("binding: {name}"), bound / plain);
    }
}
