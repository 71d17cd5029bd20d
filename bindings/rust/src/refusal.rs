//! Why nothing was answered. The numbers, and when each is given, follow the table "Refusals" of the repository's README.md.
//! A new number is a variant here: the compiler then asks for its row in every match but that of [`Refusal::of`], and the tests below for that one and for
//! the header's.
use std::fmt;

/// Why nothing was answered. The place is the index plus 1 of the argument or entry at fault, or 0 for the program, script, line or block.
#[derive(Debug, Clone, Copy, PartialEq, Eq, Hash)]
pub enum Refusal {
    /// 1: a record that is none. This crate makes its own records, so it does not arise here.
    Record {
        /// The index plus 1 of the record at fault.
        place: usize,
    },
    /// 2: more units than the limit: [`READ_UNITS`](crate::READ_UNITS) to read, [`LINE_UNITS`](crate::LINE_UNITS) or
    /// [`BATCH_UNITS`](crate::BATCH_UNITS) in a built line, [`BLOCK_UNITS`](crate::BLOCK_UNITS) in a block.
    Length,
    /// 3: all entries of a [`LineCache`](crate::LineCache) are used. Elsewhere, fewer places are lent than are needed: this crate lends enough.
    Places,
    /// 4: fewer units are left in a [`LineCache`](crate::LineCache) than the line and its key take. Elsewhere, fewer are lent than are needed: this crate
    /// lends enough.
    Room,
    /// 5: a NUL in a program, script, argument, key or value.
    Nul {
        /// The index plus 1 of the argument or entry at fault, or 0 for the program or script.
        place: usize,
    },
    /// 6: CR or LF in a regular argument of a batch line.
    LineBreak {
        /// The index plus 1 of the argument at fault.
        place: usize,
    },
    /// 7: a script that contains a quote mark, or whose last unit as lent is a backslash.
    Script,
    /// 8: a bad entry in a block to read. It has no `=` behind its first unit, or it or the final NUL behind the last entry runs into the end; or the block
    /// starts with a NUL and no second one follows.
    Entry {
        /// The index plus 1 of the first bad entry. A missing final NUL counts as the entry after the last.
        place: usize,
    },
}

impl Refusal {
    /// The refusal's number, 1 to 8.
    pub fn number(self) -> u32 {
        match self {
            Refusal::Record { .. } => 1,
            Refusal::Length => 2,
            Refusal::Places => 3,
            Refusal::Room => 4,
            Refusal::Nul { .. } => 5,
            Refusal::LineBreak { .. } => 6,
            Refusal::Script => 7,
            Refusal::Entry { .. } => 8,
        }
    }

    /// The refusal's place: the index plus 1 of what is at fault, else 0.
    pub fn place(self) -> usize {
        match self {
            Refusal::Record { place } | Refusal::Nul { place } | Refusal::LineBreak { place } | Refusal::Entry { place } => place,
            Refusal::Length | Refusal::Places | Refusal::Room | Refusal::Script => 0,
        }
    }

    /// The refusal of a number and a place that the library gave.
    ///
    /// A number that is not here can only come from an archive that is not of this crate's version: the proved functions give no other (theorems read_only,
    /// line_only, batch_only, block_only, entries_only, status_only, lookup_only and store_only of docs/PROMISES.md). That is a fault of the build and no
    /// property of the caller's input, so it is no variant, which every caller would have to handle and none could: it panics.
    pub(crate) fn of(number: u32, place: usize) -> Refusal {
        match number {
            1 => Refusal::Record { place },
            2 => Refusal::Length,
            3 => Refusal::Places,
            4 => Refusal::Room,
            5 => Refusal::Nul { place },
            6 => Refusal::LineBreak { place },
            7 => Refusal::Script,
            8 => Refusal::Entry { place },
            _ => panic!("libaslapush.a refused by {number} at place {place}, a number that this crate does not know: they are of different versions"),
        }
    }
}

impl fmt::Display for Refusal {
    fn fmt(&self, f: &mut fmt::Formatter<'_>) -> fmt::Result {
        match self {
            Refusal::Record { place } => write!(f, "record {place} has no kind, reaches past the text or is cut"),
            Refusal::Length => write!(f, "the line or block is too long: shorten it"),
            Refusal::Places => write!(f, "too few places are lent, or a cache has used all its entries: lend more, or clear it"),
            Refusal::Room => write!(f, "too few units are lent, or left in a cache: lend more, or clear it"),
            Refusal::Nul { place: 0 } => write!(f, "the program or script contains a NUL: remove it"),
            Refusal::Nul { place } => write!(f, "item {place} contains a NUL: remove it"),
            Refusal::LineBreak { place } => write!(f, "argument {place} contains CR or LF, which would cut a batch line short: remove it"),
            Refusal::Script => write!(f, "the script's name contains a quote mark or ends with a backslash: no file has such a name"),
            Refusal::Entry { place } => write!(f, "entry {place} has no `=` behind its first unit, or the block ends before it does: is it whole?"),
        }
    }
}

impl std::error::Error for Refusal {}

#[cfg(test)]
mod tests {
    use super::Refusal;

    /// The numbers of README.md's table.
    fn table() -> Vec<u32> {
        let section = include_str!("../../../README.md").split("## Refusals").nth(1).unwrap().split("\n## ").next().unwrap();
        section.lines().filter_map(|row| row.strip_prefix('|')?.split('|').next()?.trim().parse().ok()).collect()
    }

    /// The numbers of the header's list.
    fn header() -> Vec<u32> {
        let list = include_str!("../../../include/aslapush.h").split("/* Refusals:").nth(1).unwrap().split("};").next().unwrap();
        let number = |row: &str| row.split_once(" = ")?.1.split(|c: char| !c.is_ascii_digit()).next()?.parse().ok();
        list.lines().filter_map(number).collect()
    }

    #[test]
    fn the_header_has_the_numbers_of_the_table() {
        assert_eq!(header(), table());
    }

    #[test]
    fn every_number_of_the_table_is_decoded_as_itself() {
        let with_place = [1, 5, 6, 8];
        for number in table() {
            let refusal = Refusal::of(number, 9);
            assert_eq!(refusal.number(), number);
            assert_eq!(refusal.place(), if with_place.contains(&number) { 9 } else { 0 });
        }
    }

    #[test]
    fn no_other_number_is_taken_for_one() {
        for number in (0..300).chain([u32::MAX]).filter(|number| !table().contains(number)) {
            let message = *std::panic::catch_unwind(|| Refusal::of(number, 3)).unwrap_err().downcast::<String>().unwrap();
            assert!(message.contains(&format!("refused by {number} at place 3")), "{message}");
        }
    }
}
