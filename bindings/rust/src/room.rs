//! How much room a result can need, by bounds that are proved: docs/PROMISES.md names them, and include/aslapush.h says them for C.
use crate::{BATCH_UNITS, BLOCK_UNITS, LINE_UNITS, READ_UNITS};

// A result past its limit is refused by 2, before the room is judged by 4. So room for the limit is always enough, and no list takes more.

/// Units of room for an ordinary line: the program and its two quotes, and for an argument of n units its space and at most 2n + 2 (form_bound).
pub fn for_line(program: usize, units: usize, arguments: usize) -> usize {
    sum([(1, program), (1, 2), (2, units), (3, arguments)]).min(LINE_UNITS)
}

/// Units of room for a batch line: the script and 31 (batch_line_length), and for an argument of n units its space and at most 8n + 2 (batch_form_bound).
pub fn for_batch_line(script: usize, units: usize, arguments: usize) -> usize {
    sum([(1, script), (1, 31), (8, units), (3, arguments)]).min(BATCH_UNITS)
}

/// Units of room for a block, exactly what it takes: `=` and NUL an entry and a NUL at the end, or two NULs where there are no entries.
pub fn for_block(units: usize, entries: usize) -> usize {
    sum([(1, units), (2, entries), (1, 1)]).clamp(2, BLOCK_UNITS)
}

/// A sum of products, or the greatest number where it is more.
fn sum<const N: usize>(terms: [(usize, usize); N]) -> usize {
    terms.iter().fold(0, |sum, (times, n)| sum.saturating_add(n.saturating_mul(*times)))
}

/// Units of text and numbers of a span table for reading a line: n units and n / 2 + 1 places (text_bound, count_bound). A place is two numbers; where n
/// is odd one more is lent, because the reader measures first where it is lent fewer than n + 2.
pub fn for_arguments(line: usize, exe_name: usize) -> (usize, usize) {
    let units = line.max(exe_name).min(READ_UNITS);
    (units, units + 2)
}

/// Numbers of a span table for reading a block of n units: four an entry, and there are at most (n - 1) / 3 (entries_bound). A slice past the limit is refused
/// by 2, whatever the table has.
pub fn for_entries(block: usize) -> usize {
    4 * (block.min(BLOCK_UNITS).saturating_sub(1) / 3)
}

#[cfg(test)]
mod tests {
    use super::*;

    #[test]
    fn room_is_the_bound() {
        assert_eq!([for_line(3, 0, 0), for_line(3, 4, 1), for_line(3, 3, 2)], [5, 5 + (2 * 4 + 3), 5 + (2 * 3 + 3) + 3]);
        assert_eq!([for_batch_line(5, 0, 0), for_batch_line(5, 3, 1)], [36, 36 + (8 * 3 + 3)]);
        assert_eq!([for_block(0, 0), for_block(0, 1), for_block(2, 1), for_block(3, 2)], [2, 3, 5, 8]);
        assert_eq!([for_arguments(0, 0), for_arguments(4, 9), for_arguments(10, 0)], [(0, 2), (9, 11), (10, 12)]);
        assert_eq!([0, 1, 3, 4, 6, 7].map(for_entries), [0, 0, 0, 4, 4, 8]);
    }

    #[test]
    fn room_stops_at_the_limit() {
        assert_eq!([for_line(LINE_UNITS - 3, 0, 0), for_line(LINE_UNITS - 2, 0, 0), for_line(LINE_UNITS - 1, 0, 0)], [LINE_UNITS - 1, LINE_UNITS, LINE_UNITS]);
        assert_eq!([for_line(usize::MAX, 1, 1), for_line(2, usize::MAX, 1), for_line(2, 0, usize::MAX)], [LINE_UNITS; 3]);
        assert_eq!([for_batch_line(usize::MAX, 1, 1), for_batch_line(2, usize::MAX, 1), for_batch_line(2, 0, usize::MAX)], [BATCH_UNITS; 3]);
        assert_eq!([for_block(usize::MAX, 1), for_block(1, usize::MAX), for_block(BLOCK_UNITS, 0)], [BLOCK_UNITS; 3]);
        assert_eq!([for_arguments(usize::MAX, 0), for_arguments(0, usize::MAX)], [(READ_UNITS, READ_UNITS + 2); 2]);
        assert_eq!([BLOCK_UNITS, usize::MAX].map(for_entries), [87_376; 2]);
    }
}
