//! The exported functions, declared as include/aslapush.h has them, each wrapped once: a slice's pointer and length stay together, an output is allocated
//! and not cleared, and an answer is what was written or a refusal. All that is unsafe in this crate stands here.
use crate::flat::Flat;
use crate::{Refusal, CACHE_WORDS};
use std::ops::Range;

mod c {
    use crate::CACHE_WORDS;

    extern "C" {
        pub fn aslapush_parse_lp_cmd_line(
            units: *const u16, units_len: usize, exe_name: *const u16, exe_name_len: usize, text: *mut u16, text_len: usize, spans: *mut u32,
            spans_len: usize, answer: *mut [u64; 4],
        ) -> u32;
        pub fn aslapush_make_command_line(
            program: *const u16, program_len: usize, records: *const u32, records_len: usize, text: *const u16, text_len: usize, force_quotes: u32,
            out: *mut u16, out_len: usize, answer: *mut [u64; 4],
        ) -> u32;
        pub fn aslapush_make_bat_command_line(
            script: *const u16, script_len: usize, records: *const u32, records_len: usize, text: *const u16, text_len: usize, force_quotes: u32,
            out: *mut u16, out_len: usize, answer: *mut [u64; 4],
        ) -> u32;
        pub fn aslapush_make_envp(
            records: *const u32, records_len: usize, text: *const u16, text_len: usize, out: *mut u16, out_len: usize, answer: *mut [u64; 4],
        ) -> u32;
        pub fn aslapush_read_envp(block: *const u16, block_len: usize, spans: *mut u32, spans_len: usize, answer: *mut [u64; 4]) -> u32;
        pub fn aslapush_status_text(status: u32, out: *mut u16, out_len: usize, answer: *mut [u64; 4]) -> u32;
        pub fn aslapush_code(status: u32) -> i32;
        pub fn aslapush_has_bat_extension(path: *const u16, path_len: usize) -> u32;
        pub fn aslapush_class_of(unit: u16) -> u8;
        pub fn aslapush_cache_make(index: *mut [u64; CACHE_WORDS]);
        pub fn aslapush_cache_clear(index: *mut [u64; CACHE_WORDS]);
        pub fn aslapush_cache_lookup(
            index: *const [u64; CACHE_WORDS], units: *const u16, units_len: usize, fingerprint: u64, program: *const u16, program_len: usize,
            records: *const u32, records_len: usize, text: *const u16, text_len: usize, force_quotes: u32, answer: *mut [u64; 5],
        ) -> u32;
        pub fn aslapush_cache_store(
            index: *mut [u64; CACHE_WORDS], units: *mut u16, units_len: usize, fingerprint: u64, program: *const u16, program_len: usize,
            records: *const u32, records_len: usize, text: *const u16, text_len: usize, force_quotes: u32, answer: *mut [u64; 5],
        ) -> u32;
    }
}

/// Kinds of argument records.
pub const REGULAR: u32 = 0;
pub const RAW: u32 = 1;

/// Room that is lent: allocated, not cleared.
struct Lent<T> {
    room: Vec<T>,
    count: usize,
}

impl<T: Copy> Lent<T> {
    fn new(count: usize) -> Self {
        Lent { room: Vec::with_capacity(count), count }
    }

    /// The pointer that is lent with the count.
    fn pointer(&mut self) -> *mut T {
        self.room.as_mut_ptr()
    }

    /// The first so many elements.
    ///
    /// # Safety
    /// They have been stored, unless they are more than were lent: that panics.
    unsafe fn filled(mut self, count: usize) -> Vec<T> {
        assert!(count <= self.count, "libaslapush.a answered more than it was lent: it is not of this crate's version");
        unsafe { self.room.set_len(count) };
        self.room
    }
}

/// How many arguments or entries and units an answer has.
struct Counts {
    items: usize,
    units: usize,
}

/// The answer of a call, by what it returns and the four numbers that it fills.
fn answered(call: impl FnOnce(&mut [u64; 4]) -> u32) -> Result<Counts, Refusal> {
    let mut answer = [0; 4];
    match call(&mut answer) {
        0 => Ok(Counts { items: answer[1] as usize, units: answer[2] as usize }),
        number => Err(Refusal::of(number, answer[0] as usize)),
    }
}

/// Lends room for so many units to an exported writer and keeps what it wrote.
fn written(room: usize, write: impl FnOnce(*mut u16, &mut [u64; 4]) -> u32) -> Result<Vec<u16>, Refusal> {
    let mut out = Lent::new(room);
    let counts = answered(|answer| write(out.pointer(), answer))?;
    // SAFETY: it answered, so a result of so many units fills the front (`Wrote`, crates/aslapush/specs/Export.antt).
    Ok(unsafe { out.filled(counts.units) })
}

// SAFETY of every call below. Slices, arrays and room are valid for their lengths, their pointers are never null, and none that is written overlaps
// another: that is all that the functions ask; any content may be lent, by their contracts, which have no `requires`. Room is lent uninitialised: the
// functions store initialised units and numbers there and load none (all their stores are those of crates/stores/src/lib.rt), and by the contracts no
// answer depends on what an output held. A store of the cache is read too, and its memory is initialised.

pub fn parse_lp_cmd_line(line: &[u16], exe_name: &[u16], units: usize, numbers: usize) -> Result<(Vec<u16>, Vec<u32>), Refusal> {
    let (mut text, mut spans) = (Lent::new(units), Lent::new(numbers));
    let counts = answered(|answer| unsafe {
        c::aslapush_parse_lp_cmd_line(
            line.as_ptr(), line.len(), exe_name.as_ptr(), exe_name.len(), text.pointer(), units, spans.pointer(), numbers, answer,
        )
    })?;
    // SAFETY: it answered, so texts of so many units and two numbers an argument fill the fronts (`Gave`, crates/aslapush/specs/Export.antt).
    Ok(unsafe { (text.filled(counts.units), spans.filled(2 * counts.items)) })
}

pub fn make_command_line(program: &[u16], args: &Flat, force_quotes: bool, room: usize) -> Result<Vec<u16>, Refusal> {
    let (records, text) = args.lent()?;
    written(room, |out, answer| unsafe {
        c::aslapush_make_command_line(
            program.as_ptr(), program.len(), records.as_ptr(), records.len(), text.as_ptr(), text.len(), force_quotes as u32, out, room, answer,
        )
    })
}

pub fn make_bat_command_line(script: &[u16], args: &Flat, force_quotes: bool, room: usize) -> Result<Vec<u16>, Refusal> {
    let (records, text) = args.lent()?;
    written(room, |out, answer| unsafe {
        c::aslapush_make_bat_command_line(
            script.as_ptr(), script.len(), records.as_ptr(), records.len(), text.as_ptr(), text.len(), force_quotes as u32, out, room, answer,
        )
    })
}

pub fn make_envp(entries: &Flat, room: usize) -> Result<Vec<u16>, Refusal> {
    let (records, text) = entries.lent()?;
    written(room, |out, answer| unsafe {
        c::aslapush_make_envp(records.as_ptr(), records.len(), text.as_ptr(), text.len(), out, room, answer)
    })
}

/// The numbers of the span table, and the units used.
pub fn read_envp(block: &[u16], numbers: usize) -> Result<(Vec<u32>, usize), Refusal> {
    let mut spans = Lent::new(numbers);
    let counts = answered(|answer| unsafe { c::aslapush_read_envp(block.as_ptr(), block.len(), spans.pointer(), numbers, answer) })?;
    // SAFETY: it answered, so four numbers an entry fill the front (`Tabulated`, crates/aslapush/specs/Export.antt).
    Ok((unsafe { spans.filled(4 * counts.items) }, counts.units))
}

pub fn status_text(status: u32, room: usize) -> Result<Vec<u16>, Refusal> {
    written(room, |out, answer| unsafe { c::aslapush_status_text(status, out, room, answer) })
}

pub fn code(status: u32) -> i32 {
    unsafe { c::aslapush_code(status) }
}

pub fn has_bat_extension(path: &[u16]) -> bool {
    unsafe { c::aslapush_has_bat_extension(path.as_ptr(), path.len()) != 0 }
}

pub fn class_of(unit: u16) -> u8 {
    unsafe { c::aslapush_class_of(unit) }
}

/// What a line is held by, beside its fingerprint: the program, the arguments, and whether quotes are forced.
pub struct Key<'a> {
    pub program: &'a [u16],
    pub args: &'a Flat,
    pub force_quotes: bool,
}

/// How a call of the cache ended.
#[derive(Debug, Clone, Copy, PartialEq, Eq)]
pub enum State {
    Missed,
    Hit,
    Held,
    Stored,
}

impl State {
    /// The state of a number of the header's. An unknown one panics, as an unknown refusal does.
    fn of(number: u64) -> State {
        match number {
            0 => State::Missed,
            1 => State::Hit,
            2 => State::Held,
            3 => State::Stored,
            _ => panic!("libaslapush.a answered with state {number}, which this crate does not know: they are of different versions"),
        }
    }
}

/// The answer of a call of the cache, by what it returns and the five numbers that it fills: its state, and the part of the units where the line stands.
fn served(call: impl FnOnce(&mut [u64; 5]) -> u32) -> Result<(State, Range<usize>), Refusal> {
    let mut answer = [0; 5];
    let number = call(&mut answer);
    let [place, state, start, units, _] = answer;
    match number {
        0 => Ok((State::of(state), start as usize..(start + units) as usize)),
        _ => Err(Refusal::of(number, place as usize)),
    }
}

pub fn cache_make(index: &mut [u64; CACHE_WORDS]) {
    unsafe { c::aslapush_cache_make(index) }
}

pub fn cache_clear(index: &mut [u64; CACHE_WORDS]) {
    unsafe { c::aslapush_cache_clear(index) }
}

/// A list that no record can say is far too long for any line, and such a key is not refused but merely not held.
pub fn cache_lookup(index: &[u64; CACHE_WORDS], units: &[u16], fingerprint: u64, key: Key) -> Result<(State, Range<usize>), Refusal> {
    let Ok((records, text)) = key.args.lent() else { return Ok((State::Missed, 0..0)) };
    let (program, force) = (key.program, key.force_quotes as u32);
    served(|answer| unsafe {
        c::aslapush_cache_lookup(
            index, units.as_ptr(), units.len(), fingerprint, program.as_ptr(), program.len(), records.as_ptr(), records.len(), text.as_ptr(), text.len(),
            force, answer,
        )
    })
}

pub fn cache_store(index: &mut [u64; CACHE_WORDS], units: &mut [u16], fingerprint: u64, key: Key) -> Result<(State, Range<usize>), Refusal> {
    let (records, text) = key.args.lent()?;
    let (program, force) = (key.program, key.force_quotes as u32);
    served(|answer| unsafe {
        c::aslapush_cache_store(
            index, units.as_mut_ptr(), units.len(), fingerprint, program.as_ptr(), program.len(), records.as_ptr(), records.len(), text.as_ptr(), text.len(),
            force, answer,
        )
    })
}

#[cfg(test)]
mod tests {
    use super::{Lent, State};

    #[test]
    fn states_are_those_of_the_header() {
        let list = include_str!("../../../include/aslapush.h").split("/* How a lookup or a storing ended. */").nth(1).unwrap();
        let number = |name| list.split_once(name).unwrap().1.split([',', ' ']).next().unwrap().parse().unwrap();
        let states = ["_MISSED = ", "_HIT = ", "_HELD = ", "_STORED = "].map(|name| State::of(number(name)));
        assert_eq!(states, [State::Missed, State::Hit, State::Held, State::Stored]);
    }

    #[test]
    #[should_panic(expected = "of different versions")]
    fn no_other_number_is_taken_for_a_state() {
        State::of(4);
    }

    #[test]
    #[should_panic(expected = "more than it was lent")]
    fn no_more_is_kept_than_was_lent() {
        // SAFETY: more than were lent.
        let _ = unsafe { Lent::<u16>::new(3).filled(4) };
    }
}
