//! Launch lines and environment blocks for Windows processes: built, read and refused exactly as the proved library does.
//!
//! Text is UTF-16 code units, `&[u16]`; [`wide`] makes them of a `str`. Nothing here starts a process, and no line has a terminating NUL: whoever hands
//! one to Windows adds it (include/aslapush.h says what else is to be known there).
//!
//! ```
//! use aslapush::{parse, wide, CommandLine};
//!
//! let line = CommandLine::new(&wide("export.exe")).arg(&wide("tenant 7")).arg(&wide("")).build().unwrap();
//! assert_eq!(line, wide(r#""export.exe" "tenant 7" """#));
//! assert_eq!(parse(&line, &[]).unwrap(), [wide("export.exe"), wide("tenant 7"), wide("")]);
//! ```
#![warn(missing_docs, unsafe_op_in_unsafe_fn)]
mod building;
mod cache;
mod entries;
mod flat;
mod raw;
mod refusal;
mod room;

pub use building::{CommandLine, EnvironmentBlock};
pub use cache::{Kept, LineCache};
pub use entries::Entries;
pub use refusal::Refusal;

/// The most units of a line that is read, and of an executable name that stands for an empty one.
pub const READ_UNITS: usize = 32_767;
/// The most units of an ordinary line that is built. With the NUL that CreateProcessW counts, these are the 32,767 that it takes.
pub const LINE_UNITS: usize = 32_766;
/// The most units of a batch line that is built.
pub const BATCH_UNITS: usize = LINE_UNITS;
/// The most units of a block that is built, and of a slice that a block is read from.
pub const BLOCK_UNITS: usize = 65_535;
/// The most units of a status text.
pub const STATUS_UNITS: usize = 21;
/// The most lines that a [`LineCache`] holds.
pub const CACHE_ENTRIES: usize = 64;
/// The words that a [`LineCache`] takes for its index, beside its units.
pub const CACHE_WORDS: usize = 481;

/// The units of a text.
pub fn wide(text: &str) -> Vec<u16> {
    text.encode_utf16().collect()
}

/// The arguments of a line by the C run-time rules; an empty line has one, the executable name.
pub fn parse(line: &[u16], exe_name: &[u16]) -> Result<Vec<Vec<u16>>, Refusal> {
    let (units, numbers) = room::for_arguments(line.len(), exe_name.len());
    let (text, spans) = raw::parse_lp_cmd_line(line, exe_name, units, numbers)?;
    Ok(spans.chunks_exact(2).map(|span| text[span[0] as usize..][..span[1] as usize].to_vec()).collect())
}

/// The text of a child process's recorded status.
pub fn status_text(status: u32) -> String {
    let text = raw::status_text(status, STATUS_UNITS).expect("this room is enough for every status");
    String::from_utf16(&text).expect("a status text is ASCII")
}

/// The signed code of a recorded status.
pub fn code(status: u32) -> i32 {
    raw::code(status)
}

/// Whether a path ends in `.bat` or `.cmd`, in letters of either case.
pub fn has_bat_extension(path: &[u16]) -> bool {
    raw::has_bat_extension(path)
}

/// The class of a unit, 0 to 7.
pub fn class_of(unit: u16) -> u8 {
    raw::class_of(unit)
}
