//! The judged functions of the Rust, cut at build time and unchanged, over shims; and the questions that are put to them.
pub mod prepared;
pub mod questions;
pub mod shims;

#[allow(dead_code)]
pub mod args {
    use crate::shims::{OsStr, OsString, WStrUnits, ensure_no_nuls, io};
    use std::iter;
    use std::num::NonZero;
    include!(concat!(env!("OUT_DIR"), "/args.rs"));

    /// The Rust's reader over units in memory.
    pub fn parse(units: &[u16], exe_name: &[u16]) -> Vec<OsString> {
        parse_lp_cmd_line(Some(WStrUnits::over(units)), || OsString::from_wide(exe_name))
    }

    /// The Rust's writer of a batch line.
    pub(crate) fn batch(script: &[u16], args: &[Arg], force_quotes: bool) -> io::Result<Vec<u16>> {
        make_bat_command_line(script, args, force_quotes)
    }
}

#[allow(dead_code)]
pub mod process {
    use crate::args::{self, Arg};
    use crate::shims::{EnvKey, OsStr, OsString, ensure_no_nuls, io};
    use std::collections::BTreeMap;
    use std::ffi::c_void;
    use std::num::NonZero;
    use std::{fmt, ptr};
    include!(concat!(env!("OUT_DIR"), "/process.rs"));

    /// The Rust's writer of an ordinary line.
    pub(crate) fn line_of(program: &OsStr, args: &[Arg], force_quotes: bool) -> io::Result<Vec<u16>> {
        make_command_line(program, args, force_quotes)
    }

    /// The same, of a program's units.
    pub(crate) fn line(program: &[u16], args: &[Arg], force_quotes: bool) -> io::Result<Vec<u16>> {
        line_of(&OsString::from_wide(program), args, force_quotes)
    }

    /// An environment as the Rust holds it.
    pub type Map = BTreeMap<EnvKey, OsString>;

    /// The map of entries, in their order.
    pub fn map(entries: &[(Vec<u16>, Vec<u16>)]) -> Map {
        entries.iter().enumerate().map(|(i, (k, v))| (EnvKey::made(k, i), OsString::from_wide(v))).collect()
    }

    /// The Rust's writer of an environment block.
    pub fn block_of(map: Map) -> io::Result<Vec<u16>> {
        make_envp(Some(map)).map(|(_, block)| block)
    }

    /// The same, of entries.
    pub fn block(entries: &[(Vec<u16>, Vec<u16>)]) -> io::Result<Vec<u16>> {
        block_of(map(entries))
    }

    // The Rust's test for a batch suffix, `has_suffix`.
    include!(concat!(env!("OUT_DIR"), "/suffix.rs"));

    /// The Rust's text and code of a status.
    pub fn status(status: u32) -> (String, i32) {
        (ExitStatus(status).to_string(), ExitStatus(status).code().unwrap())
    }
}
