//! Inputs made ready once, so that a measurement times the Rust's function alone.
use crate::args::{self, Arg};
use crate::process;
use crate::shims::OsString;

/// A program or script and its arguments, as the Rust holds them.
pub struct Prepared {
    name: Vec<u16>,
    program: OsString,
    args: Vec<Arg>,
}

impl Prepared {
    /// Regular arguments of these units.
    pub fn new(name: &[u16], list: &[Vec<u16>]) -> Prepared {
        let args = list.iter().map(|units| Arg::Regular(OsString::from_wide(units))).collect();
        Prepared { name: name.to_vec(), program: OsString::from_wide(name), args }
    }

    /// The Rust's ordinary line.
    pub fn line(&self, force_quotes: bool) -> Vec<u16> {
        process::line_of(&self.program, &self.args, force_quotes).expect("an accepted line")
    }

    /// The Rust's batch line.
    pub fn batch(&self, force_quotes: bool) -> Vec<u16> {
        args::batch(&self.name, &self.args, force_quotes).expect("an accepted line")
    }
}

/// The Rust's reader, as it hands out its arguments.
pub fn read(line: &[u16]) -> Vec<OsString> {
    args::parse(line, &[])
}

/// An environment as the Rust holds it.
pub struct Environment(Vec<(Vec<u16>, Vec<u16>)>);

impl Environment {
    /// Entries in the map's order.
    pub fn new(entries: &[(Vec<u16>, Vec<u16>)]) -> Environment {
        Environment(entries.to_vec())
    }

    /// The map that the Rust's function takes by value.
    pub fn map(&self) -> process::Map {
        process::map(&self.0)
    }
}

/// The Rust's block of a map.
pub fn block(map: process::Map) -> Vec<u16> {
    process::block_of(map).expect("an accepted block")
}
