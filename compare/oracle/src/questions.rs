//! One question's answer by the Rust, and by the documents where the Rust says nothing: their limits, and NUL in a program or script.
use crate::args::{self, Arg};
use crate::process;
use crate::shims::{NUL, OsString, io};
use std::fmt::Write;

/// The most units of what is read (01), of a line that is built, ordinary or batch (02, E2), and of a block (01).
const READ: usize = 32_767;
const LINE: usize = 32_766;
const BLOCK: usize = 65_535;

/// Units in the one form of a text.
pub fn shown(units: &[u16]) -> String {
    if units.is_empty() {
        return "{}".into();
    }
    let mut text = String::new();
    for &u in units {
        match u {
            123 | 125 => write!(text, "{{{u:x}}}").unwrap(),
            33..=126 => text.push(u as u8 as char),
            _ => write!(text, "{{{u:x}}}").unwrap(),
        }
    }
    text
}

/// The units of a text, or nothing where it is not in its one form.
pub fn units(text: &str) -> Option<Vec<u16>> {
    let mut units = Vec::new();
    let mut rest = if text == "{}" { "" } else { text };
    while let Some(c) = rest.chars().next() {
        if c == '{' {
            let end = rest.find('}')?;
            units.push(u16::from_str_radix(&rest[1..end], 16).ok()?);
            rest = &rest[end + 1..];
        } else {
            units.push(c as u16);
            rest = &rest[1..];
        }
    }
    (shown(&units) == text).then_some(units)
}

/// Whose answer it is.
#[derive(PartialEq, Eq, Clone, Copy)]
pub enum By {
    Rust,
    Documents,
}

/// The place of the argument or entry at fault: the first one with which the Rust refuses.
fn place(count: usize, build: impl Fn(usize) -> bool) -> usize {
    (1..=count).find(|&n| build(n)).unwrap_or(0)
}

fn refused(number: u32, place: usize) -> String {
    format!("refused {number} {place}")
}

fn built(limit: usize, result: Result<Vec<u16>, (u32, usize)>) -> (By, String) {
    match result {
        Err((number, place)) => (By::Rust, refused(number, place)),
        Ok(line) if line.len() > limit => (By::Documents, refused(2, 0)),
        Ok(line) => (By::Rust, format!("ok {}", shown(&line))),
    }
}

/// An argument word, `K:TEXT`.
fn arg(word: &str) -> Option<(u32, Vec<u16>)> {
    let (kind, text) = word.split_once(':')?;
    Some((kind.parse().ok()?, units(text)?))
}

fn lines(verb: &str, words: &[&str]) -> Option<(By, String)> {
    let (force, name) = (*words.first()? == "1", units(words.get(1)?)?);
    let list: Vec<_> = words[2..].iter().map(|w| arg(w)).collect::<Option<_>>()?;
    if let Some(i) = list.iter().position(|(kind, _)| *kind > 1) {
        return Some((By::Documents, refused(1, i + 1)));
    }
    let args: Vec<Arg> = list
        .iter()
        .map(|(kind, text)| if *kind == 0 { Arg::Regular(OsString::from_wide(text)) } else { Arg::Raw(OsString::from_wide(text)) })
        .collect();
    let make = |n: usize| -> io::Result<Vec<u16>> {
        if verb == "line" { process::line(&name, &args[..n], force) } else { args::batch(&name, &args[..n], force) }
    };
    let own = if verb == "line" { &name[..] } else { name.strip_suffix(&[0]).unwrap_or(&name) };
    // A script's refusal comes first in the Rust too; behind it the documents' own test for NUL.
    if let Err(e) = make(0) {
        assert!(e.text.starts_with("Windows file names"));
        return Some((By::Rust, refused(7, 0)));
    }
    if own.contains(&0) {
        return Some((By::Documents, refused(5, 0)));
    }
    let at = |n: usize| make(n).is_err();
    Some(built(LINE, make(args.len()).map_err(|e| (if e.text == NUL { 5 } else { 6 }, place(args.len(), at)))))
}

fn environment(words: &[&str]) -> Option<(By, String)> {
    let entries: Vec<_> = words
        .iter()
        .map(|w| w.split_once(':').and_then(|(k, v)| Some((units(&k.replace("{3a}", ":"))?, units(&v.replace("{3a}", ":"))?))))
        .collect::<Option<_>>()?;
    let at = |n: usize| process::block(&entries[..n]).is_err();
    Some(built(BLOCK, process::block(&entries).map_err(|_| (5, place(entries.len(), at)))))
}

fn read(words: &[&str]) -> Option<(By, String)> {
    let [exe, line] = words else { return None };
    let (exe, line) = (units(exe)?, units(line)?);
    let n = line.iter().position(|&u| u == 0).unwrap_or(line.len());
    if n > READ || n == 0 && exe.len() > READ {
        return Some((By::Documents, refused(2, 0)));
    }
    let list = args::parse(&line, &exe);
    let mut text = format!("ok {}", list.len());
    for a in &list {
        write!(text, " {}", shown(&a.encode_wide().collect::<Vec<_>>())).unwrap();
    }
    Some((By::Rust, text))
}

/// The answer to a question, and whose it is; nothing for a question that is none of these.
pub fn answer(question: &str) -> Option<(By, String)> {
    let words: Vec<&str> = question.split(' ').collect();
    let (verb, rest) = words.split_first()?;
    match *verb {
        "read" => read(rest),
        "line" | "batch" => lines(verb, rest),
        "env" => environment(rest),
        "suffix" => Some((By::Rust, format!("ok {}", process::has_suffix(&units(rest.first()?)?) as u8))),
        "status" => {
            let (text, code) = process::status(rest.first()?.parse().ok()?);
            Some((By::Rust, format!("ok {} {code}", shown(&text.encode_utf16().collect::<Vec<_>>()))))
        }
        _ => None,
    }
}
