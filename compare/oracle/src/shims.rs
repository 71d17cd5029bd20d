//! What the judged functions lean on: restated here, over units in memory, because the text that has it is not given or calls Windows.
use std::cmp::Ordering;
use std::num::NonZero;

/// Errors as the judged functions make them: a kind and a text.
pub mod io {
    #[derive(Debug, PartialEq, Eq, Clone, Copy)]
    pub enum ErrorKind {
        InvalidInput,
    }

    #[derive(Debug, PartialEq, Eq, Clone, Copy)]
    pub struct Error {
        pub kind: ErrorKind,
        pub text: &'static str,
    }

    pub type Result<T> = std::result::Result<T, Error>;

    macro_rules! const_error {
        ($kind:expr, $text:expr $(,)?) => {
            $crate::shims::io::Error { kind: $kind, text: $text }
        };
    }
    pub(crate) use const_error;
}

/// The text of the error for a NUL.
pub const NUL: &str = "strings passed to WinAPI cannot contain NULs";

/// Text as the Rust holds it on Windows: WTF-8 bytes, made from units and turned back into them.
#[derive(Debug, Clone, PartialEq, Eq)]
pub struct OsString {
    bytes: Vec<u8>,
}

/// Borrowed text is the same here.
pub type OsStr = OsString;

/// A code point, surrogates with it.
#[derive(Clone, Copy)]
pub struct CodePoint(u32);

impl CodePoint {
    pub fn to_char(self) -> Option<char> {
        char::from_u32(self.0)
    }
}

/// The inner text, by the names under which the judged functions reach it.
pub struct Inner<'a> {
    pub inner: &'a OsString,
}

impl OsString {
    pub fn from_wide(units: &[u16]) -> OsString {
        let mut bytes = Vec::new();
        for c in char::decode_utf16(units.iter().copied()) {
            match c {
                Ok(c) => bytes.extend(c.encode_utf8(&mut [0; 4]).as_bytes()),
                Err(e) => {
                    let u = e.unpaired_surrogate();
                    bytes.extend([0xe0 | (u >> 12) as u8, 0x80 | (u >> 6 & 0x3f) as u8, 0x80 | (u & 0x3f) as u8]);
                }
            }
        }
        OsString { bytes }
    }

    pub fn as_encoded_bytes(&self) -> &[u8] {
        &self.bytes
    }

    pub fn is_empty(&self) -> bool {
        self.bytes.is_empty()
    }

    pub fn as_inner(&self) -> Inner<'_> {
        Inner { inner: self }
    }

    pub fn code_points(&self) -> impl Iterator<Item = CodePoint> + '_ {
        let mut i = 0;
        std::iter::from_fn(move || {
            let b = &self.bytes[i..];
            let first = *b.first()? as u32;
            let tail = |n: usize| b[n] as u32 & 0x3f;
            let (point, n) = match first {
                0..0x80 => (first, 1),
                0xc0..0xe0 => ((first & 0x1f) << 6 | tail(1), 2),
                0xe0..0xf0 => ((first & 0xf) << 12 | tail(1) << 6 | tail(2), 3),
                _ => ((first & 7) << 18 | tail(1) << 12 | tail(2) << 6 | tail(3), 4),
            };
            i += n;
            Some(CodePoint(point))
        })
    }

    pub fn encode_wide(&self) -> impl Iterator<Item = u16> + '_ {
        self.code_points().flat_map(|CodePoint(p)| {
            let pair = [0xd800 | (p.wrapping_sub(0x10000) >> 10 & 0x3ff) as u16, 0xdc00 | (p & 0x3ff) as u16];
            let one = [p as u16, 0];
            let (units, n) = if p < 0x10000 { (one, 1) } else { (pair, 2) };
            units.into_iter().take(n)
        })
    }
}

/// Refuses text with a NUL and hands it back otherwise.
pub fn ensure_no_nuls<T: std::borrow::Borrow<OsString>>(text: T) -> io::Result<T> {
    if text.borrow().encode_wide().any(|u| u == 0) {
        Err(io::const_error!(io::ErrorKind::InvalidInput, NUL))
    } else {
        Ok(text)
    }
}

/// The units of a line up to its first NUL or its end.
pub struct WStrUnits<'a> {
    rest: &'a [u16],
}

impl<'a> WStrUnits<'a> {
    pub fn over(rest: &'a [u16]) -> Self {
        WStrUnits { rest }
    }

    pub fn peek(&self) -> Option<NonZero<u16>> {
        self.rest.first().and_then(|&u| NonZero::new(u))
    }

    pub fn advance_while<P: FnMut(NonZero<u16>) -> bool>(&mut self, mut pass: P) -> usize {
        let mut count = 0;
        while self.peek().is_some_and(&mut pass) {
            self.next();
            count += 1;
        }
        count
    }
}

impl Iterator for WStrUnits<'_> {
    type Item = NonZero<u16>;

    fn next(&mut self) -> Option<NonZero<u16>> {
        let next = self.peek()?;
        self.rest = &self.rest[1..];
        Some(next)
    }
}

/// A key of an environment. In the Rust its order asks Windows, so here keys keep the order in which they were made.
#[derive(Debug, Clone)]
pub struct EnvKey {
    pub os_string: OsString,
    pub utf16: Vec<u16>,
    index: usize,
}

impl EnvKey {
    pub fn made(utf16: &[u16], index: usize) -> EnvKey {
        EnvKey { os_string: OsString::from_wide(utf16), utf16: utf16.to_vec(), index }
    }
}

impl PartialEq for EnvKey {
    fn eq(&self, other: &Self) -> bool {
        self.index == other.index
    }
}

impl Eq for EnvKey {}

impl PartialOrd for EnvKey {
    fn partial_cmp(&self, other: &Self) -> Option<Ordering> {
        Some(self.cmp(other))
    }
}

impl Ord for EnvKey {
    fn cmp(&self, other: &Self) -> Ordering {
        self.index.cmp(&other.index)
    }
}
