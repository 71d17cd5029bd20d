//! The launch line cache: lines that are built once and found again, in memory that the cache owns.
use crate::{raw, CommandLine, Refusal, CACHE_WORDS};

/// Up to [`CACHE_ENTRIES`](crate::CACHE_ENTRIES) ordinary lines, each held under a fingerprint and its key: the program, whether quotes are forced, and kind
/// and text of every argument. A line is found exactly if fingerprint and key are equal to those that it was stored under; docs/CACHE.md says what is proved
/// of it, and how many units to give it.
///
/// The fingerprint is only a hint: under a bad one more keys are compared, and the line is never another key's. [`CommandLine::fingerprint`] makes one. The
/// same key under another fingerprint is held a second time, so a caller makes them by one rule.
///
/// A line is handed out as a part of the cache, so it cannot be used past the next change. No NUL stands behind it.
///
/// ```
/// use aslapush::{wide, CommandLine, LineCache, Refusal};
///
/// let mut cache = LineCache::new(40_000);
/// let list = CommandLine::new(&wide("export.exe")).arg(&wide("tenant 7"));
/// let fingerprint = list.fingerprint();
/// assert_eq!(cache.get(fingerprint, &list), Ok(None));
/// assert_eq!(cache.get_or_build(fingerprint, &list).unwrap(), wide(r#""export.exe" "tenant 7""#));
/// assert_eq!(cache.get(fingerprint, &list).unwrap(), Some(&list.build().unwrap()[..]));
///
/// // A cache that is full refuses what it does not hold: clear it, or do without.
/// let line = match LineCache::new(40).get_or_build(fingerprint, &list) {
///     Err(Refusal::Places | Refusal::Room) => list.build(),
///     line => line.map(<[u16]>::to_vec),
/// };
/// assert_eq!(line, list.build());
/// ```
///
/// A line that is still in use keeps the cache from being changed:
///
/// ```compile_fail,E0499
/// use aslapush::{wide, CommandLine, LineCache};
///
/// let mut cache = LineCache::new(100);
/// let line = cache.get_or_build(1, &CommandLine::new(&wide("a"))).unwrap();
/// cache.clear();
/// assert_eq!(line, wide("\"a\""));
/// ```
#[derive(Debug, Clone)]
pub struct LineCache {
    index: Box<[u64; CACHE_WORDS]>,
    units: Box<[u16]>,
}

/// A line that is held after [`LineCache::store`].
#[derive(Debug, Clone, Copy, PartialEq, Eq)]
pub enum Kept<'a> {
    /// It was held before, and nothing is changed.
    Held(&'a [u16]),
    /// It is held now.
    Stored(&'a [u16]),
}

impl<'a> Kept<'a> {
    /// The line.
    pub fn line(self) -> &'a [u16] {
        match self {
            Kept::Held(line) | Kept::Stored(line) => line,
        }
    }
}

impl LineCache {
    /// An empty cache of so many units. A line takes those of the program, of all argument texts and of the line itself, and two for each argument.
    pub fn new(units: usize) -> Self {
        let mut cache = LineCache { index: Box::new([0; CACHE_WORDS]), units: vec![0; units].into() };
        raw::cache_make(&mut cache.index);
        cache
    }

    /// The line of a list under a fingerprint, where it is held. It refuses by 1 alone, which does not arise here: a list that no line can be built of is
    /// merely not held.
    pub fn get(&self, fingerprint: u64, list: &CommandLine) -> Result<Option<&[u16]>, Refusal> {
        let (state, part) = raw::cache_lookup(&self.index, &self.units, fingerprint, list.key())?;
        Ok((state == raw::State::Hit).then(|| &self.units[part]))
    }

    /// The line of a list under a fingerprint, built and stored where it is not held.
    pub fn get_or_build(&mut self, fingerprint: u64, list: &CommandLine) -> Result<&[u16], Refusal> {
        self.store(fingerprint, list).map(Kept::line)
    }

    /// The same, and whether it was held. It refuses what [`CommandLine::build`] refuses; then what is not held, by [`Refusal::Places`] where all entries are
    /// used, else by [`Refusal::Room`] where it takes more units than are left. A refusal changes nothing.
    pub fn store(&mut self, fingerprint: u64, list: &CommandLine) -> Result<Kept<'_>, Refusal> {
        let (state, part) = raw::cache_store(&mut self.index, &mut self.units, fingerprint, list.key())?;
        let line = &self.units[part];
        Ok(if state == raw::State::Stored { Kept::Stored(line) } else { Kept::Held(line) })
    }

    /// Removes all lines: the only removal there is.
    pub fn clear(&mut self) {
        raw::cache_clear(&mut self.index);
    }
}

impl CommandLine {
    /// A fingerprint for a [`LineCache`], for a caller who has no number that tells lists apart: a hash of the flag, the program, and kind, length and units of
    /// every argument. It is a hint and no more, and may be another one in another version of this crate.
    pub fn fingerprint(&self) -> u64 {
        let key = self.key();
        let (records, text) = key.args.lent().unwrap_or_default();
        let sizes = records.chunks_exact(3).map(|record| u64::from(record[0]) << 32 | u64::from(record[2]));
        let front = [u64::from(key.force_quotes), key.program.len() as u64];
        mixed_units(mixed_units(front.into_iter().chain(sizes).fold(0, mixed), key.program), text)
    }
}

/// A word mixed into a hash. The turn brings the high bits down, where the product spreads them again: without it, keys that differ in the first unit of two
/// fours often have one hash.
fn mixed(hash: u64, word: u64) -> u64 {
    (hash.rotate_left(26) ^ word).wrapping_mul(0x9e37_79b9_7f4a_7c15)
}

/// Units mixed into a hash, four at a time, because a hash of unit by unit takes half as long as building the line.
fn mixed_units(hash: u64, units: &[u16]) -> u64 {
    let word = |units: &[u16]| units.iter().fold(0, |word, unit| word << 16 | u64::from(*unit));
    let fours = units.chunks_exact(4);
    let rest = word(fours.remainder());
    mixed(fours.map(word).fold(hash, mixed), rest)
}
