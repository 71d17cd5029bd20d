//! What is read from an environment block: its entries, as parts of the block itself.
use crate::{raw, room, EnvironmentBlock, Refusal};

/// The entries of a block that was read, in its order: each is a key and a value, parts of the units that were lent.
///
/// It keeps the table that was taken for reading, which has room for an entry in every three units that were lent.
#[derive(Debug, Clone)]
pub struct Entries<'a> {
    lent: &'a [u16],
    spans: Vec<u32>,
    used: usize,
}

impl EnvironmentBlock {
    /// Reads a block, as a process has it or [`build`](Self::build) makes it. An entry splits at its first `=` that is not its first unit. What stands behind
    /// the final NUL is no part of the block: [`Entries::rest`].
    ///
    /// An entry whose key is not empty and has no `=` behind its first unit is read back as it was added; and the entries that are read, added to a new block
    /// in their order, build [`Entries::block`] again.
    ///
    /// ```
    /// use aslapush::{wide, EnvironmentBlock, Refusal};
    ///
    /// let dump = wide("PATH=c:\\bin\0=C:=c:\\work\0A=b=c\0\0, and more");
    /// let entries = EnvironmentBlock::read(&dump).unwrap();
    /// let listed: Vec<_> = entries.iter().map(|(key, value)| [key, value].map(String::from_utf16_lossy)).collect();
    /// assert_eq!(listed, [["PATH", "c:\\bin"], ["=C:", "c:\\work"], ["A", "b=c"]]);
    /// assert_eq!((entries.len(), entries.block().len(), entries.rest()), (3, 31, &wide(", and more")[..]));
    ///
    /// // A dump that was cut, and an entry without `=`: the place is the entry's, counted from 1.
    /// assert_eq!(EnvironmentBlock::read(&dump[..20]).unwrap_err(), Refusal::Entry { place: 2 });
    /// assert_eq!(EnvironmentBlock::read(&wide("A=1\0B\0\0")).unwrap_err(), Refusal::Entry { place: 2 });
    /// ```
    pub fn read(lent: &[u16]) -> Result<Entries<'_>, Refusal> {
        let (spans, used) = raw::read_envp(lent, room::for_entries(lent.len()))?;
        Ok(Entries { lent, spans, used })
    }
}

impl<'a> Entries<'a> {
    /// Key and value of each entry.
    pub fn iter(&self) -> impl DoubleEndedIterator<Item = (&'a [u16], &'a [u16])> + ExactSizeIterator + '_ {
        self.spans.chunks_exact(4).map(|spans| (self.part(&spans[..2]), self.part(&spans[2..])))
    }

    /// How many entries there are.
    pub fn len(&self) -> usize {
        self.spans.len() / 4
    }

    /// Whether there are none.
    pub fn is_empty(&self) -> bool {
        self.spans.is_empty()
    }

    /// The units used: the block, with its final NUL.
    pub fn block(&self) -> &'a [u16] {
        &self.lent[..self.used]
    }

    /// The units behind the final NUL, which were ignored.
    pub fn rest(&self) -> &'a [u16] {
        &self.lent[self.used..]
    }

    /// The part of a start and a length.
    fn part(&self, span: &[u32]) -> &'a [u16] {
        &self.lent[span[0] as usize..][..span[1] as usize]
    }
}
