//! Records as the exported functions take them: numbers in a flat list, over texts that lie one after another. They are kept so from the start, so that
//! nothing is left to be done where a line is built.
use crate::Refusal;

/// A flat list of records and the text that they lie in.
#[derive(Debug, Clone, Default)]
pub(crate) struct Flat {
    records: Vec<u32>,
    text: Vec<u16>,
    overlong: bool,
}

impl Flat {
    /// Adds a number that is neither a start nor a length.
    pub fn push_number(&mut self, number: u32) {
        self.records.push(number);
    }

    /// Adds a text, and its start and its length to the numbers.
    pub fn push_text(&mut self, units: &[u16]) {
        match (u32::try_from(self.text.len()), u32::try_from(units.len())) {
            (Ok(start), Ok(len)) => {
                self.records.extend_from_slice(&[start, len]);
                self.text.extend_from_slice(units);
            }
            _ => self.overlong = true,
        }
    }

    /// How many numbers there are.
    pub fn numbers(&self) -> usize {
        self.records.len()
    }

    /// How many units all texts have.
    pub fn units(&self) -> usize {
        self.text.len()
    }

    /// Numbers and text, to be lent. Where a start or a length was no `u32` no record can say it, and the texts are far too long for any line or block: that
    /// is refused by 2, before anything else is looked at.
    pub fn lent(&self) -> Result<(&[u32], &[u16]), Refusal> {
        if self.overlong {
            return Err(Refusal::Length);
        }
        Ok((&self.records, &self.text))
    }
}
