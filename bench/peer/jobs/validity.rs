//! Which rows are null.

use crate::array::{Fault, Result};
use crate::bits::BitBuffer;

#[derive(Clone)]
pub enum Validity {
    NonNullable,
    AllValid,
    AllInvalid,
    Array(BitBuffer),
}

impl Validity {
    pub fn is_nullable(&self) -> bool {
        !matches!(self, Validity::NonNullable)
    }

    pub fn check(&self, len: usize) -> Result<()> {
        match self {
            Validity::Array(bits) if bits.len() != len => Err(Fault::LengthMismatch),
            _ => Ok(()),
        }
    }

    pub fn slice(&self, start: usize, end: usize) -> Validity {
        match self {
            Validity::Array(bits) => Validity::Array(bits.slice(start, end)),
            _ => self.clone(),
        }
    }

    /// From bits that tell which rows are there, where null may stand.
    pub fn from_bits(bits: BitBuffer) -> Validity {
        match bits.count() {
            count if count == bits.len() => Validity::AllValid,
            0 => Validity::AllInvalid,
            _ => Validity::Array(bits),
        }
    }

    /// Valid in both.
    pub fn and(&self, other: &Validity) -> Result<Validity> {
        Ok(match (self, other) {
            (Validity::NonNullable, _) => other.clone(),
            (_, Validity::NonNullable) => self.clone(),
            (Validity::AllInvalid, _) | (_, Validity::AllInvalid) => Validity::AllInvalid,
            (Validity::AllValid, _) => other.clone(),
            (_, Validity::AllValid) => self.clone(),
            (Validity::Array(left), Validity::Array(right)) => {
                if left.len() != right.len() {
                    return Err(Fault::LengthMismatch);
                }
                Validity::Array(left.and(right))
            }
        })
    }

    pub fn not(&self) -> Validity {
        match self {
            Validity::NonNullable => Validity::NonNullable,
            Validity::AllValid => Validity::AllInvalid,
            Validity::AllInvalid => Validity::AllValid,
            Validity::Array(bits) => Validity::Array(bits.not()),
        }
    }

    /// Overwritten, one row after another, at these places.
    pub fn patch(self, len: usize, indices: &[u32], patches: &Validity) -> Result<Validity> {
        let (Validity::Array(bits), Validity::Array(values)) = (&self, patches) else {
            return Err(Fault::Usage);
        };
        if bits.len() != len || values.len() != indices.len() {
            return Err(Fault::LengthMismatch);
        }
        if let Some(row) = indices.iter().position(|index| *index as usize >= len) {
            return Err(Fault::OutOfBounds(row));
        }
        let mut words = bits.to_words();
        for (row, index) in indices.iter().enumerate() {
            let (word, bit) = (&mut words[*index as usize / 64], index % 64);
            // SAFETY: there are as many values as indices.
            let value = unsafe { values.value_unchecked(row) };
            *word = *word & !(1 << bit) | (value as u64) << bit;
        }
        Ok(Validity::Array(BitBuffer::from_words(words, len)))
    }
}
