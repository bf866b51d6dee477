//! Digests of arrays, by which this program and `vx_jobs` are compared.
//!
//! A digest goes over the data type of an array, with all names, and over its parts, both down to
//! six levels. What `vx_jobs` lays out in another way has the digest that it has there: a validity
//! that is bits counts as an array of truth values, each layout has a number, a dictionary a flag.

use crate::array::{Array, DType, Layout, PType, Result};
use crate::bits::BitBuffer;
use crate::buffer::Buffer;
use crate::validity::Validity;
use std::ops::Range;
use std::sync::Arc;

/// How deep arrays are looked into: of what lies deeper, only the kind and the length count.
const LEVELS: u32 = 6;

/// A running digest, in which the order counts. Of what many arrays share, each turn takes another
/// part, so that all turns together take the whole.
#[derive(Clone, Copy)]
pub struct Digest {
    state: u64,
    turn: usize,
    turns: usize,
}

/// A word after others.
#[inline]
fn mixed(state: u64, word: u64) -> u64 {
    (state.rotate_left(5) ^ word).wrapping_mul(0x517c_c1b7_2722_0a95)
}

/// Four digests side by side: of each four words, each goes into one of its own.
struct Lanes([u64; 4]);

impl Lanes {
    #[inline]
    fn add(&mut self, words: [u64; 4]) {
        for (lane, word) in self.0.iter_mut().zip(words) {
            *lane = mixed(*lane, word);
        }
    }

    fn joined(self) -> u64 {
        let [first, rest @ ..] = self.0;
        rest.into_iter().fold(first, mixed)
    }
}

// ---- words, bytes, bits ----

impl Digest {
    pub fn new(turns: usize) -> Digest {
        Digest { state: 0, turn: 0, turns }
    }

    pub fn value(self) -> u64 {
        self.state
    }

    pub fn next_turn(self) -> Digest {
        Digest { turn: self.turn + 1, ..self }
    }

    /// The part of so many bytes or rows that has its turn.
    fn part(self, len: usize) -> Range<usize> {
        let step = len / self.turns.max(1) + 1;
        let start = len.min(self.turn * step);
        start..len.min(start + step)
    }

    #[inline]
    pub fn with_word(self, word: u64) -> Digest {
        Digest { state: mixed(self.state, word), ..self }
    }

    fn with_count(self, count: usize) -> Digest {
        self.with_word(count as u64)
    }

    fn lanes(self) -> Lanes {
        Lanes([self.state, 1, 2, 3])
    }

    fn after(self, lanes: Lanes) -> Digest {
        Digest { state: lanes.joined(), ..self }
    }

    /// Words by fours, then those that are left, then each byte that is left.
    fn with_words(self, bytes: &[u8]) -> Digest {
        let (words, rest) = bytes.as_chunks::<8>();
        let (fours, last) = words.as_chunks::<4>();
        let mut lanes = self.lanes();
        for four in fours {
            lanes.add(four.map(u64::from_le_bytes));
        }
        let words = last.iter().map(|word| u64::from_le_bytes(*word));
        let words = words.chain(rest.iter().map(|byte| *byte as u64));
        words.fold(self.after(lanes), Digest::with_word)
    }

    pub fn with_bytes(self, bytes: &[u8]) -> Digest {
        self.with_count(bytes.len()).with_words(bytes)
    }

    /// Views: the words are those of their bytes, two to a view.
    pub fn with_views(self, views: &Buffer) -> Digest {
        self.with_count(views.len() / 16).with_words(views.as_slice())
    }

    /// A few bits as a word that begins with a one.
    fn with_some(self, bits: &BitBuffer, places: Range<usize>) -> Digest {
        self.with_word(places.fold(1, |word, i| word << 1 | bits.value(i) as u64))
    }

    /// Those up to the first whole byte, the whole bytes, and those after the last.
    fn with_bits(self, bits: &BitBuffer) -> Digest {
        let (offset, bytes) = bits.parts();
        let len = bits.len();
        let first = ((8 - offset) % 8).min(len);
        let last = len - (len - first) % 8;
        let digest = self.with_count(len).with_some(bits, 0..first);
        let whole = bytes.get(offset.div_ceil(8)..(offset + last) / 8);
        let digest = whole.map_or(digest, |whole| digest.with_bytes(whole));
        digest.with_some(bits, last..len)
    }

    /// A mask: its length, how many are true, and where each run begins and ends.
    pub fn with_mask(self, bits: &BitBuffer) -> Digest {
        let digest = self.with_count(bits.len()).with_count(bits.count());
        let (mut lanes, mut held) = (digest.lanes(), None::<[u64; 2]>);
        bits.for_each_run(|start, end| match held.take() {
            None => held = Some([start as u64, end as u64]),
            Some([before, up_to]) => lanes.add([before, up_to, start as u64, end as u64]),
        });
        held.into_iter().flatten().fold(digest.after(lanes), Digest::with_word)
    }

    /// All bytes of buffers.
    pub fn with_buffers(self, buffers: &[Buffer]) -> Digest {
        let digest = self.with_count(buffers.len());
        buffers.iter().fold(digest, |digest, buffer| digest.with_bytes(buffer.as_slice()))
    }

    /// The length of each buffer, and its part that has its turn.
    fn with_parts(self, buffers: &[Buffer]) -> Digest {
        buffers.iter().fold(self.with_count(buffers.len()), |digest, buffer| {
            let part = &buffer.as_slice()[digest.part(buffer.len())];
            digest.with_count(buffer.len()).with_bytes(part)
        })
    }
}

// ---- data types ----

impl Digest {
    fn with_ptype(self, ptype: PType) -> Digest {
        self.with_count(ptype.width()).with_word(ptype.is_unsigned() as u64)
    }

    fn with_names(self, names: &[Arc<str>]) -> Digest {
        let digest = self.with_count(names.len());
        names.iter().fold(digest, |digest, name| digest.with_bytes(name.as_bytes()))
    }

    /// A data type, without the names and data types in it.
    fn with_kind(self, dtype: &DType) -> Digest {
        let digest = self.with_word(dtype.is_nullable() as u64);
        match dtype {
            DType::Bool(_) => digest.with_word(1),
            DType::Primitive(ptype, _) => digest.with_word(2).with_ptype(*ptype),
            DType::Utf8(_) => digest.with_word(3),
            DType::Binary(_) => digest.with_word(4),
            DType::List(..) => digest.with_word(5),
            DType::FixedSizeList(_, size, _) => digest.with_word(6).with_word(*size as u64),
            DType::Struct(..) => digest.with_word(7),
        }
    }

    fn with_dtype(self, dtype: &DType, level: u32) -> Digest {
        let digest = self.with_kind(dtype);
        let Some(below) = level.checked_sub(1) else {
            return digest;
        };
        match dtype {
            DType::List(items, _) | DType::FixedSizeList(items, _, _) => {
                digest.with_dtype(items, below)
            }
            DType::Struct(fields, _) => {
                let digest = digest.with_names(&fields.names);
                fields.dtypes.iter().fold(digest, |digest, dtype| digest.with_dtype(dtype, below))
            }
            _ => digest,
        }
    }
}

// ---- arrays ----

impl Digest {
    /// An array: its data type, and its parts.
    pub fn with_array(self, array: &Array) -> Result<Digest> {
        self.with_dtype(&array.dtype, LEVELS).with_level(array, LEVELS)
    }

    pub fn with_arrays<'a>(
        self,
        arrays: impl IntoIterator<Item = &'a Arc<Array>>,
    ) -> Result<Digest> {
        arrays.into_iter().try_fold(self, |digest, array| digest.with_array(array))
    }

    fn with_level(self, array: &Array, level: u32) -> Result<Digest> {
        let digest = self.with_kind(&array.dtype);
        let Some(below) = level.checked_sub(1) else {
            return Ok(digest.with_count(array.len));
        };
        let digest = digest.with_layout(array, below)?;
        Ok(match &array.layout {
            Layout::Dict { .. } => digest,
            layout => digest.with_validity(layout.validity(), below),
        })
    }

    /// The number of a layout, and its parts but the validity.
    fn with_layout(self, array: &Array, below: u32) -> Result<Digest> {
        Ok(match &array.layout {
            Layout::Bool { bits, .. } => self.with_word(1).with_bits(bits),
            Layout::Primitive { ptype, values, .. } => {
                self.with_word(2).with_ptype(*ptype).with_bytes(values.as_slice())
            }
            // No dictionary of the jobs says that each value has a code.
            Layout::Dict { codes, values } => {
                let digest = self.with_word(4).with_word(false as u64);
                digest.with_level(codes, below)?.with_level(values, below)?
            }
            Layout::FixedSizeList { elements, size, .. } => {
                let digest = self.with_word(5).with_word(*size as u64).with_count(array.len);
                digest.with_level(elements, below)?
            }
            Layout::ListView { elements, offsets, sizes, flag, .. } => {
                let digest = self.with_word(6).with_word(*flag as u64);
                let digest = digest.with_level(offsets, below)?.with_level(sizes, below)?;
                digest.with_elements(elements, array.len, below)?
            }
            Layout::VarBinView { views, buffers, .. } => {
                self.with_word(7).with_views(views).with_parts(buffers)
            }
            Layout::Struct { columns, .. } => {
                let digest = self.with_word(8).with_names(array.names()?).with_count(array.len);
                let mut columns = columns.iter();
                columns.try_fold(digest, |digest, column| digest.with_level(column, below))?
            }
        })
    }

    fn with_validity(self, validity: &Validity, below: u32) -> Digest {
        match validity {
            Validity::NonNullable => self.with_word(0),
            Validity::AllValid => self.with_word(1),
            Validity::AllInvalid => self.with_word(2),
            Validity::Array(bits) => {
                let digest = self.with_kind(&DType::Bool(false));
                match below {
                    0 => digest.with_count(bits.len()),
                    _ => digest.with_word(1).with_bits(bits).with_word(0),
                }
            }
        }
    }

    /// The elements of so many lists; of those that many more share, the part that has its turn.
    fn with_elements(self, elements: &Array, lists: usize, below: u32) -> Result<Digest> {
        let digest = self.with_count(elements.len);
        if elements.len / 16 <= lists {
            return digest.with_level(elements, below);
        }
        let part = digest.part(elements.len);
        digest.with_level(&*elements.slice(part.start, part.end)?, below)
    }

    /// All buffers of the texts in an array.
    pub fn with_texts(self, array: &Array) -> Digest {
        self.with_texts_in(array, LEVELS)
    }

    fn with_texts_in(self, array: &Array, level: u32) -> Digest {
        let Some(below) = level.checked_sub(1) else {
            return self;
        };
        match &array.layout {
            Layout::VarBinView { buffers, .. } => self.with_buffers(buffers),
            Layout::Dict { values: within, .. }
            | Layout::FixedSizeList { elements: within, .. }
            | Layout::ListView { elements: within, .. } => self.with_texts_in(within, below),
            Layout::Struct { columns, .. } => {
                columns.iter().fold(self, |digest, column| digest.with_texts_in(column, below))
            }
            Layout::Bool { .. } | Layout::Primitive { .. } => self,
        }
    }
}
