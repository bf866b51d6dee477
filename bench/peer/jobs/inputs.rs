//! The inputs of the jobs, as random.rt, texts.rt and columns.rt of `crates/vx_jobs` make them.

use crate::array::{Array, ArrayRef, Fault, PType, Result};
use crate::bits::{BitBuffer, BitBuilder};
use crate::buffer::Buffer;
use crate::texts::{make_view, try_texts};
use crate::validity::Validity;
use std::ops::Range;
use std::sync::Arc;

/// The words of the generator SplitMix64, after Steele, Lea and Flood.
pub struct Random(u64);

/// How many of some bits are true.
#[derive(Clone, Copy)]
pub enum Share {
    /// One in 128.
    Few,
    /// One in two.
    Half,
    /// Seven in eight.
    Most,
}

impl Random {
    pub fn new(seed: u32) -> Random {
        Random(seed as u64)
    }

    #[inline]
    pub fn word(&mut self) -> u64 {
        self.0 = self.0.wrapping_add(0x9E3779B97F4A7C15);
        let mixed = (self.0 ^ (self.0 >> 30)).wrapping_mul(0xBF58476D1CE4E5B9);
        let mixed = (mixed ^ (mixed >> 27)).wrapping_mul(0x94D049BB133111EB);
        mixed ^ (mixed >> 31)
    }

    #[inline]
    pub fn below(&mut self, limit: usize) -> usize {
        let high = self.word() >> 32;
        (high.wrapping_mul(limit as u64) >> 32) as usize
    }

    pub fn numbers(&mut self, count: usize, limit: usize) -> Vec<u32> {
        (0..count).map(|_| self.below(limit) as u32).collect()
    }

    pub fn bytes(&mut self, words: usize, mask: u64) -> Buffer {
        Buffer::from_vec((0..words).map(|_| self.word() & mask).collect())
    }

    fn shared(&mut self, share: Share) -> u64 {
        match share {
            Share::Half => self.word(),
            Share::Most => !(self.word() & self.word() & self.word()),
            Share::Few => {
                let eighth = self.word() & self.word() & self.word();
                eighth & self.word() & self.word() & self.word() & self.word()
            }
        }
    }

    pub fn bits(&mut self, len: usize, share: Share) -> BitBuffer {
        BitBuffer::from_words((0..len / 64 + 1).map(|_| self.shared(share)).collect(), len)
    }

    pub fn bits_in_runs(&mut self, len: usize, run: usize) -> BitBuffer {
        let mut bits = BitBuilder::with_capacity(len);
        let mut value = false;
        while bits.len() < len {
            let count = self.below(run * 2).max(1).min(len - bits.len());
            bits.append_n(value, count);
            value = !value;
        }
        bits.finish()
    }
}

pub fn bits_by_turns(len: usize) -> BitBuffer {
    BitBuffer::new(Buffer::from_vec(vec![0x55u8; len / 8 + 1]), 0, len)
}

/// How long the columns are, how many rows a batch of them has, and how many batches there are.
#[derive(Clone, Copy)]
pub struct Scale {
    pub column: usize,
    pub batch: usize,
    pub rounds: usize,
}

impl Scale {
    pub fn whole(rounds: usize) -> Scale {
        Scale { column: 262_144, batch: 65_536, rounds }
    }

    pub fn small() -> Scale {
        Scale { column: 2_048, batch: 512, rounds: 2 }
    }

    /// The rows of a batch, which begins anywhere.
    pub fn cut(self, random: &mut Random) -> Range<usize> {
        let start = random.below(self.column - self.batch);
        start..start + self.batch
    }
}

// ---- texts ----

#[derive(Clone, Copy)]
pub enum Script {
    Ascii,
    Mixed,
    Rare,
}

pub struct Letters {
    bytes: Vec<u8>,
    starts: Vec<u32>,
}

fn push_letter(bytes: &mut Vec<u8>, script: Script, word: u64) {
    let is_ascii = match script {
        Script::Ascii => true,
        Script::Mixed => word & 1 == 0,
        Script::Rare => word & 511 != 0,
    };
    let low = ((word >> 16) & 63) as u8;
    if is_ascii {
        bytes.push(b' '.wrapping_add(low | 32));
        return;
    }
    match (word >> 10) & 3 {
        0 => bytes.extend_from_slice(&[0xC3, 0x80 | low]),
        1 => bytes.extend_from_slice(&[0xCE, 0x80 | low | 32]),
        _ => bytes.extend_from_slice(&[0xE5, 0x80 | low, 0x80 | (low ^ 21)]),
    }
}

impl Letters {
    pub fn new(random: &mut Random, count: usize, script: Script) -> Letters {
        let (mut bytes, mut starts) = (Vec::new(), Vec::new());
        for _ in 0..count {
            starts.push(bytes.len() as u32);
            push_letter(&mut bytes, script, random.word());
        }
        starts.push(bytes.len() as u32);
        Letters { bytes, starts }
    }

    fn place(&self, random: &mut Random, letters: usize) -> Range<usize> {
        let first = random.below(self.starts.len().saturating_sub(letters + 1));
        let start = self.starts.get(first).copied().unwrap_or(0);
        let end = self.starts.get(first + letters).copied().unwrap_or(start);
        start as usize..end as usize
    }

    pub fn text(&self, random: &mut Random, letters: usize) -> &str {
        let place = self.place(random, letters);
        std::str::from_utf8(self.bytes.get(place).unwrap_or(&[])).unwrap_or("")
    }
}

#[derive(Clone, Copy)]
pub struct Lengths {
    pub least: usize,
    pub more: usize,
}

impl Lengths {
    pub fn any(self, random: &mut Random) -> usize {
        self.least + random.below(self.more)
    }
}

pub const NAMES: Lengths = Lengths { least: 3, more: 20 };

pub struct Parts {
    views: Buffer,
    buffers: Arc<[Buffer]>,
}

impl Parts {
    pub fn new(random: &mut Random, rows: usize, script: Script, lengths: Lengths) -> Parts {
        let count = rows * lengths.least / 2;
        let both = [Letters::new(random, count, script), Letters::new(random, count, script)];
        let mut views = Vec::with_capacity(rows);
        for _ in 0..rows {
            let buffer = random.below(2);
            let letters = &both[buffer];
            let length = lengths.any(random);
            let place = letters.place(random, length);
            views.push(make_view(&letters.bytes[place.clone()], buffer as u32, place.start as u32));
        }
        let buffers = both.map(|letters| Buffer::from_vec(letters.bytes));
        Parts { views: Buffer::from_vec(views), buffers: Arc::new(buffers) }
    }

    pub fn batch(&self, rows: Range<usize>, validity: Validity) -> Result<ArrayRef> {
        let views = self.views.slice(16 * rows.start, 16 * rows.len());
        try_texts(views, self.buffers.clone(), validity)
    }
}

pub fn names(random: &mut Random, rows: usize) -> Result<ArrayRef> {
    Parts::new(random, rows, Script::Ascii, NAMES).batch(0..rows, Validity::NonNullable)
}

// ---- columns ----

pub fn some_null(random: &mut Random, rows: usize) -> Validity {
    Validity::Array(random.bits(rows, Share::Most))
}

pub fn numbers(
    random: &mut Random,
    rows: usize,
    ptype: PType,
    validity: Validity,
) -> Result<ArrayRef> {
    Array::primitive(ptype, random.bytes(rows * ptype.width() / 8, u64::MAX), validity)
}

pub fn codes(random: &mut Random, rows: usize) -> Result<ArrayRef> {
    Array::primitive(
        PType::U16,
        random.bytes(rows / 4, 0x03FF_03FF_03FF_03FF),
        Validity::NonNullable,
    )
}

pub fn dictionary(random: &mut Random, rows: usize) -> Result<ArrayRef> {
    let codes = codes(random, rows)?;
    Array::try_dictionary(codes, names(random, 1024)?)
}

#[derive(Clone, Copy)]
pub enum Lie {
    InOrder,
    Anywhere,
}

pub fn places(
    random: &mut Random,
    rows: usize,
    elements: usize,
    most: usize,
    lie: Lie,
) -> (ArrayRef, ArrayRef) {
    let sizes = random.numbers(rows, most + 1);
    let mut offsets = Vec::with_capacity(rows);
    let mut end = 0u32;
    for size in &sizes {
        let start = match lie {
            Lie::InOrder => end,
            Lie::Anywhere => random.below(elements - most) as u32,
        };
        offsets.push(start);
        end = start.wrapping_add(*size);
    }
    (Array::u32s(offsets), Array::u32s(sizes))
}

pub fn lists_in(
    random: &mut Random,
    rows: usize,
    elements: ArrayRef,
    most: usize,
    lie: Lie,
) -> Result<ArrayRef> {
    let (offsets, sizes) = places(random, rows, elements.len, most, lie);
    let validity = some_null(random, rows);
    Array::try_list_view(elements, offsets, sizes, validity)
}

pub fn lists_of_numbers(random: &mut Random, rows: usize) -> Result<ArrayRef> {
    let numbers = numbers(random, rows * 20, PType::I32, Validity::NonNullable)?;
    lists_in(random, rows, numbers, 20, Lie::InOrder)
}

pub fn named(names: &[&str]) -> Arc<[Arc<str>]> {
    names.iter().map(|name| Arc::from(*name)).collect()
}

pub fn points(random: &mut Random, rows: usize) -> Result<ArrayRef> {
    let x = numbers(random, rows, PType::I32, Validity::NonNullable)?;
    let y = numbers(random, rows, PType::I16, Validity::AllValid)?;
    let validity = some_null(random, rows);
    Array::try_structure(named(&["x", "y"]), vec![x, y], validity, rows)
}

fn pairs(random: &mut Random, rows: usize) -> Result<ArrayRef> {
    let numbers = numbers(random, rows * 2, PType::U16, Validity::NonNullable)?;
    Array::fixed_size_list(numbers, 2, Validity::NonNullable, rows)
}

pub fn table(random: &mut Random, rows: usize) -> Result<ArrayRef> {
    let mut columns = Vec::with_capacity(8);
    columns.push(numbers(random, rows, PType::I64, Validity::NonNullable)?);
    let null = some_null(random, rows);
    columns.push(numbers(random, rows, PType::I32, null)?);
    let null = some_null(random, rows);
    columns.push(Array::bools(random.bits(rows, Share::Half), null)?);
    columns.push(names(random, rows)?);
    columns.push(dictionary(random, rows)?);
    columns.push(lists_of_numbers(random, rows)?);
    columns.push(points(random, rows)?);
    columns.push(pairs(random, rows)?);
    let names = named(&["id", "amount", "flag", "name", "city", "tags", "place", "pair"]);
    Array::try_structure(names, columns, Validity::NonNullable, rows)
}

/// The bits of a validity that is an array.
pub fn bits_of(validity: &Validity) -> Result<&BitBuffer> {
    match validity {
        Validity::Array(bits) => Ok(bits),
        _ => Err(Fault::Usage),
    }
}
