//! Arrays of numbers and of truth values: how they are made, and read as a typed buffer or a mask.
//!
//! Here as there an iterator's size hint decides nothing: lists grow with what comes.

use super::{
    Bench, Bits, Buffer, DType, EMPTY, Operation, PrimitiveArray, Refusal, Result, byte_buffer,
    random_bits, random_bools, random_numbers, shared_numbers,
};
use std::sync::Arc;

/// Bits that come one after another, packed 64 to a word.
pub struct Packer {
    words: Vec<u64>,
    packed: u64,
    len: usize,
}

impl Packer {
    pub fn new() -> Packer {
        Packer { words: Vec::new(), packed: 0, len: 0 }
    }

    #[inline]
    pub fn push(&mut self, bit: bool) {
        self.packed |= (bit as u64) << (self.len % 64);
        self.len += 1;
        if self.len % 64 == 0 {
            self.words.push(self.packed);
            self.packed = 0;
        }
    }

    pub fn finish(mut self) -> Bits {
        if self.len % 64 != 0 {
            self.words.push(self.packed);
        }
        Bits { words: Buffer::new(self.words), len: self.len }
    }
}

/// The array of a validity, where some rows are null and some are not.
pub fn told_by(valid: Bits) -> Option<Bits> {
    let count = valid.true_count();
    (count != 0 && count != valid.len).then_some(valid)
}

#[inline(never)]
fn numbers_from_iter(items: impl Iterator<Item = u32>) -> Arc<PrimitiveArray> {
    let mut numbers = Vec::new();
    for item in items {
        numbers.push(item);
    }
    shared_numbers(Buffer::new(numbers))
}

#[inline(never)]
fn numbers_from_option_iter(items: impl Iterator<Item = Option<u32>>) -> Arc<PrimitiveArray> {
    let (mut numbers, mut valid) = (Vec::new(), Packer::new());
    for item in items {
        numbers.push(item.unwrap_or(0));
        valid.push(item.is_some());
    }
    let (numbers, validity) = (Buffer::new(numbers), told_by(valid.finish()));
    Arc::new(PrimitiveArray { dtype: DType::Int, numbers, validity })
}

/// Values laid over the valid rows, 0 in the others.
#[inline(never)]
fn spread(values: &[u8], valid: &Bits) -> Result<Vec<u32>> {
    let values = values.as_chunks::<4>().0;
    if valid.true_count() > values.len() {
        return Err(Refusal::LengthMismatch);
    }
    let mut spread = Vec::with_capacity(valid.len);
    let mut next = 0;
    for row in 0..valid.len {
        if valid.value(row) {
            spread.push(u32::from_le_bytes(values[next]));
            next += 1;
        } else {
            spread.push(0);
        }
    }
    Ok(spread)
}

#[inline(never)]
fn bools_from_iter(items: impl Iterator<Item = bool>) -> Bits {
    let mut bits = Packer::new();
    for item in items {
        bits.push(item);
    }
    bits.finish()
}

#[inline(never)]
fn bools_from_option_iter(items: impl Iterator<Item = Option<bool>>) -> (Bits, Option<Bits>) {
    let (mut bits, mut valid) = (Packer::new(), Packer::new());
    for item in items {
        bits.push(item.unwrap_or(false));
        valid.push(item.is_some());
    }
    (bits.finish(), told_by(valid.finish()))
}

#[inline(never)]
fn bools_from_indices(len: usize, indices: impl Iterator<Item = usize>) -> Result<Bits> {
    let mut words = vec![0u64; len.div_ceil(64)];
    for index in indices {
        if index >= len {
            return Err(Refusal::OutOfBounds(index));
        }
        words[index / 64] |= 1 << (index % 64);
    }
    Ok(Bits { words: Buffer::new(words), len })
}

struct NumbersFromIter(Vec<u32>);

impl Operation for NumbersFromIter {
    type Made = Arc<PrimitiveArray>;

    fn run(&mut self) -> Result<Arc<PrimitiveArray>> {
        Ok(numbers_from_iter(self.0.iter().copied()))
    }

    fn checksum(&self, made: Arc<PrimitiveArray>) -> u64 {
        nullable_checksum(&made)
    }
}

fn nullable_checksum(made: &PrimitiveArray) -> u64 {
    let sum = EMPTY.with_numbers(made.numbers());
    made.validity.as_ref().map_or(sum, |valid| sum.with_bits(valid)).0
}

struct NumbersFromOptionIter(Vec<Option<u32>>);

impl Operation for NumbersFromOptionIter {
    type Made = Arc<PrimitiveArray>;

    fn run(&mut self) -> Result<Arc<PrimitiveArray>> {
        Ok(numbers_from_option_iter(self.0.iter().copied()))
    }

    fn checksum(&self, made: Arc<PrimitiveArray>) -> u64 {
        nullable_checksum(&made)
    }
}

struct NumbersFromValues {
    bytes: Buffer<u8>,
    valid: Bits,
}

impl Operation for NumbersFromValues {
    type Made = Arc<PrimitiveArray>;

    fn run(&mut self) -> Result<Arc<PrimitiveArray>> {
        let numbers = Buffer::new(spread(self.bytes.as_slice(), &self.valid)?);
        let validity = Some(self.valid.clone());
        Ok(Arc::new(PrimitiveArray { dtype: DType::Int, numbers, validity }))
    }

    fn checksum(&self, made: Arc<PrimitiveArray>) -> u64 {
        nullable_checksum(&made)
    }
}

/// Bytes as numbers, copied.
struct NumbersToBuffer(Buffer<u8>);

impl Operation for NumbersToBuffer {
    type Made = Buffer<u32>;

    fn run(&mut self) -> Result<Buffer<u32>> {
        let places = self.0.as_slice().as_chunks::<4>().0;
        Ok(Buffer::new(places.iter().map(|place| u32::from_le_bytes(*place)).collect()))
    }

    fn checksum(&self, made: Buffer<u32>) -> u64 {
        EMPTY.with_words(made.as_slice().iter().map(|number| *number as u64)).0
    }
}

struct BoolsFromIter(Vec<bool>);

impl Operation for BoolsFromIter {
    type Made = Bits;

    fn run(&mut self) -> Result<Bits> {
        Ok(bools_from_iter(self.0.iter().copied()))
    }

    fn checksum(&self, made: Bits) -> u64 {
        EMPTY.with_bits(&made).0
    }
}

struct BoolsFromOptionIter(Vec<Option<bool>>);

impl Operation for BoolsFromOptionIter {
    type Made = (Bits, Option<Bits>);

    fn run(&mut self) -> Result<(Bits, Option<Bits>)> {
        Ok(bools_from_option_iter(self.0.iter().copied()))
    }

    fn checksum(&self, made: (Bits, Option<Bits>)) -> u64 {
        let sum = EMPTY.with_bits(&made.0);
        made.1.map_or(sum, |valid| sum.with_bits(&valid)).0
    }
}

struct BoolsFromIndices {
    rows: usize,
    indices: Vec<usize>,
}

impl Operation for BoolsFromIndices {
    type Made = Bits;

    fn run(&mut self) -> Result<Bits> {
        bools_from_indices(self.rows, self.indices.iter().copied())
    }

    fn checksum(&self, made: Bits) -> u64 {
        EMPTY.with_bits(&made).0
    }
}

/// The bits, shared, with how many are true, where all rows are valid.
struct BoolsExecuteMask {
    bits: Bits,
    valid: Bits,
}

impl Operation for BoolsExecuteMask {
    type Made = (Bits, usize);

    fn run(&mut self) -> Result<(Bits, usize)> {
        if self.valid.true_count() != self.valid.len {
            return Err(Refusal::HasNulls);
        }
        let bits = self.bits.clone();
        let count = bits.true_count();
        Ok((bits, count))
    }

    fn checksum(&self, made: (Bits, usize)) -> u64 {
        made.1 as u64
    }
}

/// Where the bit is set and the row is valid, with how many are.
struct BoolsToMask {
    bits: Bits,
    valid: Bits,
}

impl Operation for BoolsToMask {
    type Made = (Bits, usize);

    fn run(&mut self) -> Result<(Bits, usize)> {
        let bits = self.bits.and(&self.valid)?;
        let count = bits.true_count();
        Ok((bits, count))
    }

    fn checksum(&self, made: (Bits, usize)) -> u64 {
        made.1 as u64
    }
}

/// The items, of which one in ten is left out.
fn optional<T>(items: Vec<T>) -> Vec<Option<T>> {
    let present = random_bools(items.len(), 10, 3);
    items.into_iter().zip(present).map(|(item, is_present)| is_present.then_some(item)).collect()
}

pub fn measure_numbers(bench: &Bench, name: &str) -> Result<()> {
    let numbers = random_numbers(bench.rows, u32::MAX, 6);
    match name {
        "from_iter" => bench.measure(NumbersFromIter(numbers)),
        "from_option_iter" => bench.measure(NumbersFromOptionIter(optional(numbers))),
        "from_values" => {
            let valid = random_bits(bench.rows, 10, 3);
            bench.measure(NumbersFromValues { bytes: byte_buffer(&numbers), valid })
        }
        "to_buffer" => bench.measure(NumbersToBuffer(byte_buffer(&numbers))),
        _ => Err(Refusal::Usage),
    }
}

pub fn measure_bools(bench: &Bench, name: &str) -> Result<()> {
    let rows = bench.rows;
    let (bools, bits) = (random_bools(rows, 2, 7), random_bits(rows, 2, 7));
    match name {
        "from_iter" => bench.measure(BoolsFromIter(bools)),
        "from_option_iter" => bench.measure(BoolsFromOptionIter(optional(bools))),
        "from_indices" => {
            let numbers = random_numbers(rows, rows as u32, 5);
            let indices = numbers.iter().map(|number| *number as usize).collect();
            bench.measure(BoolsFromIndices { rows, indices })
        }
        "execute_mask" => {
            let valid = Bits::collect(rows, |_| true);
            bench.measure(BoolsExecuteMask { bits, valid })
        }
        "to_mask" => bench.measure(BoolsToMask { bits, valid: random_bits(rows, 10, 3) }),
        _ => Err(Refusal::Usage),
    }
}
