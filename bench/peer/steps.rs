//! Eight calls, one on what another made.

use super::{
    Bench, Bits, Buffer, EMPTY, Operation, Result, filter_items, narrow, random_bits, random_numbers,
    take_bits, take_numbers,
};
use super::trees::{concat_bits, concat_numbers};
use std::hint::black_box;
use std::ops::Range;

/// Numbers, some of them null.
struct Nullable {
    numbers: Buffer<u32>,
    valid: Bits,
}

impl Nullable {
    fn slice(&self, range: Range<usize>) -> Nullable {
        let start = range.start;
        let valid = Bits::collect(range.len(), |i| self.valid.value(start + i));
        Nullable { numbers: self.numbers.slice(range), valid }
    }

    fn take(&self, indices: &[u32]) -> Nullable {
        let numbers = Buffer::new(take_numbers(self.numbers.as_slice(), indices));
        Nullable { numbers, valid: take_bits(&self.valid, indices) }
    }

    fn concat(&self, other: &Nullable) -> Nullable {
        let numbers = concat_numbers(&[self.numbers.as_slice(), other.numbers.as_slice()]);
        let valid = concat_bits(&[&self.valid, &other.valid]);
        Nullable { numbers: Buffer::new(numbers), valid }
    }
}

struct Steps {
    numbers: Buffer<u32>,
    indices: Vec<u32>,
    truths: Bits,
}

impl Operation for Steps {
    type Made = Nullable;

    fn run(&mut self) -> Result<Nullable> {
        let rows = self.numbers.len;
        black_box(narrow(&filter_items(self.numbers.as_slice(), &self.truths)));
        let masked = Nullable { numbers: self.numbers.clone(), valid: self.truths.clone() };
        let taken = masked.slice(0..rows / 2).take(&self.indices);
        let plain = masked.concat(&taken);
        Ok(plain.slice(rows / 4..rows))
    }

    fn checksum(&self, made: Nullable) -> u64 {
        EMPTY.with_numbers(made.numbers.as_slice()).with_bits(&made.valid).0
    }
}

/// The steps and the calls are the same here.
pub fn measure(bench: &Bench, _name: &str) -> Result<()> {
    let rows = bench.rows;
    bench.measure(Steps {
        numbers: Buffer::new(random_numbers(rows, 60000, 10)),
        indices: random_numbers(rows / 2, (rows / 2) as u32, 5),
        truths: random_bits(rows, 4, 8),
    })
}
