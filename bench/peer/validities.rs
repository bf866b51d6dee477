//! Validities: bits that are joined, turned and overwritten.

use super::{Bench, Bits, Buffer, EMPTY, Operation, Refusal, Result, random_bits, random_numbers};

#[inline(never)]
fn not(bits: &Bits) -> Bits {
    let mut words: Vec<u64> = bits.words.as_slice().iter().map(|word| !word).collect();
    if let (Some(last), left @ 1..) = (words.last_mut(), bits.len % 64) {
        *last &= (1 << left) - 1;
    }
    Bits { words: Buffer::new(words), len: bits.len }
}

/// The bits, overwritten one after another at the indices.
#[inline(never)]
fn patch(bits: &Bits, indices: &[u32], patches: &Bits) -> Result<Bits> {
    if indices.len() != patches.len {
        return Err(Refusal::LengthMismatch);
    }
    let mut words = bits.words.as_slice().to_vec();
    for (row, index) in indices.iter().enumerate() {
        let index = *index as usize;
        if index >= bits.len {
            return Err(Refusal::OutOfBounds(index));
        }
        let (word, bit) = (&mut words[index / 64], index % 64);
        *word = *word & !(1 << bit) | (patches.value(row) as u64) << bit;
    }
    Ok(Bits { words: Buffer::new(words), len: bits.len })
}

enum Change {
    And(Bits, Bits),
    Not(Bits),
    Patch { bits: Bits, indices: Vec<u32>, patches: Bits },
}

impl Operation for Change {
    type Made = Bits;

    fn run(&mut self) -> Result<Bits> {
        match self {
            Change::And(left, right) => left.and(right),
            Change::Not(bits) => Ok(not(bits)),
            Change::Patch { bits, indices, patches } => patch(bits, indices, patches),
        }
    }

    fn checksum(&self, made: Bits) -> u64 {
        EMPTY.with_bits(&made).0
    }
}

pub fn measure(bench: &Bench, name: &str) -> Result<()> {
    let rows = bench.rows;
    let bits = random_bits(rows, 10, 3);
    bench.measure(match name {
        "and" => Change::And(bits, random_bits(rows, 10, 12)),
        "not" => Change::Not(bits),
        "patch" => {
            let indices = random_numbers(rows / 10, rows as u32, 5);
            Change::Patch { bits, indices, patches: random_bits(rows / 10, 10, 12) }
        }
        _ => return Err(Refusal::Usage),
    })
}
