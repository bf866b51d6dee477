//! Numbers and truth values: their making, and their narrowing.

use crate::array::{Array, ArrayRef, Fault, Layout, PType, Result};
use crate::bits::{BitBuffer, BitBuilder};
use crate::buffer::Buffer;
use crate::validity::Validity;

pub fn numbers_from_iter(items: impl Iterator<Item = u32>) -> ArrayRef {
    Array::u32s(items.collect())
}

pub fn numbers_from_options(items: impl Iterator<Item = Option<u32>>) -> ArrayRef {
    let rows = items.size_hint().0;
    let (mut numbers, mut valid) = (Vec::with_capacity(rows), BitBuilder::with_capacity(rows));
    for item in items {
        numbers.push(item.unwrap_or(0));
        valid.push(item.is_some());
    }
    let validity = Validity::from_bits(valid.finish());
    Array::primitive_unchecked(PType::U32, Buffer::from_vec(numbers), validity)
}

pub fn bools_from_iter(items: impl Iterator<Item = bool>) -> ArrayRef {
    let mut bits = BitBuilder::with_capacity(items.size_hint().0);
    for item in items {
        bits.push(item);
    }
    Array::bools_unchecked(bits.finish(), Validity::NonNullable)
}

/// Values laid over the valid rows, 0 in the others.
pub fn spread(values: &[u32], valid: &BitBuffer) -> Result<ArrayRef> {
    if valid.count() > values.len() {
        return Err(Fault::LengthMismatch);
    }
    let mut spread = vec![0u32; valid.len()];
    let mut next = values.iter();
    for (rows, mut word) in spread.chunks_mut(64).zip(valid.words()) {
        while word != 0 {
            rows[word.trailing_zeros() as usize] = *next.next().ok_or(Fault::LengthMismatch)?;
            word &= word - 1;
        }
    }
    let validity = Validity::Array(valid.clone());
    Ok(Array::primitive_unchecked(PType::U32, Buffer::from_vec(spread), validity))
}

/// Plain `u32` in the narrowest type that has them.
pub fn narrow(array: &ArrayRef) -> Result<ArrayRef> {
    let Layout::Primitive { ptype: PType::U32, validity: validity @ Validity::NonNullable, .. } =
        &array.layout
    else {
        return Err(Fault::MismatchedTypes);
    };
    let numbers = array.u32_values()?;
    let greatest = numbers.iter().fold(0, |most, number| most.max(*number));
    Ok(if greatest <= u8::MAX as u32 {
        let narrowed: Vec<u8> = numbers.iter().map(|number| *number as u8).collect();
        Array::primitive_unchecked(PType::U8, Buffer::from_vec(narrowed), validity.clone())
    } else if greatest <= u16::MAX as u32 {
        let narrowed: Vec<u16> = numbers.iter().map(|number| *number as u16).collect();
        Array::primitive_unchecked(PType::U16, Buffer::from_vec(narrowed), validity.clone())
    } else {
        array.clone()
    })
}
