//! Lists laid end to end, and trimmed.

use crate::array::{Array, ArrayRef, Fault, Layout, PType, Result};
use crate::buffer::{Buffer, Pod};
use crate::select::Picks;
use crate::validity::Validity;

/// The parts of a list view whose offsets and sizes are `u32`.
pub struct Lists<'a> {
    pub elements: &'a ArrayRef,
    pub offsets: &'a ArrayRef,
    pub sizes: &'a ArrayRef,
    pub validity: &'a Validity,
    pub flag: bool,
}

impl Array {
    pub fn as_lists(&self) -> Result<Lists<'_>> {
        match &self.layout {
            Layout::ListView { elements, offsets, sizes, validity, flag } => {
                Ok(Lists { elements, offsets, sizes, validity, flag: *flag })
            }
            _ => Err(Fault::MismatchedTypes),
        }
    }
}

/// The sizes, 0 where the list is null.
fn valid_sizes(sizes: &[u32], validity: &Validity) -> Vec<u32> {
    match validity {
        Validity::NonNullable | Validity::AllValid => sizes.to_vec(),
        Validity::AllInvalid => vec![0; sizes.len()],
        Validity::Array(bits) => {
            let mut valid = Vec::with_capacity(sizes.len());
            for (rows, word) in sizes.chunks(64).zip(bits.words()) {
                let rows = rows.iter().enumerate();
                valid.extend(rows.map(|(i, size)| size & ((word >> i) as u32 & 1).wrapping_neg()));
            }
            valid
        }
    }
}

/// The ranges of these lists, one after another. Lists that meet are copied at once.
#[inline(never)]
fn copy_lists<T: Pod>(items: &[T], offsets: &[u32], sizes: &[u32], total: usize) -> Vec<T> {
    let mut copied = Vec::with_capacity(total);
    let (mut start, mut end) = (0, 0);
    for (offset, size) in offsets.iter().zip(sizes) {
        let (offset, size) = (*offset as usize, *size as usize);
        if offset != end && size != 0 {
            copied.extend_from_slice(&items[start..end]);
            start = offset;
            end = offset;
        }
        end += size;
    }
    copied.extend_from_slice(&items[start..end]);
    copied
}

fn copied_numbers(
    values: &Buffer,
    ptype: PType,
    offsets: &[u32],
    sizes: &[u32],
    total: usize,
) -> Buffer {
    match ptype.width() {
        1 => Buffer::from_vec(copy_lists::<u8>(values.typed(), offsets, sizes, total)),
        2 => Buffer::from_vec(copy_lists::<u16>(values.typed(), offsets, sizes, total)),
        4 => Buffer::from_vec(copy_lists::<u32>(values.typed(), offsets, sizes, total)),
        _ => Buffer::from_vec(copy_lists::<u64>(values.typed(), offsets, sizes, total)),
    }
}

/// The positions of the elements of these lists, one list after another. Eight are written at once,
/// and those past the end of a list are written over by the next.
#[inline(never)]
fn positions(offsets: &[u32], sizes: &[u32], total: usize) -> Vec<usize> {
    let mut positions = Vec::with_capacity(total + 8);
    let mut at = 0;
    let out: *mut usize = positions.as_mut_ptr();
    for (offset, size) in offsets.iter().zip(sizes) {
        let (offset, size) = (*offset as usize, *size as usize);
        assert!(size <= total - at);
        let mut done = 0;
        loop {
            for i in 0..8 {
                // SAFETY: below `total + 8`, as `at + size` is at most `total`.
                unsafe { out.add(at + done + i).write(offset + done + i) };
            }
            done += 8;
            if done >= size {
                break;
            }
        }
        at += size;
    }
    // SAFETY: so many are written.
    unsafe { positions.set_len(at) };
    positions
}

/// The elements of these lists, which are so many: by ranges where they are numbers and a list has
/// two or more in the mean, and else by positions.
fn gathered(elements: &Array, offsets: &[u32], sizes: &[u32], total: usize) -> Result<ArrayRef> {
    match &elements.layout {
        Layout::Primitive {
            ptype,
            values,
            validity: validity @ (Validity::NonNullable | Validity::AllValid),
        } if total >= 2 * sizes.len() => {
            let copied = copied_numbers(values, *ptype, offsets, sizes, total);
            Ok(Array::primitive_unchecked(*ptype, copied, validity.clone()))
        }
        _ => elements.select(&Picks::Usize(&positions(offsets, sizes, total))),
    }
}

impl Lists<'_> {
    pub fn is_consecutive(&self) -> Result<bool> {
        let (offsets, sizes) = (self.offsets.u32_values()?, self.sizes.u32_values()?);
        let ends = offsets.iter().zip(sizes).map(|(offset, size)| *offset as u64 + *size as u64);
        Ok(ends.zip(offsets.iter().skip(1)).all(|(end, next)| end == *next as u64))
    }

    /// The lists one after another, with nothing else under them.
    pub fn rebuild(&self) -> Result<ArrayRef> {
        let offsets = self.offsets.u32_values()?;
        let sizes = valid_sizes(self.sizes.u32_values()?, self.validity);
        let total: u64 = sizes.iter().map(|size| *size as u64).sum();
        if total > u32::MAX as u64 {
            return Err(Fault::Overflow);
        }
        let elements = gathered(self.elements, offsets, &sizes, total as usize)?;
        let starts = sizes.iter().scan(0, |end, size| {
            let start = *end;
            *end += size;
            Some(start)
        });
        let starts = Array::u32s(starts.collect());
        Ok(Array::list_view(elements, starts, Array::u32s(sizes), self.validity.clone(), true))
    }

    /// The same lists over just the elements from the first start up to the last end.
    pub fn trim(&self) -> Result<ArrayRef> {
        let (offsets, sizes) = (self.offsets.u32_values()?, self.sizes.u32_values()?);
        if offsets.is_empty() {
            return Err(Fault::Usage);
        }
        let start = offsets.iter().fold(u32::MAX, |least, offset| least.min(*offset));
        let ends =
            offsets.iter().zip(sizes).map(|(offset, size)| *offset as usize + *size as usize);
        let end = ends.fold(0, usize::max);
        let elements = self.elements.slice(start as usize, end)?;
        let lowered = Array::u32s(offsets.iter().map(|offset| offset - start).collect());
        Ok(Array::list_view(
            elements,
            lowered,
            self.sizes.clone(),
            self.validity.clone(),
            self.flag,
        ))
    }
}
