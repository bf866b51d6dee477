//! Arrays, one after another.

use crate::array::{Array, ArrayRef, Fault, Layout, PType, Result};
use crate::bits::BitBuilder;
use crate::buffer::{Buffer, Pod};
use crate::select::to_canonical;
use crate::validity::Validity;
use std::sync::Arc;

fn joined_validity(arrays: &[&Array], len: usize) -> Validity {
    let first = arrays[0].layout.validity();
    let kind = std::mem::discriminant(first);
    let mut all = arrays.iter().map(|array| array.layout.validity());
    if !matches!(first, Validity::Array(_)) && all.all(|it| std::mem::discriminant(it) == kind) {
        return first.clone();
    }
    let mut bits = BitBuilder::with_capacity(len);
    for array in arrays {
        match array.layout.validity() {
            Validity::NonNullable | Validity::AllValid => bits.append_n(true, array.len),
            Validity::AllInvalid => bits.append_n(false, array.len),
            Validity::Array(more) => bits.append(more, 0, more.len()),
        }
    }
    Validity::Array(bits.finish())
}

fn joined_bools(arrays: &[&Array], len: usize, validity: Validity) -> Result<ArrayRef> {
    let mut joined = BitBuilder::with_capacity(len);
    for array in arrays {
        match &array.layout {
            Layout::Bool { bits, .. } => joined.append(bits, 0, bits.len()),
            _ => return Err(Fault::MismatchedTypes),
        }
    }
    Ok(Array::bools_unchecked(joined.finish(), validity))
}

fn joined_items<T: Pod>(arrays: &[&Array], len: usize) -> Result<Buffer> {
    let mut joined = Vec::<T>::with_capacity(len);
    for array in arrays {
        match &array.layout {
            Layout::Primitive { values, .. } => joined.extend_from_slice(values.typed()),
            _ => return Err(Fault::MismatchedTypes),
        }
    }
    Ok(Buffer::from_vec(joined))
}

fn joined_numbers(
    arrays: &[&Array],
    ptype: PType,
    len: usize,
    validity: Validity,
) -> Result<ArrayRef> {
    let values = match ptype.width() {
        1 => joined_items::<u8>(arrays, len)?,
        2 => joined_items::<u16>(arrays, len)?,
        4 => joined_items::<u32>(arrays, len)?,
        _ => joined_items::<u64>(arrays, len)?,
    };
    Ok(Array::primitive_unchecked(ptype, values, validity))
}

/// Views, of which those that refer to a buffer refer to one that stands so much further. What is
/// added is looked up where it lies: any other form is compiled to a branch on the length, which is
/// guessed wrong where short and long values stand by turns.
#[inline(never)]
fn add_views(views: &[u128], base: &[u64; 2], out: &mut Vec<u128>) {
    out.extend(views.iter().map(|view| {
        let added = base[(*view as u32 > 12) as usize];
        *view as u64 as u128 | (((view >> 64) as u64 + added) as u128) << 64
    }));
}

fn joined_views(arrays: &[&Array], len: usize, validity: Validity) -> Result<ArrayRef> {
    let mut joined = Vec::with_capacity(len);
    let mut all = Vec::new();
    for array in arrays {
        match &array.layout {
            Layout::VarBinView { views, buffers, .. } => {
                add_views(views.typed(), &[0, all.len() as u64], &mut joined);
                all.extend_from_slice(buffers);
            }
            _ => return Err(Fault::MismatchedTypes),
        }
    }
    let dtype = arrays[0].dtype.clone();
    Ok(Array::views_unchecked(Buffer::from_vec(joined), all.into(), dtype, validity))
}

fn joined_elements(arrays: &[&Array]) -> Result<ArrayRef> {
    let mut parts = Vec::with_capacity(arrays.len());
    for array in arrays {
        match &array.layout {
            Layout::FixedSizeList { elements, .. } => parts.push(&**elements),
            _ => return Err(Fault::MismatchedTypes),
        }
    }
    join(&parts)
}

fn joined_column(arrays: &[&Array], place: usize) -> Result<ArrayRef> {
    let mut parts = Vec::with_capacity(arrays.len());
    for array in arrays {
        parts.push(&*array.columns()?[place]);
    }
    join(&parts)
}

/// Arrays of one data type, in plain layout.
fn join(arrays: &[&Array]) -> Result<ArrayRef> {
    let len = arrays.iter().map(|array| array.len).sum();
    let validity = joined_validity(arrays, len);
    match &arrays[0].layout {
        Layout::Bool { .. } => joined_bools(arrays, len, validity),
        Layout::Primitive { ptype, .. } => joined_numbers(arrays, *ptype, len, validity),
        Layout::FixedSizeList { size, .. } => {
            Array::fixed_size_list(joined_elements(arrays)?, *size, validity, len)
        }
        Layout::VarBinView { .. } => joined_views(arrays, len, validity),
        Layout::Struct { columns, .. } => {
            let columns = (0..columns.len()).map(|place| joined_column(arrays, place));
            let columns = columns.collect::<Result<_>>()?;
            Ok(Array::structure(arrays[0].names()?.clone(), columns, validity, len))
        }
        // No job joins lists, and a dictionary is no plain layout.
        Layout::ListView { .. } | Layout::Dict { .. } => Err(Fault::Usage),
    }
}

/// Records, one array after another, in plain layout.
pub fn concat(arrays: &[ArrayRef]) -> Result<ArrayRef> {
    let first = arrays.first().ok_or(Fault::Usage)?;
    if arrays.iter().any(|array| array.dtype != first.dtype) {
        return Err(Fault::DifferingDtypes);
    }
    let plain = arrays.iter().map(to_canonical).collect::<Result<Vec<_>>>()?;
    let plain: Vec<&Array> = plain.iter().map(Arc::as_ref).collect();
    join(&plain)
}
