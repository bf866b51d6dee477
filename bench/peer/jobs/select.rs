//! Rows that are picked: filter, take, mask.

use crate::array::{Array, ArrayRef, Fault, Layout, PType, Result};
use crate::bits::{BitBuffer, BitBuilder};
use crate::buffer::{Buffer, Pod};
use crate::validity::Validity;

/// Which rows are picked; each of them is there.
pub enum Picks<'a> {
    U16(&'a [u16]),
    U32(&'a [u32]),
    Usize(&'a [usize]),
    /// Runs, and how many rows they have.
    Runs(&'a [(usize, usize)], usize),
}

trait Place: Pod {
    fn place(self) -> usize;
}
macro_rules! place {
    ($($number:ty)*) => { $(
        impl Place for $number {
            #[inline]
            fn place(self) -> usize {
                self as usize
            }
        }
    )* }
}
place!(u16 u32 usize);

#[inline(never)]
fn take_items<T: Pod, I: Place>(items: &[T], places: &[I]) -> Vec<T> {
    // SAFETY: each place was tested where the picks were made.
    places.iter().map(|place| unsafe { *items.get_unchecked(place.place()) }).collect()
}

#[inline(never)]
fn copy_runs<T: Pod>(items: &[T], runs: &[(usize, usize)], total: usize) -> Vec<T> {
    let mut copied = Vec::with_capacity(total);
    for (start, end) in runs {
        copied.extend_from_slice(&items[*start..*end]);
    }
    copied
}

#[inline(never)]
fn take_bits<I: Place>(bits: &BitBuffer, places: &[I]) -> BitBuffer {
    // SAFETY: as above; there is a place for each bit.
    BitBuffer::collect(places.len(), |i| unsafe {
        bits.value_unchecked(places.get_unchecked(i).place())
    })
}

#[inline(never)]
fn copy_bit_runs(bits: &BitBuffer, runs: &[(usize, usize)], total: usize) -> BitBuffer {
    let mut copied = BitBuilder::with_capacity(total);
    for (start, end) in runs {
        copied.append(bits, *start, *end);
    }
    copied.finish()
}

fn expand<I: Place>(places: &[I], size: usize) -> Vec<usize> {
    places.iter().flat_map(|place| place.place() * size..place.place() * size + size).collect()
}

impl Picks<'_> {
    pub fn len(&self) -> usize {
        match self {
            Picks::U16(places) => places.len(),
            Picks::U32(places) => places.len(),
            Picks::Usize(places) => places.len(),
            Picks::Runs(_, len) => *len,
        }
    }

    fn items<T: Pod>(&self, items: &[T]) -> Vec<T> {
        match self {
            Picks::U16(places) => take_items(items, places),
            Picks::U32(places) => take_items(items, places),
            Picks::Usize(places) => take_items(items, places),
            Picks::Runs(runs, len) => copy_runs(items, runs, *len),
        }
    }

    fn buffer<T: Pod>(&self, buffer: &Buffer) -> Buffer {
        Buffer::from_vec(self.items(buffer.typed::<T>()))
    }

    /// Items of so many bytes; none where they don't lie aligned, or no type is as wide.
    fn wide(&self, buffer: &Buffer, width: usize) -> Option<Buffer> {
        match width {
            1 => Some(self.buffer::<u8>(buffer)),
            2 if buffer.is_aligned_to::<u16>() => Some(self.buffer::<u16>(buffer)),
            4 if buffer.is_aligned_to::<u32>() => Some(self.buffer::<u32>(buffer)),
            8 if buffer.is_aligned_to::<u64>() => Some(self.buffer::<u64>(buffer)),
            16 if buffer.is_aligned_to::<u128>() => Some(self.buffer::<u128>(buffer)),
            _ => None,
        }
    }

    fn bits(&self, bits: &BitBuffer) -> BitBuffer {
        match self {
            Picks::U16(places) => take_bits(bits, places),
            Picks::U32(places) => take_bits(bits, places),
            Picks::Usize(places) => take_bits(bits, places),
            Picks::Runs(runs, len) => copy_bit_runs(bits, runs, *len),
        }
    }

    pub fn validity(&self, validity: &Validity) -> Validity {
        match validity {
            Validity::Array(bits) => Validity::Array(self.bits(bits)),
            _ => validity.clone(),
        }
    }

    /// The elements of the lists of one size that are picked.
    fn elements(&self, elements: &Array, size: usize) -> Result<ArrayRef> {
        if let Layout::Primitive {
            ptype,
            values,
            validity: validity @ (Validity::NonNullable | Validity::AllValid),
        } = &elements.layout
            && let Some(picked) = self.wide(values, ptype.width() * size)
        {
            return Ok(Array::primitive_unchecked(*ptype, picked, validity.clone()));
        }
        match self {
            Picks::Runs(runs, len) => {
                let runs: Vec<_> =
                    runs.iter().map(|(start, end)| (start * size, end * size)).collect();
                elements.select(&Picks::Runs(&runs, len * size))
            }
            Picks::U16(places) => elements.select(&Picks::Usize(&expand(places, size))),
            Picks::U32(places) => elements.select(&Picks::Usize(&expand(places, size))),
            Picks::Usize(places) => elements.select(&Picks::Usize(&expand(places, size))),
        }
    }
}

/// The rows at which a mask is true, found once for all columns. Runs where these are of eight
/// rows and more in the mean, places else.
pub enum Kept {
    Places(Vec<usize>),
    Runs(Vec<(usize, usize)>, usize),
}

impl Kept {
    pub fn new(mask: &BitBuffer) -> Kept {
        let count = mask.count();
        if mask.run_count() * 8 <= count {
            Kept::Runs(mask.runs(), count)
        } else {
            Kept::Places(mask.indices(count))
        }
    }

    pub fn picks(&self) -> Picks<'_> {
        match self {
            Kept::Places(places) => Picks::Usize(places),
            Kept::Runs(runs, len) => Picks::Runs(runs, *len),
        }
    }
}

impl Array {
    pub fn filter(&self, mask: &BitBuffer) -> Result<ArrayRef> {
        if mask.len() != self.len {
            return Err(Fault::LengthMismatch);
        }
        self.select(&Kept::new(mask).picks())
    }

    /// The rows that are picked, each of which is there.
    pub fn select(&self, picks: &Picks) -> Result<ArrayRef> {
        let valid = || picks.validity(self.layout.validity());
        Ok(match &self.layout {
            Layout::Bool { bits, .. } => Array::bools_unchecked(picks.bits(bits), valid()),
            Layout::Primitive { ptype, values, .. } => {
                let picked = picks.wide(values, ptype.width()).ok_or(Fault::Usage)?;
                Array::primitive_unchecked(*ptype, picked, valid())
            }
            Layout::Dict { codes, values } => {
                Array::dictionary(codes.select(picks)?, values.clone())
            }
            Layout::FixedSizeList { elements, size, .. } => {
                let elements = picks.elements(elements, *size as usize)?;
                Array::fixed_size_list(elements, *size, valid(), picks.len())?
            }
            Layout::ListView { elements, offsets, sizes, .. } => {
                let (offsets, sizes) = (offsets.select(picks)?, sizes.select(picks)?);
                Array::list_view(elements.clone(), offsets, sizes, valid(), false)
            }
            Layout::VarBinView { views, buffers, .. } => {
                let (views, dtype) = (picks.buffer::<u128>(views), self.dtype.clone());
                Array::views_unchecked(views, buffers.clone(), dtype, valid())
            }
            Layout::Struct { columns, .. } => {
                let columns = columns.iter().map(|column| column.select(picks));
                let columns = columns.collect::<Result<_>>()?;
                Array::structure(self.names()?.clone(), columns, valid(), picks.len())
            }
        })
    }

    /// The rows at these indices, null where the index is.
    pub fn take(&self, indices: &Array) -> Result<ArrayRef> {
        let places = indices.u32_values()?;
        let greatest = places.iter().fold(0, |most, place| most.max(*place));
        if !places.is_empty() && greatest as usize >= self.len {
            return Err(Fault::OutOfBounds(greatest as usize));
        }
        self.take_at(&Picks::U32(places), indices.layout.validity())
    }

    /// The rows that are picked, null also where these nulls are.
    fn take_at(&self, picks: &Picks, nulls: &Validity) -> Result<ArrayRef> {
        let picked = self.select(picks)?;
        if nulls.is_nullable() { picked.nulled(nulls) } else { Ok(picked) }
    }

    pub fn mask(&self, mask: &BitBuffer) -> Result<ArrayRef> {
        if mask.len() != self.len {
            return Err(Fault::LengthMismatch);
        }
        self.nulled(&Validity::Array(mask.clone()))
    }

    /// The same rows, null also where these nulls are.
    fn nulled(&self, nulls: &Validity) -> Result<ArrayRef> {
        let valid = || self.layout.validity().and(nulls);
        Ok(match &self.layout {
            Layout::Bool { bits, .. } => Array::bools_unchecked(bits.clone(), valid()?),
            Layout::Primitive { ptype, values, .. } => {
                Array::primitive_unchecked(*ptype, values.clone(), valid()?)
            }
            Layout::Dict { codes, values } => {
                Array::dictionary(codes.nulled(nulls)?, values.clone())
            }
            Layout::FixedSizeList { elements, size, .. } => {
                Array::fixed_size_list(elements.clone(), *size, valid()?, self.len)?
            }
            Layout::ListView { elements, offsets, sizes, flag, .. } => {
                let (elements, offsets, sizes) = (elements.clone(), offsets.clone(), sizes.clone());
                Array::list_view(elements, offsets, sizes, valid()?, *flag)
            }
            // No job puts nulls over texts, whose views would have to be emptied.
            Layout::VarBinView { .. } => return Err(Fault::Usage),
            Layout::Struct { columns, .. } => {
                Array::structure(self.names()?.clone(), columns.clone(), valid()?, self.len)
            }
        })
    }

    fn is_plain(&self) -> bool {
        match &self.layout {
            Layout::Bool { .. } | Layout::Primitive { .. } | Layout::VarBinView { .. } => true,
            Layout::Dict { .. } => false,
            Layout::FixedSizeList { elements, .. } => elements.is_plain(),
            Layout::ListView { elements, .. } => elements.is_plain(),
            Layout::Struct { columns, .. } => columns.iter().all(|column| column.is_plain()),
        }
    }
}

/// The plain layout of an array, which is shared where it has it.
pub fn to_canonical(array: &ArrayRef) -> Result<ArrayRef> {
    if array.is_plain() {
        return Ok(array.clone());
    }
    Ok(match &array.layout {
        Layout::Dict { codes, values } => {
            let values = to_canonical(values)?;
            let Layout::Primitive { ptype: PType::U16, values: numbers, validity } = &codes.layout
            else {
                return Err(Fault::MismatchedTypes);
            };
            // The codes of null rows are any positions; a code that names none is refused.
            let places = numbers.typed::<u16>();
            let greatest = places.iter().fold(0, |most, code| most.max(*code));
            if !places.is_empty() && greatest as usize >= values.len {
                return Err(Fault::OutOfBounds(greatest as usize));
            }
            values.take_at(&Picks::U16(places), validity)?
        }
        Layout::FixedSizeList { elements, size, validity } => {
            Array::fixed_size_list(to_canonical(elements)?, *size, validity.clone(), array.len)?
        }
        Layout::ListView { elements, offsets, sizes, validity, flag } => {
            let elements = to_canonical(elements)?;
            Array::list_view(elements, offsets.clone(), sizes.clone(), validity.clone(), *flag)
        }
        Layout::Struct { columns, validity } => {
            let columns = columns.iter().map(to_canonical).collect::<Result<_>>()?;
            Array::structure(array.names()?.clone(), columns, validity.clone(), array.len)
        }
        _ => array.clone(),
    })
}
