//! Texts by views: their checks, their making, and their moving into buffers of their own.

use crate::array::{Array, ArrayRef, DType, Fault, Layout, Result};
use crate::bits::BitBuilder;
use crate::buffer::Buffer;
use crate::utf8::is_utf8;
use crate::validity::Validity;
use std::sync::Arc;

pub const MAX_BUFFER_LEN: usize = i32::MAX as usize;
const MAX_INLINED: usize = 12;

#[inline]
fn inlined<const N: usize>(value: &[u8]) -> u128 {
    let mut view = [0; 16];
    view[0] = N as u8;
    view[4..4 + N].copy_from_slice(&value[..N]);
    u128::from_le_bytes(view)
}

/// As arrow's `make_view`: a copy of a known length for each length up to 12.
#[inline]
pub fn make_view(value: &[u8], buffer: u32, offset: u32) -> u128 {
    match value.len() {
        0 => inlined::<0>(value),
        1 => inlined::<1>(value),
        2 => inlined::<2>(value),
        3 => inlined::<3>(value),
        4 => inlined::<4>(value),
        5 => inlined::<5>(value),
        6 => inlined::<6>(value),
        7 => inlined::<7>(value),
        8 => inlined::<8>(value),
        9 => inlined::<9>(value),
        10 => inlined::<10>(value),
        11 => inlined::<11>(value),
        12 => inlined::<12>(value),
        len => {
            let prefix = u32::from_le_bytes([value[0], value[1], value[2], value[3]]);
            len as u128 | (prefix as u128) << 32 | (buffer as u128) << 64 | (offset as u128) << 96
        }
    }
}

/// Size, prefix, buffer, offset.
#[inline]
fn parts(view: u128) -> (usize, u32, usize, usize) {
    (view as u32 as usize, (view >> 32) as u32, (view >> 64) as u32 as usize, (view >> 96) as usize)
}

/// The cost of a check of one value, in bytes of a check of a whole buffer, as upstream has it.
const COST: usize = 64;

/// For each buffer whether it was checked as a whole and is UTF-8, as far as the budget reaches.
fn whole_texts(buffers: &[Buffer], rows: usize) -> Vec<bool> {
    let mut budget = rows.saturating_mul(COST);
    let check = |buffer: &Buffer| {
        if buffer.len() > budget {
            return false;
        }
        budget -= buffer.len();
        is_utf8(buffer.as_slice())
    };
    buffers.iter().map(check).collect()
}

#[inline]
fn is_boundary(byte: u8) -> bool {
    (byte as i8) >= -64
}

#[inline(always)]
fn check_view(row: usize, view: u128, buffers: &[Buffer], are_texts: &[bool]) -> Result<()> {
    let (size, prefix, number, start) = parts(view);
    if size <= MAX_INLINED {
        if (view >> 32) & 0x8080_8080_8080_8080_8080_8080 != 0
            && !is_utf8(&view.to_le_bytes()[4..4 + size])
        {
            return Err(Fault::NotUtf8(row));
        }
        return Ok(());
    }
    let buffer = buffers.get(number).ok_or(Fault::BadBuffer(row))?.as_slice();
    let end = start + size;
    if start >= buffer.len() {
        return Err(Fault::BadStart(row));
    }
    if end > buffer.len() {
        return Err(Fault::BadEnd(row));
    }
    if buffer[start..start + 4] != prefix.to_le_bytes() {
        return Err(Fault::BadPrefix(row));
    }
    let is_text = if are_texts[number] {
        is_boundary(buffer[start]) && (end == buffer.len() || is_boundary(buffer[end]))
    } else {
        is_utf8(&buffer[start..end])
    };
    if is_text { Ok(()) } else { Err(Fault::NotUtf8(row)) }
}

/// A column of these texts, where each valid one is a text; the views of null rows are emptied.
pub fn try_texts(views: Buffer, buffers: Arc<[Buffer]>, validity: Validity) -> Result<ArrayRef> {
    let given = views.typed::<u128>();
    validity.check(given.len())?;
    let views = match &validity {
        Validity::NonNullable | Validity::AllValid => {
            let are_texts = whole_texts(&buffers, given.len());
            for (row, view) in given.iter().enumerate() {
                check_view(row, *view, &buffers, &are_texts)?;
            }
            views
        }
        Validity::AllInvalid => Buffer::from_vec(vec![0u128; given.len()]),
        Validity::Array(bits) => {
            let are_texts = whole_texts(&buffers, bits.count());
            let mut own = given.to_vec();
            for (k, (rows, word)) in own.chunks_mut(64).zip(bits.words()).enumerate() {
                for (i, view) in rows.iter_mut().enumerate() {
                    if word >> i & 1 == 1 {
                        check_view(64 * k + i, *view, &buffers, &are_texts)?;
                    } else {
                        *view = 0;
                    }
                }
            }
            Buffer::from_vec(own)
        }
    };
    let dtype = DType::Utf8(validity.is_nullable());
    Ok(Array::views_unchecked(views, buffers, dtype, validity))
}

/// Views, and the bytes of the values that do not fit into them, in as few buffers as can be.
pub struct Builder {
    views: Vec<u128>,
    last: Vec<u8>,
    full: Vec<Buffer>,
}

impl Builder {
    fn with_capacity(rows: usize) -> Builder {
        Builder { views: Vec::with_capacity(rows), last: Vec::new(), full: Vec::new() }
    }

    #[inline]
    fn push(&mut self, value: &[u8]) -> Result<()> {
        if value.len() <= MAX_INLINED {
            self.views.push(make_view(value, 0, 0));
            return Ok(());
        }
        if value.len() > MAX_BUFFER_LEN {
            return Err(Fault::ValueTooLong(self.views.len()));
        }
        if self.last.len() + value.len() > MAX_BUFFER_LEN {
            self.full.push(Buffer::from_vec(std::mem::take(&mut self.last)));
        }
        let number = u32::try_from(self.full.len()).map_err(|_| Fault::Overflow)?;
        self.views.push(make_view(value, number, self.last.len() as u32));
        self.last.extend_from_slice(value);
        Ok(())
    }

    fn finish(mut self, dtype: DType, validity: Validity) -> ArrayRef {
        if !self.last.is_empty() {
            self.full.push(Buffer::from_vec(self.last));
        }
        Array::views_unchecked(Buffer::from_vec(self.views), self.full.into(), dtype, validity)
    }
}

pub fn from_iter_str<'a>(texts: impl Iterator<Item = &'a str>) -> Result<ArrayRef> {
    let mut builder = Builder::with_capacity(texts.size_hint().0);
    for text in texts {
        builder.push(text.as_bytes())?;
    }
    Ok(builder.finish(DType::Utf8(false), Validity::NonNullable))
}

/// Values that may be none; each is checked where its type does not say that it is a text.
#[inline]
fn from_options<'a>(
    items: impl Iterator<Item = Option<&'a [u8]>>,
    dtype: DType,
    is_checked: bool,
) -> Result<ArrayRef> {
    let rows = items.size_hint().0;
    let (mut builder, mut valid) = (Builder::with_capacity(rows), BitBuilder::with_capacity(rows));
    for item in items {
        if let Some(value) = item {
            if is_checked && !is_utf8(value) {
                return Err(Fault::NotUtf8(valid.len()));
            }
            builder.push(value)?;
        } else {
            builder.views.push(0);
        }
        valid.push(item.is_some());
    }
    Ok(builder.finish(dtype, Validity::from_bits(valid.finish())))
}

pub fn from_iter_nullable_str<'a>(
    items: impl Iterator<Item = Option<&'a str>>,
) -> Result<ArrayRef> {
    from_options(items.map(|item| item.map(str::as_bytes)), DType::Utf8(true), false)
}

pub fn from_iter_nullable_bin<'a>(
    items: impl Iterator<Item = Option<&'a [u8]>>,
) -> Result<ArrayRef> {
    from_options(items, DType::Binary(true), false)
}

pub fn from_iter_nullable_text<'a>(
    items: impl Iterator<Item = Option<&'a [u8]>>,
) -> Result<ArrayRef> {
    from_options(items, DType::Utf8(true), true)
}

/// A heap of values cut into buffers of at most `limit` bytes, and the views of the values there.
pub fn build_views(limit: usize, heap: &Buffer, lens: &[u32]) -> Result<(Vec<Buffer>, Vec<u128>)> {
    let bytes = heap.as_slice();
    let (mut buffers, mut views) = (Vec::new(), Vec::with_capacity(lens.len()));
    let (mut begin, mut at) = (0, 0);
    for (row, len) in lens.iter().enumerate() {
        let size = *len as usize;
        if size > limit {
            return Err(Fault::ValueTooLong(row));
        }
        if at - begin + size > limit {
            buffers.push(heap.slice(begin, at - begin));
            begin = at;
        }
        let number = u32::try_from(buffers.len()).map_err(|_| Fault::Overflow)?;
        let value = bytes.get(at..at + size).ok_or(Fault::LengthMismatch)?;
        views.push(make_view(value, number, (at - begin) as u32));
        at += size;
    }
    if at != bytes.len() {
        return Err(Fault::LengthMismatch);
    }
    if begin < at {
        buffers.push(heap.slice(begin, at - begin));
    }
    Ok((buffers, views))
}

/// The same values one after another, in buffers of at most `limit` bytes.
pub fn rebuffer(array: &Array, limit: usize) -> Result<ArrayRef> {
    let Layout::VarBinView { views, buffers, validity } = &array.layout else {
        return Err(Fault::MismatchedTypes);
    };
    let views = views.typed::<u128>();
    let total = views.iter().map(|view| *view as u32 as usize).sum();
    let (mut heap, mut moved) = (Vec::with_capacity(total), Vec::with_capacity(views.len()));
    let (mut ends, mut begin) = (Vec::new(), 0);
    for (row, view) in views.iter().enumerate() {
        let (size, _, number, start) = parts(*view);
        if size > limit {
            return Err(Fault::ValueTooLong(row));
        }
        if heap.len() - begin + size > limit {
            ends.push(begin..heap.len());
            begin = heap.len();
        }
        let block = u32::try_from(ends.len()).map_err(|_| Fault::Overflow)?;
        if size <= MAX_INLINED {
            moved.push(*view);
            heap.extend_from_slice(&view.to_le_bytes()[4..4 + size]);
        } else {
            let place = (block as u128) | ((heap.len() - begin) as u128) << 32;
            moved.push(*view as u64 as u128 | place << 64);
            heap.extend_from_slice(&buffers[number].as_slice()[start..start + size]);
        }
    }
    if begin < heap.len() {
        ends.push(begin..heap.len());
    }
    let heap = Buffer::from_vec(heap);
    let buffers = ends.into_iter().map(|range| heap.slice(range.start, range.len())).collect();
    let dtype = array.dtype.clone();
    Ok(Array::views_unchecked(Buffer::from_vec(moved), buffers, dtype, validity.clone()))
}
