//! Arrow arrays whose buffers have lengths.

use std::ffi::CString;

use crate::column::Bits;
use crate::faults::{Refused, BAD_ARROW, MEMORY, TOO_MANY_BYTES, UNKNOWN_FIELD};
use crate::raw::arrow::{Buffer, Given, Shape, Table};

/// An Arrow array over buffers that are lent as long as `'a`, as arrow-rs's `ArrayData` is one. It
/// is implemented for a reference to such data, in a struct of one's own.
pub trait Data<'a>: Sized {
    /// The format, as Arrow's C Data Interface writes it: `u`, `+l`, `tdD`; of a dictionary that of
    /// its codes.
    fn format(&self) -> String;

    /// How many rows there are.
    fn length(&self) -> usize;

    /// The row of the buffers at which the rows begin. The bits of `nulls` have an offset of their
    /// own.
    fn offset(&self) -> usize;

    /// A bit for each row, not set where it is null; none where no row is.
    fn nulls(&self) -> Option<Bits<'a>>;

    /// The buffers in Arrow's order, without that of the nulls and without the sizes of views'
    /// buffers.
    fn buffers(&self) -> Vec<&'a [u8]>;

    /// The children in order: name, whether they may be null, data.
    fn children(&self) -> Vec<(&'a str, bool, Self)>;

    /// The values, where this is a dictionary.
    fn dictionary(&self) -> Option<Self>;

    /// Whether a row may be null: where the array has a bitmap. Who knows a field says what it
    /// says.
    fn is_nullable(&self) -> bool {
        self.nulls().is_some()
    }
}

/// How an Arrow array is read. The default asks for nothing.
#[derive(Clone, Copy, Debug, Default)]
pub struct Reading<'r> {
    /// How many bytes the column may have, each slice counted as often as an array has it: by
    /// default 8 MiB, or 8 times the distinct bytes of the array, whichever is more.
    pub most_bytes: Option<usize>,
    /// The array is records, and has these columns alone, in this order: others may be of any
    /// format. Where there is `None`, all that it is.
    pub columns: Option<&'r [&'r str]>,
}

impl Reading<'_> {
    /// The names as C takes them. No column has a name with a byte 0.
    pub(crate) fn names(&self) -> Result<Option<Vec<CString>>, Refused> {
        let Some(columns) = self.columns else {
            return Ok(None);
        };
        let name = |(place, name): (usize, &&str)| {
            CString::new(*name).map_err(|_| Refused::new(UNKNOWN_FIELD, 0, place))
        };
        columns
            .iter()
            .enumerate()
            .map(name)
            .collect::<Result<_, _>>()
            .map(Some)
    }

    /// How many bytes may be made for so many that are given.
    fn most_for(&self, given: usize) -> usize {
        self.most_bytes
            .unwrap_or(given.saturating_mul(8).max(8 << 20))
    }
}

/// The library reads no array that is nested deeper: what lies below the first that is too deep is
/// not looked at.
const DEEPEST: usize = 66;

/// Reads a column out of buffers that have lengths. Refused are counts that are not those of a
/// format, a buffer that is too short for its rows (`ShortBuffer`, with its number as the row), and
/// nulls where none may stand. Nothing is read past the end of a buffer. Whether it is a column,
/// `check` says.
///
/// A bitmap that begins at another bit than the rows is copied; all else is lent.
pub fn from_data<'a>(data: &impl Data<'a>, how: &Reading) -> Result<Table<'a>, Refused> {
    given(data, ("", data.is_nullable()), 0, how)?.read(how)
}

/// Arrow's structs of an array.
fn given<'a>(
    data: &impl Data<'a>,
    (name, nullable): (&str, bool),
    depth: usize,
    how: &Reading,
) -> Result<Given<'a>, Refused> {
    let shape = Shape {
        format: text(data.format())?,
        name: text(name.into())?,
        nullable,
        length: data.length(),
        offset: data.offset(),
    };
    let buffers = buffers(data, &shape, how)?;
    if depth == DEEPEST {
        return Ok(Given::new(shape, buffers, Vec::new(), None));
    }
    let children = data.children().into_iter();
    let children =
        children.map(|(name, nullable, child)| given(&child, (name, nullable), depth + 1, how));
    let values = data.dictionary();
    let values = values.map(|values| given(&values, ("", nullable), depth + 1, how));
    Ok(Given::new(
        shape,
        buffers,
        children.collect::<Result<_, _>>()?,
        values.transpose()?,
    ))
}

/// The bytes of a text of Arrow's, which has no byte 0.
fn text(text: String) -> Result<Vec<u8>, Refused> {
    if text.contains('\0') {
        return Err(Refused::new(BAD_ARROW, 0, 0));
    }
    Ok(text.into_bytes())
}

/// The buffers as Arrow's C Data Interface counts them.
fn buffers<'a>(
    data: &impl Data<'a>,
    shape: &Shape,
    how: &Reading,
) -> Result<Vec<Buffer<'a>>, Refused> {
    let (own, format) = (data.buffers(), shape.format.as_slice());
    let mut all = Vec::with_capacity(own.len() + 2);
    if format != b"n" && !format.starts_with(b"+u") && !format.starts_with(b"+r") {
        all.push(match data.nulls() {
            Some(bits) => bitmap(bits, shape, how)?,
            None => Buffer::None,
        });
    }
    all.extend(own.iter().map(|buffer| Buffer::Lent(buffer)));
    if format == b"vu" || format == b"vz" {
        let sizes = own
            .iter()
            .skip(1)
            .flat_map(|buffer| (buffer.len() as i64).to_le_bytes());
        all.push(Buffer::Made(sizes.collect()));
    }
    Ok(all)
}

/// A bitmap whose bits begin at the row at which the array does: the same bytes where they do so by
/// whole bytes, else a copy.
fn bitmap<'a>(bits: Bits<'a>, shape: &Shape, how: &Reading) -> Result<Buffer<'a>, Refused> {
    let (bytes, from) = bits.bytes();
    match from.checked_sub(shape.offset) {
        Some(before) if before % 8 == 0 => {
            Ok(Buffer::Lent(bytes.get(before / 8..).unwrap_or_default()))
        }
        _ => moved(bytes, from, shape, how),
    }
}

/// A copy of the bits from `from` on, as many as there are rows, at the row at which the array
/// begins.
fn moved<'a>(
    bytes: &[u8],
    from: usize,
    shape: &Shape,
    how: &Reading,
) -> Result<Buffer<'a>, Refused> {
    let count = bytes
        .len()
        .saturating_mul(8)
        .saturating_sub(from)
        .min(shape.length);
    let size = shape.offset.saturating_add(count).div_ceil(8);
    if size > how.most_for(bytes.len()) {
        return Err(Refused::new(TOO_MANY_BYTES, 0, 0));
    }
    let mut made = Vec::new();
    made.try_reserve_exact(size)
        .map_err(|_| Refused::new(MEMORY, 0, 0))?;
    made.resize(size, 0);
    for i in 0..count {
        let (old, new) = (from + i, shape.offset + i);
        made[new / 8] |= (bytes[old / 8] >> (old % 8) & 1) << (new % 8);
    }
    Ok(Buffer::Made(made))
}
