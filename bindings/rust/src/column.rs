//! Columns of parts that are lent. Nothing of them is tested but what a slice tells.

use std::borrow::Cow;

use crate::checked::Checked;
use crate::faults::Refused;
use crate::offsets;
use crate::raw::{self, Bytes, Format, Lent, Node, View, NO_FORMAT};

/// What an array is.
#[derive(Clone, Copy, Debug, PartialEq, Eq)]
#[allow(missing_docs)]
pub enum Kind {
    Bool = 0,
    U8 = 1,
    U16 = 2,
    U32 = 3,
    U64 = 4,
    I8 = 5,
    I16 = 6,
    I32 = 7,
    I64 = 8,
    Utf8 = 9,
    Binary = 10,
    Dictionary = 11,
    FixedSizeList = 12,
    List = 13,
    Record = 14,
}

impl Kind {
    const ALL: [Kind; 15] = [
        Kind::Bool,
        Kind::U8,
        Kind::U16,
        Kind::U32,
        Kind::U64,
        Kind::I8,
        Kind::I16,
        Kind::I32,
        Kind::I64,
        Kind::Utf8,
        Kind::Binary,
        Kind::Dictionary,
        Kind::FixedSizeList,
        Kind::List,
        Kind::Record,
    ];

    pub(crate) fn numbered(number: u32) -> Option<Kind> {
        Kind::ALL.get(number as usize).copied()
    }
}

/// The eight types of integers.
pub trait Number: raw::Plain {
    /// The kind of a column of such numbers.
    const KIND: Kind;
}

impl Number for u8 {
    const KIND: Kind = Kind::U8;
}
impl Number for u16 {
    const KIND: Kind = Kind::U16;
}
impl Number for u32 {
    const KIND: Kind = Kind::U32;
}
impl Number for u64 {
    const KIND: Kind = Kind::U64;
}
impl Number for i8 {
    const KIND: Kind = Kind::I8;
}
impl Number for i16 {
    const KIND: Kind = Kind::I16;
}
impl Number for i32 {
    const KIND: Kind = Kind::I32;
}
impl Number for i64 {
    const KIND: Kind = Kind::I64;
}

/// A view of a text or of a byte list, in Arrow's 16 bytes.
pub trait IsView: raw::Plain {}

impl IsView for u128 {}
impl IsView for [u8; 16] {}

/// Truth values, one to a bit, the lowest bit of a byte first.
#[derive(Clone, Copy, Debug)]
pub struct Bits<'a> {
    bytes: &'a [u8],
    offset: usize,
    length: usize,
}

impl<'a> Bits<'a> {
    /// So many truth values, from bit `offset` on.
    pub fn new(bytes: &'a [u8], offset: usize, length: usize) -> Bits<'a> {
        Bits {
            bytes,
            offset,
            length,
        }
    }

    /// The bytes that have the bits, and the bit at which they begin.
    pub(crate) fn bytes(self) -> (&'a [u8], usize) {
        let end = self.offset.saturating_add(self.length).div_ceil(8);
        (&self.bytes[..end.min(self.bytes.len())], self.offset)
    }
}

/// Which rows are null.
#[derive(Clone, Debug)]
pub enum Validity<'a> {
    /// None, and none can be: the column is not nullable.
    NonNullable,
    /// None.
    AllValid,
    /// Every row.
    AllInvalid,
    /// Those at which a column of truth values is false.
    Column(Column<'a>),
}

impl<'a> From<Option<Bits<'a>>> for Validity<'a> {
    fn from(bits: Option<Bits<'a>>) -> Validity<'a> {
        match bits {
            Some(bits) => Validity::Column(Column::bools(bits, Validity::NonNullable)),
            None => Validity::NonNullable,
        }
    }
}

/// A column: an array and its parts, over slices that are lent. Whether it is one, [`check`] says.
///
/// [`check`]: Column::check
#[derive(Clone)]
pub struct Column<'a> {
    parts: Vec<Part<'a>>,
}

/// An array of a column, before those of its parts.
#[derive(Clone)]
struct Part<'a> {
    kind: u32,
    validity: u32,
    size: u32,
    format: Format,
    length: usize,
    offset: usize,
    bytes: Cow<'a, [u8]>,
    views: Cow<'a, [View]>,
    buffers: Vec<Bytes<'a>>,
}

impl<'a> Part<'a> {
    fn new(kind: Kind, length: usize) -> Part<'a> {
        Part {
            kind: kind as u32,
            validity: 0,
            size: 0,
            format: NO_FORMAT,
            length,
            offset: 0,
            bytes: Cow::Borrowed(&[]),
            views: Cow::Borrowed(&[]),
            buffers: Vec::new(),
        }
    }

    /// The node, over what this has.
    fn node(&self) -> Node<'_> {
        Node {
            kind: self.kind,
            validity: self.validity,
            size: self.size,
            length: self.length,
            offset: self.offset,
            bytes: Lent::new(&self.bytes),
            views: Lent::new(&self.views),
            buffers: Lent::new(&self.buffers),
        }
    }
}

impl<'a> From<(&Node<'a>, &Format)> for Part<'a> {
    fn from((node, &format): (&Node<'a>, &Format)) -> Part<'a> {
        Part {
            kind: node.kind,
            validity: node.validity,
            size: node.size,
            format,
            length: node.length,
            offset: node.offset,
            bytes: Cow::Borrowed(node.bytes.get()),
            views: Cow::Borrowed(node.views.get()),
            buffers: node.buffers.get().to_vec(),
        }
    }
}

impl<'a> Column<'a> {
    /// The column of a table, and of the formats with which its nodes came in.
    pub(crate) fn of_nodes(nodes: &[Node<'a>], formats: &[Format]) -> Column<'a> {
        Column {
            parts: nodes.iter().zip(formats).map(Part::from).collect(),
        }
    }

    /// The formats with which the nodes came in.
    pub(crate) fn formats(&self) -> Vec<Format> {
        self.parts.iter().map(|part| part.format).collect()
    }

    /// The table of the column, over what it has.
    pub(crate) fn nodes(&self) -> Vec<Node<'_>> {
        self.parts.iter().map(Part::node).collect()
    }

    /// A column of a first array, a validity, and the parts that follow.
    fn of(
        mut first: Part<'a>,
        validity: Validity<'a>,
        parts: impl IntoIterator<Item = Column<'a>>,
    ) -> Column<'a> {
        let (number, mask) = match validity {
            Validity::NonNullable => (0, None),
            Validity::AllValid => (1, None),
            Validity::AllInvalid => (2, None),
            Validity::Column(mask) => (3, Some(mask)),
        };
        first.validity = number;
        let mut all = vec![first];
        for part in mask.into_iter().chain(parts) {
            all.extend(part.parts);
        }
        Column { parts: all }
    }

    /// Truth values.
    pub fn bools(bits: Bits<'a>, validity: impl Into<Validity<'a>>) -> Column<'a> {
        let mut first = Part::new(Kind::Bool, bits.length);
        first.offset = bits.offset;
        first.bytes = Cow::Borrowed(bits.bytes);
        Column::of(first, validity.into(), [])
    }

    /// Integers of one of eight types.
    pub fn numbers<T: Number>(values: &'a [T], validity: impl Into<Validity<'a>>) -> Column<'a> {
        let mut first = Part::new(T::KIND, values.len());
        first.bytes = Cow::Borrowed(raw::bytes_of(values));
        Column::of(first, validity.into(), [])
    }

    /// Texts that lie between offsets, of which there is one more than there are texts. They get
    /// views, of 16 bytes each. One that passes the end of the bytes is refused at its row by
    /// `check`, as `BadStart` or `BadEnd`; one whose offsets are negative or fall, as `BadBuffer`.
    pub fn utf8(
        offsets: &'a [i32],
        bytes: &'a [u8],
        validity: impl Into<Validity<'a>>,
    ) -> Column<'a> {
        Column::between(
            Kind::Utf8,
            offsets::Cut::of_32(offsets, bytes),
            validity.into(),
        )
    }

    /// Byte lists that lie between offsets, as those of [`utf8`](Column::utf8).
    pub fn binary(
        offsets: &'a [i32],
        bytes: &'a [u8],
        validity: impl Into<Validity<'a>>,
    ) -> Column<'a> {
        Column::between(
            Kind::Binary,
            offsets::Cut::of_32(offsets, bytes),
            validity.into(),
        )
    }

    /// Texts that lie between offsets of 64 bits. Refused as `Overflow` is one of 2 GiB or more, at
    /// its row: no view of Arrow counts so many bytes.
    pub fn large_utf8(
        offsets: &'a [i64],
        bytes: &'a [u8],
        validity: impl Into<Validity<'a>>,
    ) -> Result<Column<'a>, Refused> {
        let cut = offsets::Cut::of_64(offsets, bytes)?;
        Ok(Column::between(Kind::Utf8, cut, validity.into()))
    }

    /// Byte lists that lie between offsets of 64 bits, as those of
    /// [`large_utf8`](Column::large_utf8).
    pub fn large_binary(
        offsets: &'a [i64],
        bytes: &'a [u8],
        validity: impl Into<Validity<'a>>,
    ) -> Result<Column<'a>, Refused> {
        let cut = offsets::Cut::of_64(offsets, bytes)?;
        Ok(Column::between(Kind::Binary, cut, validity.into()))
    }

    fn between(kind: Kind, cut: offsets::Cut<'a>, validity: Validity<'a>) -> Column<'a> {
        let mut first = Part::new(kind, cut.views.len());
        first.views = Cow::Owned(cut.views);
        first.buffers = cut.heaps.into_iter().map(Lent::new).collect();
        Column::of(first, validity, [])
    }

    /// Texts by views.
    pub fn utf8_view<V: IsView>(
        views: &'a [V],
        buffers: &[&'a [u8]],
        validity: impl Into<Validity<'a>>,
    ) -> Column<'a> {
        Column::by_views(Kind::Utf8, views, buffers, validity.into())
    }

    /// Byte lists by views.
    pub fn binary_view<V: IsView>(
        views: &'a [V],
        buffers: &[&'a [u8]],
        validity: impl Into<Validity<'a>>,
    ) -> Column<'a> {
        Column::by_views(Kind::Binary, views, buffers, validity.into())
    }

    fn by_views<V: IsView>(
        kind: Kind,
        views: &'a [V],
        buffers: &[&'a [u8]],
        validity: Validity<'a>,
    ) -> Column<'a> {
        let views: &[View] = raw::items_of(raw::bytes_of(views)).unwrap_or_default();
        let mut first = Part::new(kind, views.len());
        first.views = Cow::Borrowed(views);
        first.buffers = buffers.iter().map(|buffer| Lent::new(buffer)).collect();
        Column::of(first, validity, [])
    }

    /// The values that codes name. A null code is a null row.
    pub fn dictionary(codes: impl Into<Column<'a>>, values: impl Into<Column<'a>>) -> Column<'a> {
        let codes = codes.into();
        let first = Part::new(Kind::Dictionary, codes.len());
        Column::of(first, Validity::NonNullable, [codes, values.into()])
    }

    /// Lists of one size.
    pub fn fixed_size_list(
        elements: impl Into<Column<'a>>,
        size: u32,
        length: usize,
        validity: impl Into<Validity<'a>>,
    ) -> Column<'a> {
        let mut first = Part::new(Kind::FixedSizeList, length);
        first.size = size;
        Column::of(first, validity.into(), [elements.into()])
    }

    /// Lists that lie between offsets, of which there is one more than there are lists. The
    /// elements are all tested, also those that lie in no list.
    pub fn list(
        elements: impl Into<Column<'a>>,
        offsets: &'a [i32],
        validity: impl Into<Validity<'a>>,
    ) -> Column<'a> {
        let starts = &offsets[..offsets.len().saturating_sub(1)];
        let starts = Column::numbers(starts, Validity::NonNullable);
        let sizes = offsets::sizes(offsets.iter().map(|&offset| i64::from(offset)));
        Column::list_view(elements, starts, Column::made(sizes), validity)
    }

    /// Lists that lie between offsets of 64 bits.
    pub fn large_list(
        elements: impl Into<Column<'a>>,
        offsets: &'a [i64],
        validity: impl Into<Validity<'a>>,
    ) -> Column<'a> {
        let starts = &offsets[..offsets.len().saturating_sub(1)];
        let starts = Column::numbers(starts, Validity::NonNullable);
        let sizes = offsets::sizes(offsets.iter().copied());
        Column::list_view(elements, starts, Column::made(sizes), validity)
    }

    /// Numbers that were made here.
    fn made(numbers: Vec<i64>) -> Column<'a> {
        let mut first = Part::new(Kind::I64, numbers.len());
        first.bytes = Cow::Owned(raw::bytes_of(&numbers).to_vec());
        Column::of(first, Validity::NonNullable, [])
    }

    /// Lists that lie anywhere in the elements.
    pub fn list_view(
        elements: impl Into<Column<'a>>,
        offsets: impl Into<Column<'a>>,
        sizes: impl Into<Column<'a>>,
        validity: impl Into<Validity<'a>>,
    ) -> Column<'a> {
        let offsets = offsets.into();
        let first = Part::new(Kind::List, offsets.len());
        Column::of(
            first,
            validity.into(),
            [elements.into(), offsets, sizes.into()],
        )
    }

    /// Records of columns.
    pub fn record(
        columns: impl IntoIterator<Item = (&'a str, Column<'a>)>,
        length: usize,
        validity: impl Into<Validity<'a>>,
    ) -> Column<'a> {
        let (names, columns): (Vec<_>, Vec<_>) = columns.into_iter().unzip();
        let mut first = Part::new(Kind::Record, length);
        first.buffers = names
            .iter()
            .map(|name| Lent::new(name.as_bytes()))
            .collect();
        Column::of(first, validity.into(), columns)
    }

    /// How many rows the column says that it has.
    pub fn len(&self) -> usize {
        self.parts.first().map_or(0, |first| first.length)
    }

    /// Whether it says that it has none.
    pub fn is_empty(&self) -> bool {
        self.len() == 0
    }

    /// What the column says that it is.
    pub fn kind(&self) -> Option<Kind> {
        self.parts
            .first()
            .and_then(|first| Kind::numbered(first.kind))
    }

    /// The rows, where this is a column: the proved code tests it at every depth. Else its first
    /// fault. What passed cannot change, since all slices stay lent as long as the rows are there.
    pub fn check(&self) -> Result<Checked<'_>, Refused> {
        Checked::of(self.nodes(), self.formats())
    }
}

impl<'a, T: Number> From<&'a [T]> for Column<'a> {
    fn from(values: &'a [T]) -> Column<'a> {
        Column::numbers(values, Validity::NonNullable)
    }
}

impl<'a, T: Number> From<&'a Vec<T>> for Column<'a> {
    fn from(values: &'a Vec<T>) -> Column<'a> {
        Column::numbers(values, Validity::NonNullable)
    }
}

impl<'a, T: Number, const N: usize> From<&'a [T; N]> for Column<'a> {
    fn from(values: &'a [T; N]) -> Column<'a> {
        Column::numbers(values, Validity::NonNullable)
    }
}
