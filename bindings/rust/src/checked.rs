//! Columns that have passed, and their rows.

use std::ffi::CString;
use std::ops::Range;
use std::sync::Arc;

use crate::column::{Column, Kind, Number};
use crate::faults::{Refused, BAD_ARROW};
use crate::raw::arrow::{self, FFI_ArrowArray, FFI_ArrowSchema};
use crate::raw::{self, Format, Node};

/// The rows of a column that has passed the proved check, which cannot change as long as this is
/// there. A copy costs nothing.
///
/// Each call that reads a row answers `None` where the row is null or is of another kind, and
/// panics where there is no such row. The rows of a dictionary are read as those of its values.
#[derive(Clone)]
pub struct Checked<'c> {
    table: Arc<Passed<'c>>,
    at: usize,
}

/// The nodes of a column, each before its parts.
struct Passed<'c> {
    nodes: Vec<Node<'c>>,
    /// Of each node, the format with which it came in.
    formats: Vec<Format>,
    /// Of each node, the place after the last of its parts.
    ends: Vec<usize>,
    /// How deep they are nested.
    levels: usize,
}

/// How a column is written as an Arrow array. The default asks for nothing.
#[derive(Clone, Copy, Debug, Default)]
pub struct Writing<'w> {
    /// Texts, byte lists and lists are all written by offsets, as older readers take them, or all
    /// by views. By default, in the formats with which they came in, at every depth; by views where
    /// they came from no Arrow array.
    pub by_offsets: Option<bool>,
    /// The name of the column.
    pub name: &'w str,
    /// How many bytes may be written: by default 8 MiB or 8 times the distinct bytes of the column.
    pub most_bytes: Option<usize>,
}

impl<'c> Passed<'c> {
    fn new(nodes: Vec<Node<'c>>, formats: Vec<Format>) -> Passed<'c> {
        let mut ends = vec![0; nodes.len()];
        let (mut waiting, mut levels): (Vec<(usize, usize)>, _) = (Vec::new(), 0);
        for (at, node) in nodes.iter().enumerate().rev() {
            let first = waiting.len() - parts(node).min(waiting.len());
            let of_parts = waiting.drain(first..);
            let (end, deep) =
                of_parts.fold((at + 1, 0), |(end, deep), (e, d)| (end.max(e), deep.max(d)));
            waiting.push((end, deep + 1));
            (ends[at], levels) = (end, levels.max(deep + 1));
        }
        Passed {
            nodes,
            formats,
            ends,
            levels,
        }
    }
}

/// How many parts a node has.
fn parts(node: &Node) -> usize {
    let of_kind = match Kind::numbered(node.kind) {
        Some(Kind::Dictionary) => 2,
        Some(Kind::FixedSizeList) => 1,
        Some(Kind::List) => 3,
        Some(Kind::Record) => node.buffers.get().len(),
        _ => 0,
    };
    of_kind + usize::from(node.validity == 3)
}

/// How deep nodes are nested.
pub(crate) fn levels(nodes: &[Node]) -> usize {
    Passed::new(nodes.to_vec(), Vec::new()).levels
}

impl<'c> Checked<'c> {
    /// The rows of nodes, where they are a column.
    pub(crate) fn of(nodes: Vec<Node<'c>>, formats: Vec<Format>) -> Result<Checked<'c>, Refused> {
        let rows = Checked::passed(nodes, formats);
        raw::check(&rows.table.nodes, rows.table.levels)?;
        Ok(rows)
    }

    /// The rows of nodes that have passed.
    pub(crate) fn passed(nodes: Vec<Node<'c>>, formats: Vec<Format>) -> Checked<'c> {
        Checked {
            table: Arc::new(Passed::new(nodes, formats)),
            at: 0,
        }
    }

    fn part(&self, at: usize) -> Checked<'c> {
        Checked {
            table: Arc::clone(&self.table),
            at,
        }
    }

    fn node(&self, at: usize) -> &Node<'c> {
        &self.table.nodes[at]
    }

    fn kind_of(&self, at: usize) -> Kind {
        Kind::numbered(self.node(at).kind).expect("a kind that has passed")
    }

    /// The first part of a node after its validity.
    fn first_part(&self, at: usize) -> usize {
        match self.node(at).validity {
            3 => self.table.ends[at + 1],
            _ => at + 1,
        }
    }

    /// The node of the values, where a node is a dictionary, of dictionaries too.
    fn value_node(&self) -> usize {
        let mut at = self.at;
        while self.kind_of(at) == Kind::Dictionary {
            at = self.table.ends[at + 1];
        }
        at
    }

    /// How many rows there are.
    pub fn len(&self) -> usize {
        self.node(self.at).length
    }

    /// Whether there is none.
    pub fn is_empty(&self) -> bool {
        self.len() == 0
    }

    /// What the column is.
    pub fn kind(&self) -> Kind {
        self.kind_of(self.at)
    }

    /// What its rows are: of a dictionary the kind of its values.
    pub fn row_kind(&self) -> Kind {
        self.kind_of(self.value_node())
    }

    /// Whether a row is null.
    pub fn is_null(&self, row: usize) -> bool {
        self.leaf(row).is_none()
    }

    /// How many rows are null.
    pub fn null_count(&self) -> usize {
        match (self.kind(), self.node(self.at).validity) {
            (Kind::Dictionary, _) | (_, 3) => {
                (0..self.len()).filter(|&row| self.is_null(row)).count()
            }
            (_, 2) => self.len(),
            _ => 0,
        }
    }

    /// A truth value.
    pub fn bool_at(&self, row: usize) -> Option<bool> {
        let (at, row) = self.leaf(row)?;
        (self.kind_of(at) == Kind::Bool).then(|| self.bit(at, row))
    }

    /// An integer.
    pub fn int_at(&self, row: usize) -> Option<i128> {
        let (at, row) = self.leaf(row)?;
        self.number(at, row)
    }

    /// A text.
    pub fn text_at(&self, row: usize) -> Option<&'c str> {
        let (at, row) = self.leaf(row)?;
        let value = self.value(at, row)?;
        (self.kind_of(at) == Kind::Utf8)
            .then(|| std::str::from_utf8(value).expect("a text that has passed"))
    }

    /// A byte list, or the bytes of a text.
    pub fn bytes_at(&self, row: usize) -> Option<&'c [u8]> {
        let (at, row) = self.leaf(row)?;
        self.value(at, row)
    }

    /// Where a list lies in the [`elements`](Checked::elements).
    pub fn list_at(&self, row: usize) -> Option<Range<usize>> {
        let (at, row) = self.leaf(row)?;
        match self.kind_of(at) {
            Kind::FixedSizeList => {
                let size = self.node(at).size as usize;
                Some(row * size..(row + 1) * size)
            }
            Kind::List => {
                let offsets = self.table.ends[self.first_part(at)];
                let start = self.count(offsets, row);
                Some(start..start + self.count(self.table.ends[offsets], row))
            }
            _ => None,
        }
    }

    /// The row at which a record stands in its columns: where this is no dictionary, the same one.
    pub fn record_at(&self, row: usize) -> Option<usize> {
        let (at, row) = self.leaf(row)?;
        (self.kind_of(at) == Kind::Record).then_some(row)
    }

    /// The elements that lists lie in.
    pub fn elements(&self) -> Option<Checked<'c>> {
        let at = self.value_node();
        let has = matches!(self.kind_of(at), Kind::FixedSizeList | Kind::List);
        has.then(|| self.part(self.first_part(at)))
    }

    /// The columns of records with their names, in order.
    pub fn columns(&self) -> Vec<(&'c str, Checked<'c>)> {
        let at = self.value_node();
        if self.kind_of(at) != Kind::Record {
            return Vec::new();
        }
        let mut place = self.first_part(at);
        let named = self.node(at).buffers.get().iter().map(|name| {
            let name = std::str::from_utf8(name.get()).expect("a name that has passed");
            let column = self.part(place);
            place = self.table.ends[place];
            (name, column)
        });
        named.collect()
    }

    /// The first column of records that has a name.
    pub fn column(&self, name: &str) -> Option<Checked<'c>> {
        let mut columns = self.columns().into_iter();
        columns
            .find(|(of, _)| *of == name)
            .map(|(_, column)| column)
    }

    /// The format that values are carried under for which the layer has no type, as `f` or `tdD`,
    /// and the column of their bytes: the value of a row stands at
    /// [`record_at`](Checked::record_at).
    pub fn carried(&self) -> Option<(&'c str, Checked<'c>)> {
        match self.columns().as_slice() {
            [(name, values)] => {
                let format = name.strip_prefix('\0')?.split('\0').next()?;
                Some((format, values.clone()))
            }
            _ => None,
        }
    }

    /// The codes and the values of a dictionary.
    pub fn dictionary(&self) -> Option<(Checked<'c>, Checked<'c>)> {
        let codes = self.at + 1;
        (self.kind() == Kind::Dictionary)
            .then(|| (self.part(codes), self.part(self.table.ends[codes])))
    }

    /// All integers as they lie, also those of null rows. None where these are no such integers, or
    /// do not lie as Rust has them lie in memory.
    pub fn numbers<T: Number>(&self) -> Option<&'c [T]> {
        let bytes = self.node(self.at).bytes.get();
        (self.kind() == T::KIND).then(|| raw::items_of(bytes))?
    }

    /// The same rows as a column, to run steps on.
    pub fn as_column(&self) -> Column<'c> {
        let (nodes, formats) = self.own();
        Column::of_nodes(nodes, formats)
    }

    /// The nodes of this column, and their formats.
    fn own(&self) -> (&[Node<'c>], &[Format]) {
        let all = self.at..self.table.ends[self.at];
        (&self.table.nodes[all.clone()], &self.table.formats[all])
    }

    /// Writes the rows as an Arrow array, in blocks of its own, with all parts as they are. Refused
    /// is what Arrow cannot say, as lists by offsets that do not lie end to end, or more bytes than
    /// may be written. What [`pack`](Column::pack) made lies end to end.
    pub fn into_ffi(self, how: &Writing) -> Result<(FFI_ArrowArray, FFI_ArrowSchema), Refused> {
        let name = CString::new(how.name).map_err(|_| Refused::new(BAD_ARROW, 0, 0))?;
        let (nodes, formats) = self.own();
        let formats = how.by_offsets.is_none().then_some(formats);
        let flags = u32::from(how.by_offsets == Some(true));
        arrow::write((nodes, formats), flags, &name, how.most_bytes)
    }

    /// Where the value of a row stands: a node that is no dictionary, and its row. None where the
    /// row is null.
    fn leaf(&self, row: usize) -> Option<(usize, usize)> {
        assert!(row < self.len(), "row {row} of {}", self.len());
        self.leaf_of(self.at, row)
    }

    fn leaf_of(&self, mut at: usize, mut row: usize) -> Option<(usize, usize)> {
        let mut values = Vec::new();
        loop {
            while self.kind_of(at) == Kind::Dictionary {
                values.push(self.table.ends[at + 1]);
                at += 1;
            }
            if self.is_null_at(at, row) {
                return None;
            }
            let Some(next) = values.pop() else {
                return Some((at, row));
            };
            (at, row) = (next, self.count(at, row));
        }
    }

    /// Whether a row of a node that is no dictionary is null. A validity has no nulls.
    fn is_null_at(&self, at: usize, row: usize) -> bool {
        match self.node(at).validity {
            2 => true,
            3 => self
                .leaf_of(at + 1, row)
                .is_none_or(|(at, row)| !self.bit(at, row)),
            _ => false,
        }
    }

    fn bit(&self, at: usize, row: usize) -> bool {
        let node = self.node(at);
        let place = node.offset + row;
        node.bytes.get()[place / 8] >> (place % 8) & 1 == 1
    }

    /// A number of a node that is no dictionary.
    fn number(&self, at: usize, row: usize) -> Option<i128> {
        let bytes = self.node(at).bytes.get();
        Some(match self.kind_of(at) {
            Kind::U8 => bytes[row].into(),
            Kind::U16 => u16::from_le_bytes(item(bytes, row)).into(),
            Kind::U32 => u32::from_le_bytes(item(bytes, row)).into(),
            Kind::U64 => u64::from_le_bytes(item(bytes, row)).into(),
            Kind::I8 => i8::from_le_bytes(item(bytes, row)).into(),
            Kind::I16 => i16::from_le_bytes(item(bytes, row)).into(),
            Kind::I32 => i32::from_le_bytes(item(bytes, row)).into(),
            Kind::I64 => i64::from_le_bytes(item(bytes, row)).into(),
            _ => return None,
        })
    }

    /// A code, an offset or a size: never null, and counted by a `usize`.
    fn count(&self, at: usize, row: usize) -> usize {
        let leaf = self.leaf_of(at, row);
        let number = leaf.and_then(|(at, row)| self.number(at, row));
        number
            .and_then(|number| usize::try_from(number).ok())
            .expect("a number that has passed")
    }

    /// The value of a view.
    fn value(&self, at: usize, row: usize) -> Option<&'c [u8]> {
        let node = self.node(at);
        if !matches!(self.kind_of(at), Kind::Utf8 | Kind::Binary) {
            return None;
        }
        let view = &node.views.get()[row];
        let field = |i| u32::from_le_bytes(item(view, i)) as usize;
        let (size, start) = (field(0), field(3));
        Some(match size {
            0..=12 => &view[4..4 + size],
            _ => &node.buffers.get()[field(2)].get()[start..start + size],
        })
    }
}

/// The bytes of an item.
fn item<const N: usize>(bytes: &[u8], place: usize) -> [u8; N] {
    let mut item = [0; N];
    item.copy_from_slice(&bytes[N * place..N * (place + 1)]);
    item
}

#[cfg(test)]
mod tests {
    use super::*;

    #[test]
    fn levels_are_those_of_the_deepest_part() {
        let mut nest = Column::from(&[7u8]);
        for _ in 0..5 {
            nest = Column::fixed_size_list(nest, 1, 1, None);
        }
        assert_eq!(levels(&nest.nodes()), 6);
        let flat = Column::from(&[7u8]);
        for columns in [
            [("", nest.clone()), ("", flat.clone())],
            [("", flat), ("", nest)],
        ] {
            assert_eq!(levels(&Column::record(columns, 1, None).nodes()), 7);
        }
        assert_eq!(levels(&[]), 0);
    }
}
