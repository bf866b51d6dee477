//! Columns as `Debug` shows them: the type, how many rows, and the first of them, shortened.

use std::fmt::{self, Debug, Formatter, Write};

use crate::checked::Checked;
use crate::column::{Column, Kind};
use crate::raw::arrow::{Foreign, Table};
use crate::steps::Owned;

/// How many rows, elements or columns are shown, how many characters or bytes of a value, and how
/// deep.
const ROWS: usize = 10;
const LETTERS: usize = 40;
const DEPTH: usize = 8;

fn word(kind: Kind) -> &'static str {
    match kind {
        Kind::Bool => "bool",
        Kind::U8 => "u8",
        Kind::U16 => "u16",
        Kind::U32 => "u32",
        Kind::U64 => "u64",
        Kind::I8 => "i8",
        Kind::I16 => "i16",
        Kind::I32 => "i32",
        Kind::I64 => "i64",
        Kind::Utf8 => "utf8",
        Kind::Binary => "binary",
        Kind::Dictionary => "dictionary",
        Kind::FixedSizeList => "fixed_size_list",
        Kind::List => "list",
        Kind::Record => "record",
    }
}

/// The type of a column: `list<i64>`, `{a: i32, b: utf8}`.
fn show_type(rows: &Checked<'_>, depth: usize, f: &mut Formatter<'_>) -> fmt::Result {
    if depth == DEPTH {
        return f.write_str("..");
    }
    if let Some((codes, values)) = rows.dictionary() {
        write!(f, "dictionary<{}, ", word(codes.row_kind()))?;
        show_type(&values, depth + 1, f)?;
        return f.write_char('>');
    }
    if let Some(elements) = rows.elements() {
        write!(f, "{}<", word(rows.kind()))?;
        show_type(&elements, depth + 1, f)?;
        return f.write_char('>');
    }
    match rows.carried() {
        Some(("", values)) => return show_type(&values, depth + 1, f),
        Some((format, _)) => return f.write_str(format),
        None => {}
    }
    match rows.kind() {
        Kind::Record => show_columns(rows, f, |column, f| show_type(column, depth + 1, f)),
        kind => f.write_str(word(kind)),
    }
}

/// The first columns of records, each by its name and what `show` shows of it.
fn show_columns(
    rows: &Checked<'_>,
    f: &mut Formatter<'_>,
    show: impl Fn(&Checked<'_>, &mut Formatter<'_>) -> fmt::Result,
) -> fmt::Result {
    let columns = rows.columns();
    f.write_char('{')?;
    for (i, (name, column)) in columns.iter().take(ROWS).enumerate() {
        write!(f, "{}{}: ", if i == 0 { "" } else { ", " }, name)?;
        show(column, f)?;
    }
    f.write_str(if columns.len() > ROWS { ", ..}" } else { "}" })
}

/// The first of some rows.
fn show_rows(
    rows: &Checked<'_>,
    from: usize,
    end: usize,
    depth: usize,
    f: &mut Formatter<'_>,
) -> fmt::Result {
    f.write_char('[')?;
    for row in (from..end).take(ROWS) {
        f.write_str(if row == from { "" } else { ", " })?;
        show_row(rows, row, depth, f)?;
    }
    f.write_str(if end - from > ROWS { ", ..]" } else { "]" })
}

fn show_row(rows: &Checked<'_>, row: usize, depth: usize, f: &mut Formatter<'_>) -> fmt::Result {
    if rows.is_null(row) {
        return f.write_str("null");
    }
    if depth == DEPTH {
        return f.write_str("..");
    }
    if let (Some(elements), Some(list)) = (rows.elements(), rows.list_at(row)) {
        return show_rows(&elements, list.start, list.end, depth + 1, f);
    }
    if let (Some((_, values)), Some(row)) = (rows.carried(), rows.record_at(row)) {
        return show_row(&values, row, depth + 1, f);
    }
    if let Some(row) = rows.record_at(row) {
        return show_columns(rows, f, |column, f| show_row(column, row, depth + 1, f));
    }
    show_value(rows, row, f)
}

/// A truth value, a number, a text or a byte list.
fn show_value(rows: &Checked<'_>, row: usize, f: &mut Formatter<'_>) -> fmt::Result {
    if let Some(value) = rows.bool_at(row) {
        return write!(f, "{value}");
    }
    if let Some(value) = rows.int_at(row) {
        return write!(f, "{value}");
    }
    if let Some(text) = rows.text_at(row) {
        let short: String = text.chars().take(LETTERS).collect();
        return write!(
            f,
            "{short:?}{}",
            if short.len() < text.len() { ".." } else { "" }
        );
    }
    let bytes = rows.bytes_at(row).unwrap_or_default();
    let short = bytes[..bytes.len().min(LETTERS)].escape_ascii();
    write!(
        f,
        "b\"{short}\"{}",
        if bytes.len() > LETTERS { ".." } else { "" }
    )
}

impl Debug for Checked<'_> {
    fn fmt(&self, f: &mut Formatter<'_>) -> fmt::Result {
        show_type(self, 0, f)?;
        write!(f, ", {} rows: ", self.len())?;
        show_rows(self, 0, self.len(), 0, f)
    }
}

impl Debug for Owned {
    fn fmt(&self, f: &mut Formatter<'_>) -> fmt::Result {
        self.rows().fmt(f)
    }
}

impl Debug for Column<'_> {
    fn fmt(&self, f: &mut Formatter<'_>) -> fmt::Result {
        let kind = self.kind().map_or("no kind", word);
        write!(f, "{kind}, {} rows, not checked", self.len())
    }
}

impl Debug for Table<'_> {
    fn fmt(&self, f: &mut Formatter<'_>) -> fmt::Result {
        self.as_column().fmt(f)
    }
}

impl Debug for Foreign {
    fn fmt(&self, f: &mut Formatter<'_>) -> fmt::Result {
        self.as_column().fmt(f)
    }
}
