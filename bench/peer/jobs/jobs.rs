//! The six jobs. What a function of `crates/vx_jobs` keeps until it ends is kept as long here.

use crate::array::{Array, ArrayRef, Fault, Layout, PType, Result};
use crate::buffer::Buffer;
use crate::concat::concat;
use crate::digest::Digest;
use crate::inputs::{
    Lengths, Letters, Lie, NAMES, Parts, Random, Scale, Script, Share, bits_by_turns, bits_of,
    codes, lists_in, lists_of_numbers, named, names, numbers, places, points, some_null, table,
};
use crate::leaves::{self, narrow};
use crate::records::{column, project, push_validity, remove_column, with_column};
use crate::select::to_canonical;
use crate::texts;
use crate::validity::Validity;
use std::ops::Range;
use std::sync::Arc;

// ---- reader ----

const LONG: Lengths = Lengths { least: 1_000, more: 1_000 };

/// What lies outside, before it is tested.
struct Foreign {
    ascii: Parts,
    mixed: Parts,
    long: Parts,
    elements: ArrayRef,
    in_order: (ArrayRef, ArrayRef),
    anywhere: (ArrayRef, ArrayRef),
    codes: ArrayRef,
    values: ArrayRef,
}

impl Foreign {
    fn new(random: &mut Random, rows: usize) -> Result<Foreign> {
        let count = rows * 20;
        Ok(Foreign {
            ascii: Parts::new(random, rows, Script::Ascii, NAMES),
            mixed: Parts::new(random, rows, Script::Mixed, NAMES),
            long: Parts::new(random, rows / 64, Script::Rare, LONG),
            elements: numbers(random, count, PType::I32, Validity::NonNullable)?,
            in_order: places(random, rows, count, 20, Lie::InOrder),
            anywhere: places(random, rows, count, 20, Lie::Anywhere),
            codes: codes(random, rows)?,
            values: names(random, 1024)?,
        })
    }

    fn lists(&self, places: &(ArrayRef, ArrayRef), rows: &Range<usize>) -> Result<ArrayRef> {
        let offsets = places.0.slice(rows.start, rows.end)?;
        let sizes = places.1.slice(rows.start, rows.end)?;
        Array::try_list_view(self.elements.clone(), offsets, sizes, Validity::NonNullable)
    }

    /// A digest of a batch of each part.
    fn with_batch(&self, random: &mut Random, scale: Scale, digest: Digest) -> Result<Digest> {
        let rows = scale.cut(random);
        let null = some_null(random, rows.len());
        let in_order = self.lists(&self.in_order, &rows)?;
        let anywhere = self.lists(&self.anywhere, &rows)?;
        let digest = digest.with_word(in_order.as_lists()?.is_consecutive()? as u64);
        let digest = digest.with_word(anywhere.as_lists()?.is_consecutive()? as u64);
        let codes = self.codes.slice(rows.start, rows.end)?;
        let columns = vec![
            self.ascii.batch(rows.clone(), Validity::NonNullable)?,
            self.mixed.batch(rows.clone(), null)?,
            in_order,
            anywhere,
            Array::try_dictionary(codes, self.values.clone())?,
        ];
        let names = named(&["ascii", "mixed", "in order", "anywhere", "code"]);
        let table = Array::try_structure(names, columns, Validity::NonNullable, scale.batch)?;
        let digest = digest.with_array(&table)?.with_texts(&table);
        let long = self.long.batch(rows.start / 64..rows.end / 64, Validity::AllValid)?;
        Ok(digest.with_array(&long)?.with_texts(&long).next_turn())
    }
}

pub fn reader(random: &mut Random, scale: Scale) -> Result<Digest> {
    let foreign = Foreign::new(random, scale.column)?;
    let digest = Digest::new(scale.rounds);
    (0..scale.rounds).try_fold(digest, |digest, _| foreign.with_batch(random, scale, digest))
}

// ---- query ----

/// A sum over the numbers of a column, row by row: one below 0 counts as 1.
fn sum_of(amounts: &Array) -> Result<u64> {
    let Layout::Primitive { ptype: PType::I32, values, validity: Validity::Array(valid) } =
        &amounts.layout
    else {
        return Err(Fault::Usage);
    };
    let mut sum = 0u64;
    for (i, amount) in values.typed::<i32>().iter().enumerate() {
        if valid.value(i) {
            sum = sum.wrapping_add(u64::try_from(*amount).unwrap_or(1));
        }
    }
    Ok(sum)
}

/// What is kept of a batch: few rows and half of them at random, ranges, and each second row.
fn filtered(random: &mut Random, batch: &Array) -> Result<Vec<ArrayRef>> {
    let rows = batch.len;
    let mut kept = Vec::with_capacity(4);
    for share in [Share::Few, Share::Half] {
        kept.push(batch.filter(&random.bits(rows, share))?);
    }
    kept.push(batch.filter(&random.bits_in_runs(rows, 1000))?);
    kept.push(batch.filter(&bits_by_turns(rows))?);
    Ok(kept)
}

/// The places of a join: nearly in order, some again, and one in eight finds none.
fn joined_places(random: &mut Random, rows: usize) -> Result<ArrayRef> {
    let place = |i: usize| (i + random.below(4)).min(rows - 1) as u32;
    let places = (0..rows).map(place).collect();
    let found = some_null(random, rows);
    Array::primitive(PType::U32, Buffer::from_vec::<u32>(places), found)
}

/// The rows of a batch in the order of a sort, those of a join, and those under a mask.
fn moved(random: &mut Random, batch: &Array) -> Result<Vec<ArrayRef>> {
    let rows = batch.len;
    let mut all = Vec::with_capacity(3);
    let sorted = Array::u32s(random.numbers(rows / 2, rows));
    all.push(batch.take(&sorted)?);
    let joined = joined_places(random, rows)?;
    all.push(batch.take(&joined)?);
    all.push(batch.mask(&random.bits(rows, Share::Most))?);
    Ok(all)
}

/// What was kept of batches, joined, without the lists.
fn joined(kept: Vec<ArrayRef>) -> Result<ArrayRef> {
    let chosen = kept.into_iter().map(|batch| Ok(remove_column(&batch, "tags")?.0));
    concat(&chosen.collect::<Result<Vec<_>>>()?)
}

fn with_query(random: &mut Random, digest: Digest, batch: &Array) -> Result<Digest> {
    let kept = filtered(random, batch)?;
    let digest = digest.with_arrays(&kept)?;
    let joined = joined(kept)?;
    let digest = digest.with_array(&joined)?.with_texts(&joined);
    let moved = moved(random, batch)?;
    let digest = digest.with_arrays(&moved)?;
    moved.iter().try_fold(digest, |digest, array| digest.with_array(&*to_canonical(array)?))
}

pub fn query(random: &mut Random, scale: Scale) -> Result<Digest> {
    let table = table(random, scale.column)?;
    let amounts = column(&table, "amount")?;
    let mut digest = Digest::new(scale.rounds);
    for _ in 0..scale.rounds {
        let rows = scale.cut(random);
        let amounts = amounts.slice(rows.start, rows.end)?;
        digest = digest.with_word(sum_of(&amounts)?);
        let batch = table.slice(rows.start, rows.end)?;
        digest = with_query(random, digest, &batch)?.next_turn();
    }
    Ok(digest)
}

// ---- lists ----

/// Columns of lists, and one of texts.
struct Columns {
    numbers: ArrayRef,
    texts: ArrayRef,
    records: ArrayRef,
    lists: ArrayRef,
    single: ArrayRef,
    names: ArrayRef,
}

/// A digest of lists, of the texts in them, and of their offsets in the narrowest type.
fn with_lists(digest: Digest, lists: &Array) -> Result<Digest> {
    let digest = digest.with_array(lists)?.with_texts(lists);
    digest.with_array(&*narrow(lists.as_lists()?.offsets)?)
}

/// A digest of some rows of a column of lists, half of which a filter keeps, laid end to end.
fn with_filtered(
    random: &mut Random,
    digest: Digest,
    column: &Array,
    rows: &Range<usize>,
) -> Result<Digest> {
    let batch = column.slice(rows.start, rows.end)?;
    let kept = batch.filter(&random.bits(batch.len, Share::Half))?;
    with_lists(digest, &*kept.as_lists()?.rebuild()?)
}

fn with_rebuilt(digest: Digest, column: &Array, rows: &Range<usize>) -> Result<Digest> {
    let batch = column.slice(rows.start, rows.end)?;
    with_lists(digest, &*batch.as_lists()?.rebuild()?)
}

impl Columns {
    fn new(random: &mut Random, rows: usize) -> Result<Columns> {
        let numbers_lists = lists_of_numbers(random, rows)?;
        let names = names(random, rows)?;
        let points = points(random, rows)?;
        let some = numbers(random, rows, PType::I64, Validity::NonNullable)?;
        Ok(Columns {
            texts: lists_in(random, rows, names.clone(), 5, Lie::Anywhere)?,
            records: lists_in(random, rows, points, 5, Lie::Anywhere)?,
            lists: lists_in(random, rows, numbers_lists.clone(), 3, Lie::Anywhere)?,
            single: lists_in(random, rows, some, 1, Lie::Anywhere)?,
            numbers: numbers_lists,
            names,
        })
    }

    /// A digest of a batch of each column.
    fn with_batch(
        &self,
        random: &mut Random,
        digest: Digest,
        rows: Range<usize>,
    ) -> Result<Digest> {
        let digest = with_filtered(random, digest, &self.numbers, &rows)?;
        let digest = with_filtered(random, digest, &self.texts, &rows)?;
        let digest = with_filtered(random, digest, &self.single, &rows)?;
        let digest = with_rebuilt(digest, &self.records, &rows)?;
        let digest = with_rebuilt(digest, &self.lists, &rows)?;
        let batch = self.numbers.slice(rows.start, rows.end)?;
        let digest = with_lists(digest, &*batch.as_lists()?.trim()?)?;
        let batch = self.names.slice(rows.start, rows.end)?;
        let kept = batch.filter(&random.bits(batch.len, Share::Half))?;
        let names = texts::rebuffer(&kept, texts::MAX_BUFFER_LEN)?;
        Ok(digest.with_array(&names)?.with_texts(&names).next_turn())
    }
}

pub fn lists(random: &mut Random, scale: Scale) -> Result<Digest> {
    let columns = Columns::new(random, scale.column)?;
    let mut digest = Digest::new(scale.rounds);
    for _ in 0..scale.rounds {
        let rows = scale.cut(random);
        digest = columns.with_batch(random, digest, rows)?;
    }
    Ok(digest)
}

// ---- writer ----

const WORDS: Lengths = Lengths { least: 3, more: 28 };

/// Values of 12 and of 13 bytes.
const EDGE: Lengths = Lengths { least: 12, more: 2 };

/// What is written.
struct Values<'a> {
    short: Vec<&'a str>,
    words: Vec<Option<&'a str>>,
    edge: Vec<Option<&'a [u8]>>,
    mixed: Vec<Option<&'a [u8]>>,
    lengths: Vec<u32>,
    numbers: Vec<u32>,
    amounts: Vec<Option<u32>>,
    heap: Buffer,
}

fn texts_of<'a>(
    random: &mut Random,
    letters: &'a Letters,
    count: usize,
    lengths: Lengths,
) -> Vec<&'a str> {
    let text = |_| {
        let length = lengths.any(random);
        letters.text(random, length)
    };
    (0..count).map(text).collect()
}

/// The same values in another form, of which one in eight is missing.
fn some_missing<T: Copy, U>(
    random: &mut Random,
    values: &[T],
    form: impl Fn(T) -> U,
) -> Vec<Option<U>> {
    values.iter().map(|value| (random.below(8) != 0).then(|| form(*value))).collect()
}

impl<'a> Values<'a> {
    fn new(random: &mut Random, rows: usize, ascii: &'a Letters, mixed: &'a Letters) -> Self {
        let words = texts_of(random, ascii, rows, WORDS);
        let edge = texts_of(random, ascii, rows, EDGE);
        let others = texts_of(random, mixed, rows, NAMES);
        let numbers = random.numbers(rows, 1_000_000);
        Values {
            short: texts_of(random, ascii, rows, NAMES),
            words: some_missing(random, &words, |text| text),
            edge: some_missing(random, &edge, str::as_bytes),
            mixed: some_missing(random, &others, str::as_bytes),
            lengths: random.numbers(rows, 30),
            amounts: some_missing(random, &numbers, |number| number),
            numbers,
            heap: random.bytes(rows * 4, u64::MAX),
        }
    }

    fn texts(&self, rows: Range<usize>) -> Result<[ArrayRef; 4]> {
        Ok([
            texts::from_iter_str(self.short[rows.clone()].iter().copied())?,
            texts::from_iter_nullable_str(self.words[rows.clone()].iter().copied())?,
            texts::from_iter_nullable_bin(self.edge[rows.clone()].iter().copied())?,
            texts::from_iter_nullable_text(self.mixed[rows].iter().copied())?,
        ])
    }

    fn numbers(&self, random: &mut Random, rows: Range<usize>) -> Result<[ArrayRef; 4]> {
        let null = some_null(random, rows.len());
        let values = random.bytes(rows.len() / 2, u64::MAX);
        let numbers = &self.numbers[rows.clone()];
        Ok([
            leaves::numbers_from_iter(numbers.iter().copied()),
            leaves::numbers_from_options(self.amounts[rows].iter().copied()),
            leaves::bools_from_iter(numbers.iter().map(|number| number & 64 != 0)),
            leaves::spread(values.typed(), bits_of(&null)?)?,
        ])
    }

    /// A digest of the views of a heap of values.
    fn with_views(&self, digest: Digest, rows: Range<usize>) -> Result<Digest> {
        let lengths = &self.lengths[rows];
        let total = lengths.iter().map(|length| *length as usize).sum();
        if total > self.heap.len() {
            return Err(Fault::Usage);
        }
        let heap = self.heap.slice(0, total);
        let (buffers, views) = texts::build_views(texts::MAX_BUFFER_LEN, &heap, lengths)?;
        Ok(digest.with_buffers(&buffers).with_views(&Buffer::from_vec(views)))
    }
}

fn with_columns(digest: Digest, columns: &[ArrayRef]) -> Result<Digest> {
    columns
        .iter()
        .try_fold(digest, |digest, column| Ok(digest.with_array(column)?.with_texts(column)))
}

pub fn writer(random: &mut Random, scale: Scale) -> Result<Digest> {
    let ascii = Letters::new(random, scale.column, Script::Ascii);
    let mixed = Letters::new(random, scale.column, Script::Mixed);
    let values = Values::new(random, scale.column, &ascii, &mixed);
    let mut digest = Digest::new(scale.rounds);
    for _ in 0..scale.rounds {
        let rows = scale.cut(random);
        let texts = values.texts(rows.clone())?;
        digest = with_columns(digest, &texts)?;
        let numbers = values.numbers(random, rows.clone())?;
        digest = with_columns(digest, &numbers)?;
        digest = values.with_views(digest, rows)?.next_turn();
    }
    Ok(digest)
}

// ---- nulls ----

/// A digest of a validity that is bits, as the truth values that these are.
fn with_validity(digest: Digest, validity: &Validity) -> Result<Digest> {
    let bits = bits_of(validity)?.clone();
    digest.with_array(&Array::bools_unchecked(bits, Validity::NonNullable))
}

/// Records in which some are null, and some of their fields.
fn records_with_nulls(random: &mut Random, rows: usize) -> Result<ArrayRef> {
    let mut columns = Vec::with_capacity(4);
    for ptype in [PType::I64, PType::U16, PType::U8, PType::I32] {
        let null = some_null(random, rows);
        columns.push(numbers(random, rows, ptype, null)?);
    }
    let null = some_null(random, rows);
    Array::try_structure(named(&["id", "count", "flag", "weight"]), columns, null, rows)
}

/// A digest of validities that are joined, turned and patched.
fn with_validities(random: &mut Random, digest: Digest, rows: usize) -> Result<Digest> {
    let one = some_null(random, rows);
    let both = one.and(&some_null(random, rows))?;
    let digest = with_validity(digest, &both.not())?;
    let indices = random.numbers(rows / 8, rows);
    let patches = some_null(random, rows / 8);
    let patched = both.patch(rows, &indices, &patches)?;
    let in_ranges = patched.and(&Validity::Array(random.bits_in_runs(rows, 500)))?;
    in_ranges.check(rows)?;
    let digest = with_validity(digest, &in_ranges)?.with_mask(bits_of(&in_ranges)?);
    let last = in_ranges.and(&Validity::Array(bits_by_turns(rows)))?;
    with_validity(digest, &last)
}

/// A digest of truth values as a mask, where a row that is null counts as false.
fn with_truths(random: &mut Random, digest: Digest, rows: usize) -> Result<Digest> {
    let bits = random.bits(rows, Share::Half);
    let null = some_null(random, rows);
    Ok(digest.with_mask(&bits.and(bits_of(&null)?)))
}

/// A digest of records whose nulls are pushed into their columns.
fn with_records(random: &mut Random, digest: Digest, batch: &Array) -> Result<Digest> {
    let masked = batch.mask(&random.bits(batch.len, Share::Most))?;
    digest.with_array(&*push_validity(&masked)?)
}

pub fn nulls(random: &mut Random, scale: Scale) -> Result<Digest> {
    let table = records_with_nulls(random, scale.column)?;
    let mut digest = Digest::new(scale.rounds);
    for _ in 0..scale.rounds {
        let rows = scale.cut(random);
        digest = with_validities(random, digest, scale.batch)?;
        digest = with_truths(random, digest, scale.batch)?;
        let batch = table.slice(rows.start, rows.end)?;
        digest = with_records(random, digest, &batch)?.next_turn();
    }
    Ok(digest)
}

// ---- batches ----

const JOINED: usize = 32;

const WIDE: usize = 200;

/// A table, a wide one, and lists in lists in lists.
struct Tables {
    table: ArrayRef,
    wide: ArrayRef,
    nested: ArrayRef,
    chosen: Arc<[Arc<str>]>,
    half: Arc<[Arc<str>]>,
}

fn wide_name(i: usize) -> Arc<str> {
    format!("measure_{i}").into()
}

fn wide_rows(scale: Scale) -> usize {
    (scale.column / 16).max(1_024)
}

fn wide_table(random: &mut Random, rows: usize) -> Result<ArrayRef> {
    let columns = (0..WIDE).map(|_| numbers(random, rows, PType::U8, Validity::AllValid));
    let columns = columns.collect::<Result<_>>()?;
    Array::try_structure((0..WIDE).map(wide_name).collect(), columns, Validity::NonNullable, rows)
}

impl Tables {
    fn new(random: &mut Random, scale: Scale) -> Result<Tables> {
        let rows = scale.column;
        let inner = lists_of_numbers(random, rows)?;
        let middle = lists_in(random, rows, inner, 5, Lie::Anywhere)?;
        Ok(Tables {
            table: table(random, rows)?,
            wide: wide_table(random, wide_rows(scale))?,
            nested: lists_in(random, rows, middle, 5, Lie::Anywhere)?,
            chosen: named(&["name", "id", "city", "place", "flag"]),
            half: (0..WIDE / 2).map(|i| wide_name(i * 2 + 1)).collect(),
        })
    }
}

/// A batch of a table: some of its columns, one of them twice and one taken out.
fn chosen_batch(batch: &Array, names: &Arc<[Arc<str>]>, twice: &str) -> Result<ArrayRef> {
    let batch = project(batch, names)?;
    let more = with_column(&batch, "again", column(&batch, twice)?.clone())?;
    Ok(remove_column(&more, twice)?.0)
}

impl Tables {
    /// A batch of 400 to 1,423 rows of the narrow table, and a digest of it and of nested lists.
    fn next_batch(
        &self,
        random: &mut Random,
        digest: Digest,
        scale: Scale,
    ) -> Result<(ArrayRef, Digest)> {
        let rows = (random.below(1024) + 400).min(scale.batch);
        let start = random.below(scale.column - rows);
        let nested = self.nested.slice(start, start + rows)?;
        let digest = digest.with_array(&nested)?;
        let batch = self.table.slice(start, start + rows)?;
        let batch = chosen_batch(&batch, &self.chosen, "id")?;
        let digest = digest.with_array(&batch)?;
        Ok((batch, digest.next_turn()))
    }

    /// Some batches of the narrow table, and all of them joined again.
    fn with_joined(&self, random: &mut Random, digest: Digest, scale: Scale) -> Result<Digest> {
        let mut digest = digest;
        let mut batches = Vec::new();
        for _ in 0..JOINED {
            let (batch, after) = self.next_batch(random, digest, scale)?;
            batches.push(batch);
            digest = after;
        }
        if let Some(batch) = batches.last() {
            digest = digest.with_texts(batch);
        }
        digest.with_array(&*concat(&batches)?)
    }

    /// A batch of 400 rows of the wide table.
    fn with_wide(&self, digest: Digest, start: usize) -> Result<Digest> {
        let batch = self.wide.slice(start, start + 400)?;
        digest.with_array(&*chosen_batch(&batch, &self.half, "measure_101")?)
    }
}

pub fn batches(random: &mut Random, scale: Scale) -> Result<Digest> {
    let tables = Tables::new(random, scale)?;
    let step = (wide_rows(scale) - 400) / scale.rounds.max(1);
    let mut digest = Digest::new(scale.rounds * JOINED);
    for round in 0..scale.rounds {
        digest = tables.with_joined(random, digest, scale)?;
        digest = tables.with_wide(digest, round * step + random.below(step))?;
    }
    Ok(digest)
}
