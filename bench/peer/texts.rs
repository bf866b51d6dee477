//! Columns of texts by views: their values moved into buffers of their own.

use super::{
    Bench, Bits, Buffer, Built, EMPTY, MAX_BUFFER_LEN, MAX_INLINED_SIZE, Operation, Random, Refusal,
    Result, View, check_text, filter_items, leaves::Packer, leaves::told_by, random_bits, random_bools,
    text_array,
};
use std::hint::black_box;

/// Adds the value of a view, which stands in the view itself or in a buffer.
#[inline]
fn push_value(heap: &mut Vec<u8>, view: View, buffers: &[Buffer<u8>], row: usize) -> Result<()> {
    let (place, size) = (view.0.to_le_bytes(), view.size());
    if size <= MAX_INLINED_SIZE {
        heap.extend_from_slice(&place[4..4 + size]);
        return Ok(());
    }
    let (buffer, start) = ((view.0 >> 64) as u32 as usize, (view.0 >> 96) as usize);
    let buffer = buffers.get(buffer).ok_or(Refusal::BadBuffer(row))?.as_slice();
    heap.extend_from_slice(buffer.get(start..start + size).ok_or(Refusal::BadEnd(row))?);
    Ok(())
}

/// The same values one after another, in buffers of at most `limit` bytes.
#[inline(never)]
fn rebuffer(limit: usize, buffers: &[Buffer<u8>], views: &[View]) -> Result<Built> {
    let total = views.iter().map(|view| view.size()).sum();
    let (mut heap, mut moved) = (Vec::with_capacity(total), Vec::with_capacity(views.len()));
    let (mut ends, mut begin) = (Vec::new(), 0);
    for (row, view) in views.iter().enumerate() {
        let size = view.size();
        if size > limit {
            return Err(Refusal::ValueTooLong(row));
        }
        if heap.len() - begin + size > limit {
            ends.push(begin..heap.len());
            begin = heap.len();
        }
        let number = u32::try_from(ends.len()).map_err(|_| Refusal::Overflow)?;
        if size <= MAX_INLINED_SIZE {
            moved.push(*view);
        } else {
            let place = (number as u128) << 64 | ((heap.len() - begin) as u128) << 96;
            moved.push(View(view.0 as u64 as u128 | place));
        }
        push_value(&mut heap, *view, buffers, row)?;
    }
    if begin < heap.len() {
        ends.push(begin..heap.len());
    }
    let heap = Buffer::new(heap);
    let buffers = ends.into_iter().map(|range| heap.slice(range)).collect();
    Ok((buffers, Buffer::new(moved)))
}

struct Rebuffer {
    buffers: Vec<Buffer<u8>>,
    views: Vec<View>,
}

impl Operation for Rebuffer {
    type Made = Built;

    fn run(&mut self) -> Result<Built> {
        rebuffer(MAX_BUFFER_LEN, &self.buffers, &self.views)
    }

    fn checksum(&self, made: Built) -> u64 {
        EMPTY.with_built(&made).0
    }
}

// ---- columns from parts and from texts ----

/// The views, where they are texts in the buffers: those of null rows become zeros.
#[inline(never)]
fn try_new(built: Built, validity: Option<Bits>) -> Result<(Built, Option<Bits>)> {
    let (buffers, views) = built;
    let Some(valid) = validity else {
        check_text(views.as_slice(), &buffers)?;
        return Ok(((buffers, views), None));
    };
    if valid.len != views.len {
        return Err(Refusal::LengthMismatch);
    }
    let is_ascii = buffers.iter().all(|buffer| buffer.as_slice().is_ascii());
    let mut checked = Vec::with_capacity(views.len);
    for (row, view) in views.as_slice().iter().enumerate() {
        if !valid.value(row) {
            checked.push(View(0));
            continue;
        }
        if view.size() > MAX_INLINED_SIZE {
            let (buffer, range) = view.place(row, &buffers)?;
            if !is_ascii && !super::is_utf8(&buffer[range]) {
                return Err(Refusal::NotUtf8(row));
            }
        } else if !view.is_inlined_text() {
            return Err(Refusal::NotUtf8(row));
        }
        checked.push(*view);
    }
    Ok(((buffers, Buffer::new(checked)), Some(valid)))
}

/// Views, and the bytes of the values that do not fit in them, one after another.
struct Builder {
    views: Vec<View>,
    heap: Vec<u8>,
    buffers: Vec<Buffer<u8>>,
}

impl Builder {
    fn new() -> Builder {
        Builder { views: Vec::new(), heap: Vec::new(), buffers: Vec::new() }
    }

    #[inline]
    fn push(&mut self, text: &str) -> Result<()> {
        let value = text.as_bytes();
        if value.len() <= MAX_INLINED_SIZE {
            self.views.push(View::new(value, 0, 0));
            return Ok(());
        }
        if value.len() > MAX_BUFFER_LEN {
            return Err(Refusal::ValueTooLong(self.views.len()));
        }
        if self.heap.len() + value.len() > MAX_BUFFER_LEN {
            self.buffers.push(Buffer::new(std::mem::take(&mut self.heap)));
        }
        let buffer = u32::try_from(self.buffers.len()).map_err(|_| Refusal::Overflow)?;
        self.views.push(View::new(value, buffer, self.heap.len() as u32));
        self.heap.extend_from_slice(value);
        Ok(())
    }

    fn finish(mut self) -> Built {
        if !self.heap.is_empty() {
            self.buffers.push(Buffer::new(self.heap));
        }
        (self.buffers, Buffer::new(self.views))
    }
}

#[inline(never)]
fn from_iter<'a>(texts: impl Iterator<Item = &'a str>) -> Result<Built> {
    let mut builder = Builder::new();
    for text in texts {
        builder.push(text)?;
    }
    Ok(builder.finish())
}

#[inline(never)]
fn from_option_iter<'a>(items: impl Iterator<Item = Option<&'a str>>) -> Result<(Built, Option<Bits>)> {
    let (mut builder, mut valid) = (Builder::new(), Packer::new());
    for item in items {
        match item {
            Some(text) => builder.push(text)?,
            None => builder.views.push(View(0)),
        }
        valid.push(item.is_some());
    }
    Ok((builder.finish(), told_by(valid.finish())))
}

/// The bytes of a value: shared with its buffer, or copied from its view.
#[inline(never)]
fn bytes_at(built: &Built, row: usize) -> Buffer<u8> {
    let view = built.1.as_slice()[row];
    if view.size() <= MAX_INLINED_SIZE {
        return Buffer::new(view.0.to_le_bytes()[4..4 + view.size()].to_vec());
    }
    let (buffer, start) = ((view.0 >> 64) as u32 as usize, (view.0 >> 96) as usize);
    built.0[buffer].slice(start..start + view.size())
}

struct TryNew {
    built: Built,
    validity: Option<Bits>,
}

impl Operation for TryNew {
    type Made = (Built, Option<Bits>);

    fn run(&mut self) -> Result<(Built, Option<Bits>)> {
        try_new(self.built.clone(), self.validity.clone())
    }

    fn checksum(&self, made: (Built, Option<Bits>)) -> u64 {
        EMPTY.with_built(&made.0).0
    }
}

struct FromIter(Vec<&'static str>);

impl Operation for FromIter {
    type Made = Built;

    fn run(&mut self) -> Result<Built> {
        from_iter(self.0.iter().copied())
    }

    fn checksum(&self, made: Built) -> u64 {
        EMPTY.with_built(&made).0
    }
}

struct FromOptionIter(Vec<Option<&'static str>>);

impl Operation for FromOptionIter {
    type Made = (Built, Option<Bits>);

    fn run(&mut self) -> Result<(Built, Option<Bits>)> {
        from_option_iter(self.0.iter().copied())
    }

    fn checksum(&self, made: (Built, Option<Bits>)) -> u64 {
        EMPTY.with_built(&made.0).0
    }
}

struct BytesAt(Built);

impl Operation for BytesAt {
    type Made = u64;

    fn run(&mut self) -> Result<u64> {
        let rows = 0..self.0.1.len;
        Ok(rows.map(|row| black_box(bytes_at(&self.0, row)).len as u64).sum())
    }

    fn checksum(&self, made: u64) -> u64 {
        made
    }
}

const SHORT: [&str; 4] = ["alder", "birch", "cypress", "dogwood"];

const LONG: [&str; 4] = [
    "an alder beside the water",
    "a birch on the northern hill",
    "a cypress at the old gate",
    "a dogwood along the garden wall",
];

fn repeated(rows: usize, choices: &[&'static str; 4]) -> Vec<&'static str> {
    let mut random = Random(13);
    (0..rows).map(|_| choices[random.number() as usize % 4]).collect()
}

/// Another operation on texts.
pub fn measure_texts(bench: &Bench, name: &str) -> Result<()> {
    let rows = bench.rows;
    match name {
        "try_new" => bench.measure(TryNew { built: text_array(rows)?, validity: None }),
        "try_new_null" => {
            let validity = Some(random_bits(rows, 10, 3));
            bench.measure(TryNew { built: text_array(rows)?, validity })
        }
        "from_iter_short" => bench.measure(FromIter(repeated(rows, &SHORT))),
        "from_iter_long" => bench.measure(FromIter(repeated(rows, &LONG))),
        "from_option_iter" => {
            let texts = repeated(rows, &LONG).into_iter();
            let items = texts.zip(random_bools(rows, 10, 3));
            let items = items.map(|(text, is_present)| is_present.then_some(text)).collect();
            bench.measure(FromOptionIter(items))
        }
        "bytes_at" => bench.measure(BytesAt(text_array(rows)?)),
        _ => Err(Refusal::Usage),
    }
}

/// The moving of a column of which a filter kept three rows of four.
pub fn measure(bench: &Bench) -> Result<()> {
    let (buffers, views) = text_array(bench.rows)?;
    let views = filter_items(views.as_slice(), &random_bits(bench.rows, 4, 8));
    bench.measure(Rebuffer { buffers, views })
}
