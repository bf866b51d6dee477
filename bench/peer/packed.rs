//! Columns by their rows alone: what a filter kept is copied into parts that hold nothing else, and
//! rows are compared.

use super::{
    AT_RANDOM, Bench, Bits, Buffer, Built, Checksum, EMPTY, MAX_BUFFER_LEN, MAX_INLINED_SIZE,
    Operation, Refusal, Result, View, filter_items, list_view, random_bits, random_numbers, text_array,
};

/// Lists by offsets and sizes over numbers.
struct Lists {
    elements: Vec<u32>,
    offsets: Vec<u32>,
    sizes: Vec<u32>,
}

/// Numbers, some of them null.
struct Nullable {
    numbers: Vec<u32>,
    valid: Bits,
}

/// The numbers of each list, copied as a range to the end of those before.
#[inline(never)]
fn pack_lists(lists: &Lists) -> Result<Lists> {
    let total: u64 = lists.sizes.iter().map(|size| *size as u64).sum();
    if total > i32::MAX as u64 {
        return Err(Refusal::Overflow);
    }
    let mut elements = Vec::with_capacity(total as usize);
    let mut offsets = Vec::with_capacity(lists.offsets.len());
    for (start, size) in lists.offsets.iter().zip(&lists.sizes) {
        offsets.push(elements.len() as u32);
        elements.extend_from_slice(&lists.elements[*start as usize..(start + size) as usize]);
    }
    Ok(Lists { elements, offsets, sizes: lists.sizes.clone() })
}

/// The same texts: values that do not fit in their views one after another in new buffers.
#[inline(never)]
fn pack_texts(texts: &Built) -> Result<Built> {
    let (buffers, views) = texts;
    let long = views.as_slice().iter().map(|view| view.size()).filter(|size| *size > MAX_INLINED_SIZE);
    let (mut heap, mut moved) = (Vec::with_capacity(long.sum()), Vec::with_capacity(views.len));
    let (mut ends, mut begin) = (Vec::new(), 0);
    for (row, view) in views.as_slice().iter().enumerate() {
        if view.size() <= MAX_INLINED_SIZE {
            moved.push(*view);
            continue;
        }
        if heap.len() - begin + view.size() > MAX_BUFFER_LEN {
            ends.push(begin..heap.len());
            begin = heap.len();
        }
        let number = u32::try_from(ends.len()).map_err(|_| Refusal::Overflow)?;
        let place = (number as u128) << 64 | ((heap.len() - begin) as u128) << 96;
        moved.push(View(view.0 as u64 as u128 | place));
        let (buffer, range) = view.place(row, buffers)?;
        heap.extend_from_slice(&buffer[range]);
    }
    if begin < heap.len() {
        ends.push(begin..heap.len());
    }
    let heap = Buffer::new(heap);
    Ok((ends.into_iter().map(|range| heap.slice(range)).collect(), Buffer::new(moved)))
}

/// The same numbers, 0 where they are null.
#[inline(never)]
fn pack_nullable(column: &Nullable) -> Nullable {
    let numbers = column.numbers.iter().enumerate();
    let numbers = numbers.map(|(row, number)| if column.valid.value(row) { *number } else { 0 }).collect();
    let words = Buffer::new(column.valid.words.as_slice().to_vec());
    Nullable { numbers, valid: Bits { words, len: column.valid.len } }
}

struct PackLists(Lists);

impl Operation for PackLists {
    type Made = Lists;

    fn run(&mut self) -> Result<Lists> {
        pack_lists(&self.0)
    }

    fn checksum(&self, made: Lists) -> u64 {
        EMPTY.with_lists(&made).0
    }
}

struct PackTexts(Built);

impl Operation for PackTexts {
    type Made = Built;

    fn run(&mut self) -> Result<Built> {
        pack_texts(&self.0)
    }

    fn checksum(&self, made: Built) -> u64 {
        EMPTY.with_built(&made).0
    }
}

/// Records of numbers, of numbers of which some are null, of truth values, texts and lists.
struct Records {
    numbers: Vec<u32>,
    counts: Nullable,
    truths: Bits,
    texts: Built,
    lists: Lists,
}

impl Operation for Records {
    type Made = Records;

    fn run(&mut self) -> Result<Records> {
        let words = Buffer::new(self.truths.words.as_slice().to_vec());
        Ok(Records {
            numbers: self.numbers.clone(),
            counts: pack_nullable(&self.counts),
            truths: Bits { words, len: self.truths.len },
            texts: pack_texts(&self.texts)?,
            lists: pack_lists(&self.lists)?,
        })
    }

    fn checksum(&self, made: Records) -> u64 {
        let sum = EMPTY.with_numbers(&made.numbers).with_numbers(&made.counts.numbers);
        let sum = sum.with_bits(&made.counts.valid).with_bits(&made.truths);
        sum.with_built(&made.texts).with_lists(&made.lists).0
    }
}

impl Checksum {
    fn with_lists(self, lists: &Lists) -> Checksum {
        self.with_numbers(&lists.offsets).with_numbers(&lists.sizes).with_numbers(&lists.elements)
    }
}

/// Two columns, and whether their rows are equal.
struct Equal<T>(T, T, fn(&T, &T) -> Result<bool>);

impl<T> Operation for Equal<T> {
    type Made = bool;

    fn run(&mut self) -> Result<bool> {
        (self.2)(&self.0, &self.1)
    }

    fn checksum(&self, made: bool) -> u64 {
        made as u64
    }
}

#[inline(never)]
fn equal_numbers(first: &Vec<u32>, second: &Vec<u32>) -> Result<bool> {
    Ok(first == second)
}

/// The value of a view, which stands in the view itself or in a buffer.
#[inline]
fn value_of<'a>(view: &'a [u8; 16], row: usize, buffers: &'a [Buffer<u8>]) -> Result<&'a [u8]> {
    let number = View(u128::from_le_bytes(*view));
    if number.size() <= MAX_INLINED_SIZE {
        return Ok(&view[4..4 + number.size()]);
    }
    let (buffer, range) = number.place(row, buffers)?;
    Ok(&buffer[range])
}

#[inline(never)]
fn equal_texts(first: &Built, second: &Built) -> Result<bool> {
    if first.1.len != second.1.len {
        return Ok(false);
    }
    for (row, (one, other)) in first.1.as_slice().iter().zip(second.1.as_slice()).enumerate() {
        let (one, other) = (one.0.to_le_bytes(), other.0.to_le_bytes());
        if value_of(&one, row, &first.0)? != value_of(&other, row, &second.0)? {
            return Ok(false);
        }
    }
    Ok(true)
}

#[inline(never)]
fn equal_lists(first: &Lists, second: &Lists) -> Result<bool> {
    if first.sizes != second.sizes {
        return Ok(false);
    }
    let places = first.offsets.iter().zip(&second.offsets).zip(&first.sizes);
    for ((one, other), size) in places {
        let one = &first.elements[*one as usize..(one + size) as usize];
        if one != &second.elements[*other as usize..(other + size) as usize] {
            return Ok(false);
        }
    }
    Ok(true)
}

fn lists(rows: usize) -> Result<Lists> {
    let lists = list_view(rows, AT_RANDOM)?;
    Ok(Lists {
        elements: lists.elements.numbers().to_vec(),
        offsets: lists.offsets.numbers().to_vec(),
        sizes: lists.sizes.numbers().to_vec(),
    })
}

impl Lists {
    fn half(self, kept: &Bits) -> Lists {
        Lists {
            elements: self.elements,
            offsets: filter_items(&self.offsets, kept),
            sizes: filter_items(&self.sizes, kept),
        }
    }
}

fn half_of_texts(rows: usize, kept: &Bits) -> Result<Built> {
    let (buffers, views) = text_array(rows)?;
    Ok((buffers, Buffer::new(filter_items(views.as_slice(), kept))))
}

fn half_of_bits(bits: &Bits, kept: &Bits) -> Bits {
    let values: Vec<bool> = (0..bits.len).filter(|row| kept.value(*row)).map(|row| bits.value(row)).collect();
    Bits::collect(values.len(), |row| values[row])
}

fn half_of_records(rows: usize, kept: &Bits) -> Result<Records> {
    let numbers = filter_items(&random_numbers(rows, u32::MAX, 6), kept);
    Ok(Records {
        counts: Nullable { numbers: numbers.clone(), valid: half_of_bits(&random_bits(rows, 10, 3), kept) },
        numbers,
        truths: half_of_bits(&random_bits(rows, 2, 7), kept),
        texts: half_of_texts(rows, kept)?,
        lists: lists(rows)?.half(kept),
    })
}

/// The packed form of what a filter kept, half of the rows.
pub fn measure_pack(bench: &Bench, name: &str) -> Result<()> {
    let rows = bench.rows;
    let kept = random_bits(rows, 2, 8);
    match name {
        "lists" => bench.measure(PackLists(lists(rows)?.half(&kept))),
        "texts" => bench.measure(PackTexts(half_of_texts(rows, &kept)?)),
        "records" => bench.measure(half_of_records(rows, &kept)?),
        _ => Err(Refusal::Usage),
    }
}

/// Whether two columns have equal rows.
pub fn measure_equal(bench: &Bench, name: &str) -> Result<()> {
    let rows = bench.rows;
    let numbers = || random_numbers(rows, u32::MAX, 6);
    match name {
        "equal_numbers" => bench.measure(Equal(numbers(), numbers(), equal_numbers)),
        "equal_texts" => bench.measure(Equal(text_array(rows)?, text_array(rows)?, equal_texts)),
        "equal_lists" => bench.measure(Equal(lists(rows)?, lists(rows)?, equal_lists)),
        _ => Err(Refusal::Usage),
    }
}
