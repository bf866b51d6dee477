//! The operations of `vx_bench` in plain Rust, as a good columnar library writes them.
//!
//! The data, the names, the checksums and what is printed are those of `crates/vx_timed` and of
//! `crates/vx_bench`. Buffers are shared by `Arc`; each function tests what it is given, and refuses by
//! an `Err`.

mod leaves;
mod lists;
mod packed;
mod parts;
mod records;
mod steps;
mod texts;
mod trees;
mod validities;

use std::hint::black_box;
use std::ops::Range;
use std::process::ExitCode;
use std::sync::Arc;
use std::time::Instant;

type Result<T> = std::result::Result<T, Refusal>;

#[derive(Debug)]
#[allow(dead_code)]
enum Refusal {
    Usage,
    LengthMismatch,
    HasNulls,
    OutOfBounds(usize),
    Overflow,
    ValueTooLong(usize),
    LengthsNotExact,
    FallingOffsets(usize),
    BadBuffer(usize),
    BadStart(usize),
    BadEnd(usize),
    BadPrefix(usize),
    NotUtf8(usize),
}

// ---- buffers, bits, arrays ----

/// Items that are cut and shared with no copy.
struct Buffer<T> {
    items: Arc<Vec<T>>,
    start: usize,
    len: usize,
}

impl<T> Clone for Buffer<T> {
    fn clone(&self) -> Self {
        Buffer { items: self.items.clone(), start: self.start, len: self.len }
    }
}

impl<T> Buffer<T> {
    fn new(items: Vec<T>) -> Self {
        let len = items.len();
        Buffer { items: Arc::new(items), start: 0, len }
    }

    #[inline]
    fn as_slice(&self) -> &[T] {
        &self.items[self.start..self.start + self.len]
    }

    fn slice(&self, range: Range<usize>) -> Self {
        assert!(range.start <= range.end && range.end <= self.len);
        let len = range.end - range.start;
        Buffer { items: self.items.clone(), start: self.start + range.start, len }
    }
}

/// Truth values, 64 to a word.
#[derive(Clone)]
struct Bits {
    words: Buffer<u64>,
    len: usize,
}

impl Bits {
    /// The values of `at` from 0 up to `len`, packed a word at a time.
    #[inline]
    fn collect(len: usize, at: impl Fn(usize) -> bool) -> Bits {
        let mut words = Vec::with_capacity(len.div_ceil(64));
        for word in 0..len / 64 {
            let mut packed = 0u64;
            for bit in 0..64 {
                packed |= (at(word * 64 + bit) as u64) << bit;
            }
            words.push(packed);
        }
        if len % 64 != 0 {
            let mut packed = 0u64;
            for bit in 0..len % 64 {
                packed |= (at(len / 64 * 64 + bit) as u64) << bit;
            }
            words.push(packed);
        }
        Bits { words: Buffer::new(words), len }
    }

    #[inline]
    fn value(&self, i: usize) -> bool {
        (self.words.as_slice()[i / 64] >> (i % 64)) & 1 == 1
    }

    fn true_count(&self) -> usize {
        self.words.as_slice().iter().map(|word| word.count_ones() as usize).sum()
    }

    fn and(&self, other: &Bits) -> Result<Bits> {
        if self.len != other.len {
            return Err(Refusal::LengthMismatch);
        }
        let pairs = self.words.as_slice().iter().zip(other.words.as_slice());
        let words = pairs.map(|(left, right)| left & right).collect();
        Ok(Bits { words: Buffer::new(words), len: self.len })
    }
}

impl PartialEq for Bits {
    fn eq(&self, other: &Bits) -> bool {
        self.len == other.len && self.words.as_slice() == other.words.as_slice()
    }
}

/// Makes the bits of a range true.
fn fill(words: &mut [u64], range: Range<usize>) {
    let (first, last) = (range.start / 64, range.end / 64);
    let from = !0u64 << (range.start % 64);
    let to = (1u64 << (range.end % 64)) - 1;
    if first == last {
        words[first] |= from & to;
        return;
    }
    words[first] |= from;
    words[first + 1..last].fill(!0);
    if to != 0 {
        words[last] |= to;
    }
}

#[derive(Clone)]
#[allow(dead_code)]
enum DType {
    Bool,
    Int,
    Text,
    List(Arc<DType>),
    FixedList(Arc<DType>, u32),
    Record(Arc<[(Arc<str>, DType)]>),
}

#[derive(Clone)]
#[allow(dead_code)]
struct BoolArray {
    dtype: DType,
    bits: Bits,
    validity: Option<Bits>,
}

#[derive(Clone)]
#[allow(dead_code)]
struct PrimitiveArray {
    dtype: DType,
    numbers: Buffer<u32>,
    validity: Option<Bits>,
}

#[allow(dead_code)]
struct ListViewArray {
    dtype: DType,
    elements: Arc<PrimitiveArray>,
    offsets: Arc<PrimitiveArray>,
    sizes: Arc<PrimitiveArray>,
    validity: Option<Bits>,
    zero_copy_to_list: bool,
}

fn number_array(numbers: Vec<u32>) -> Arc<PrimitiveArray> {
    shared_numbers(Buffer::new(numbers))
}

fn shared_numbers(numbers: Buffer<u32>) -> Arc<PrimitiveArray> {
    Arc::new(PrimitiveArray { dtype: DType::Int, numbers, validity: None })
}

impl PrimitiveArray {
    #[inline]
    fn numbers(&self) -> &[u32] {
        self.numbers.as_slice()
    }

    fn len(&self) -> usize {
        self.numbers.len
    }
}

impl ListViewArray {
    #[inline(never)]
    fn try_new(
        elements: Arc<PrimitiveArray>,
        offsets: Arc<PrimitiveArray>,
        sizes: Arc<PrimitiveArray>,
        validity: Option<Bits>,
    ) -> Result<Arc<ListViewArray>> {
        if offsets.len() != sizes.len() {
            return Err(Refusal::LengthMismatch);
        }
        let count = elements.len() as u64;
        for (row, (offset, size)) in offsets.numbers().iter().zip(sizes.numbers()).enumerate() {
            if *offset as u64 + *size as u64 > count {
                return Err(Refusal::OutOfBounds(row));
            }
        }
        let dtype = DType::List(Arc::new(elements.dtype.clone()));
        let zero_copy_to_list = false;
        Ok(Arc::new(ListViewArray { dtype, elements, offsets, sizes, validity, zero_copy_to_list }))
    }

    #[inline(never)]
    fn is_consecutive(&self) -> bool {
        let (offsets, sizes) = (self.offsets.numbers(), self.sizes.numbers());
        let ends = offsets.iter().zip(sizes).map(|(offset, size)| *offset as u64 + *size as u64);
        offsets.iter().skip(1).zip(ends).all(|(start, end)| *start as u64 == end)
    }

    /// Each list's elements, copied as a range to the end of those before.
    #[inline(never)]
    fn rebuild(&self) -> Result<Arc<ListViewArray>> {
        let (offsets, sizes) = (self.offsets.numbers(), self.sizes.numbers());
        let elements = self.elements.numbers();
        let is_valid = |row: usize| self.validity.as_ref().is_none_or(|bits| bits.value(row));
        let total: u64 = match &self.validity {
            None => sizes.iter().map(|size| *size as u64).sum(),
            Some(_) => (0..sizes.len()).map(|row| is_valid(row) as u64 * sizes[row] as u64).sum(),
        };
        if total > u32::MAX as u64 {
            return Err(Refusal::Overflow);
        }
        let mut rebuilt = Vec::with_capacity(total as usize);
        let mut new_offsets = Vec::with_capacity(offsets.len());
        let mut new_sizes = Vec::with_capacity(offsets.len());
        for row in 0..offsets.len() {
            new_offsets.push(rebuilt.len() as u32);
            if is_valid(row) {
                let start = offsets[row] as usize;
                rebuilt.extend_from_slice(&elements[start..start + sizes[row] as usize]);
                new_sizes.push(sizes[row]);
            } else {
                new_sizes.push(0);
            }
        }
        Ok(Arc::new(ListViewArray {
            dtype: self.dtype.clone(),
            elements: number_array(rebuilt),
            offsets: number_array(new_offsets),
            sizes: number_array(new_sizes),
            validity: self.validity.clone(),
            zero_copy_to_list: true,
        }))
    }

    fn take(&self, indices: &[u32]) -> Arc<ListViewArray> {
        Arc::new(ListViewArray {
            dtype: self.dtype.clone(),
            elements: self.elements.clone(),
            offsets: number_array(take_numbers(self.offsets.numbers(), indices)),
            sizes: number_array(take_numbers(self.sizes.numbers(), indices)),
            validity: self.validity.as_ref().map(|bits| take_bits(bits, indices)),
            zero_copy_to_list: false,
        })
    }

    #[inline(never)]
    fn slice(&self, range: Range<usize>) -> Arc<ListViewArray> {
        let rows = range.clone();
        let validity = self.validity.as_ref();
        Arc::new(ListViewArray {
            dtype: self.dtype.clone(),
            elements: self.elements.clone(),
            offsets: shared_numbers(self.offsets.numbers.slice(range.clone())),
            sizes: shared_numbers(self.sizes.numbers.slice(range)),
            validity: validity.map(|bits| Bits::collect(rows.len(), |i| bits.value(rows.start + i))),
            zero_copy_to_list: self.zero_copy_to_list,
        })
    }
}

#[inline(never)]
fn take_numbers(numbers: &[u32], indices: &[u32]) -> Vec<u32> {
    indices.iter().map(|index| numbers[*index as usize]).collect()
}

#[inline(never)]
fn take_bits(bits: &Bits, indices: &[u32]) -> Bits {
    Bits::collect(indices.len(), |i| bits.value(indices[i] as usize))
}

#[inline(never)]
fn take_views(views: &[View], indices: &[u32]) -> Vec<View> {
    indices.iter().map(|index| views[*index as usize]).collect()
}

#[inline(never)]
fn take_fixed_lists(elements: &[u32], indices: &[u32]) -> Vec<u32> {
    let mut taken = Vec::with_capacity(indices.len() * 4);
    for index in indices {
        let start = *index as usize * 4;
        taken.extend_from_slice(&elements[start..start + 4]);
    }
    taken
}

/// Refuses the first index that is no row's.
#[inline(never)]
fn check_indices(indices: &[u32], rows: usize) -> Result<()> {
    match indices.iter().find(|index| **index as usize >= rows) {
        Some(index) => Err(Refusal::OutOfBounds(*index as usize)),
        None => Ok(()),
    }
}

#[inline(never)]
fn filter_items<T: Copy>(items: &[T], mask: &Bits) -> Vec<T> {
    let mut kept = Vec::with_capacity(mask.true_count());
    for (i, item) in items.iter().enumerate() {
        if mask.value(i) {
            kept.push(*item);
        }
    }
    kept
}

/// The items of a mask whose true bits are counted, a word of the mask at a time.
#[inline(never)]
fn filter_by_words<T: Copy>(items: &[T], mask: &Bits, count: usize) -> Vec<T> {
    let mut kept = Vec::with_capacity(count);
    for (items, word) in items.chunks(64).zip(mask.words.as_slice()) {
        if *word == !0 {
            kept.extend_from_slice(items);
            continue;
        }
        let mut left = *word;
        while left != 0 {
            kept.push(items[left.trailing_zeros() as usize]);
            left &= left - 1;
        }
    }
    kept
}

#[inline(never)]
fn filter_fixed_lists(elements: &[u32], mask: &Bits) -> Vec<u32> {
    let mut kept = Vec::with_capacity(mask.true_count() * 4);
    for i in 0..mask.len {
        if mask.value(i) {
            kept.extend_from_slice(&elements[4 * i..4 * i + 4]);
        }
    }
    kept
}

#[inline(never)]
fn filter_bits(bits: &Bits, mask: &Bits) -> Bits {
    let count = mask.true_count();
    let mut words = Vec::with_capacity(count.div_ceil(64));
    let (mut packed, mut filled) = (0u64, 0);
    for i in 0..bits.len {
        if mask.value(i) {
            packed |= (bits.value(i) as u64) << filled;
            filled += 1;
            if filled == 64 {
                words.push(packed);
                (packed, filled) = (0, 0);
            }
        }
    }
    if filled > 0 {
        words.push(packed);
    }
    Bits { words: Buffer::new(words), len: count }
}

/// The numbers as those of the least width: here u16, where all fit.
#[inline(never)]
fn narrow(numbers: &[u32]) -> Vec<u16> {
    let greatest = numbers.iter().copied().max().unwrap_or(0);
    assert!(greatest > 255 && greatest < 65536);
    numbers.iter().map(|number| *number as u16).collect()
}

#[inline(never)]
fn referenced_values(codes: &[u32], count: usize) -> Bits {
    let mut words = vec![0u64; count.div_ceil(64)];
    for code in codes {
        words[*code as usize / 64] |= 1 << (code % 64);
    }
    Bits { words: Buffer::new(words), len: count }
}

/// Numbers of a type that is known at run time.
#[allow(dead_code)]
enum Numbers<'a> {
    U8(&'a [u8]),
    U16(&'a [u16]),
    U32(&'a [u32]),
    U64(&'a [u64]),
    I8(&'a [i8]),
    I16(&'a [i16]),
    I32(&'a [i32]),
    I64(&'a [i64]),
}

impl Numbers<'_> {
    /// The number of a row, as a reader of any integer type asks for it.
    #[inline(never)]
    fn int_at(&self, row: usize) -> Option<i128> {
        match self {
            Numbers::U8(numbers) => numbers.get(row).map(|number| *number as i128),
            Numbers::U16(numbers) => numbers.get(row).map(|number| *number as i128),
            Numbers::U32(numbers) => numbers.get(row).map(|number| *number as i128),
            Numbers::U64(numbers) => numbers.get(row).map(|number| *number as i128),
            Numbers::I8(numbers) => numbers.get(row).map(|number| *number as i128),
            Numbers::I16(numbers) => numbers.get(row).map(|number| *number as i128),
            Numbers::I32(numbers) => numbers.get(row).map(|number| *number as i128),
            Numbers::I64(numbers) => numbers.get(row).map(|number| *number as i128),
        }
    }
}

// ---- views ----

const MAX_BUFFER_LEN: usize = u32::MAX as usize;
const MAX_INLINED_SIZE: usize = 12;

/// The bits of an inlined view that no ASCII text sets.
const INLINED_HIGH_BITS: u128 = 0x80808080_80808080_80808080_00000000;

/// A size, and the value, or its first four bytes, its buffer and its place there.
#[derive(Clone, Copy)]
struct View(u128);

impl View {
    #[inline]
    fn inlined<const N: usize>(value: &[u8]) -> View {
        let mut bytes = [0u8; 16];
        bytes[0] = N as u8;
        bytes[4..4 + N].copy_from_slice(&value[..N]);
        View(u128::from_le_bytes(bytes))
    }

    fn reference(value: &[u8], buffer: u32, offset: u32) -> View {
        let prefix = u32::from_le_bytes([value[0], value[1], value[2], value[3]]) as u128;
        let place = (buffer as u128) << 64 | (offset as u128) << 96;
        View(value.len() as u128 | prefix << 32 | place)
    }

    /// A case for each length, so that each copy has a length that is known.
    #[inline(never)]
    fn new(value: &[u8], buffer: u32, offset: u32) -> View {
        match value.len() {
            0 => View::inlined::<0>(value),
            1 => View::inlined::<1>(value),
            2 => View::inlined::<2>(value),
            3 => View::inlined::<3>(value),
            4 => View::inlined::<4>(value),
            5 => View::inlined::<5>(value),
            6 => View::inlined::<6>(value),
            7 => View::inlined::<7>(value),
            8 => View::inlined::<8>(value),
            9 => View::inlined::<9>(value),
            10 => View::inlined::<10>(value),
            11 => View::inlined::<11>(value),
            12 => View::inlined::<12>(value),
            _ => View::reference(value, buffer, offset),
        }
    }

    fn size(self) -> usize {
        self.0 as u32 as usize
    }

    /// Where the value of a view that refers to it stands: its buffer and the range there.
    #[inline]
    fn place(self, row: usize, buffers: &[Buffer<u8>]) -> Result<(&[u8], Range<usize>)> {
        let (buffer, start) = ((self.0 >> 64) as u32 as usize, (self.0 >> 96) as usize);
        let buffer = buffers.get(buffer).ok_or(Refusal::BadBuffer(row))?.as_slice();
        let end = start + self.size();
        if buffer.len() <= start {
            return Err(Refusal::BadStart(row));
        }
        if buffer.len() < end {
            return Err(Refusal::BadEnd(row));
        }
        if buffer[start..start + 4] != ((self.0 >> 32) as u32).to_le_bytes() {
            return Err(Refusal::BadPrefix(row));
        }
        Ok((buffer, start..end))
    }

    fn is_inlined_text(self) -> bool {
        let value = &self.0.to_le_bytes()[4..4 + self.size()];
        self.0 & INLINED_HIGH_BITS == 0 || is_utf8(value)
    }
}

type Built = (Vec<Buffer<u8>>, Buffer<View>);

/// The cut of a heap into buffers of at most `limit` bytes, while values come.
struct Cut<'a> {
    heap: &'a Buffer<u8>,
    limit: usize,
    buffers: Vec<Buffer<u8>>,
    views: Vec<View>,
    begin: usize,
    at: usize,
}

impl<'a> Cut<'a> {
    fn new(heap: &'a Buffer<u8>, limit: usize, start: usize, rows: usize) -> Self {
        let views = Vec::with_capacity(rows);
        Cut { heap, limit, buffers: Vec::new(), views, begin: start, at: start }
    }

    #[inline]
    fn push(&mut self, row: usize, length: usize) -> Result<()> {
        if length > self.limit {
            return Err(Refusal::ValueTooLong(row));
        }
        if self.at - self.begin + length > self.limit {
            self.buffers.push(self.heap.slice(self.begin..self.at));
            self.begin = self.at;
        }
        let buffer = u32::try_from(self.buffers.len()).map_err(|_| Refusal::Overflow)?;
        let value = self.heap.as_slice()[self.at..].get(..length);
        let value = value.ok_or(Refusal::LengthsNotExact)?;
        self.views.push(View::new(value, buffer, (self.at - self.begin) as u32));
        self.at += length;
        Ok(())
    }

    fn end(mut self) -> Built {
        if self.begin < self.at {
            self.buffers.push(self.heap.slice(self.begin..self.at));
        }
        (self.buffers, Buffer::new(self.views))
    }
}

#[inline(never)]
fn build_views(limit: usize, heap: &Buffer<u8>, lengths: &[u32]) -> Result<Built> {
    let mut cut = Cut::new(heap, limit, 0, lengths.len());
    for (row, length) in lengths.iter().enumerate() {
        cut.push(row, *length as usize)?;
    }
    if cut.at != heap.len {
        return Err(Refusal::LengthsNotExact);
    }
    Ok(cut.end())
}

#[inline(never)]
fn build_views_from_offsets(limit: usize, heap: &Buffer<u8>, offsets: &[u32]) -> Result<Built> {
    let (Some(first), Some(last)) = (offsets.first(), offsets.last()) else {
        return Err(Refusal::Usage);
    };
    if *last as usize > heap.len {
        return Err(Refusal::OutOfBounds(*last as usize));
    }
    let mut cut = Cut::new(heap, limit, *first as usize, offsets.len() - 1);
    for (row, ends) in offsets.windows(2).enumerate() {
        let length = ends[1].checked_sub(ends[0]).ok_or(Refusal::FallingOffsets(row))?;
        cut.push(row, length as usize)?;
    }
    Ok(cut.end())
}

/// UTF-8 by `simdutf8` where the build has it, else by std.
fn is_utf8(bytes: &[u8]) -> bool {
    #[cfg(simdutf8)]
    return simdutf8::basic::from_utf8(bytes).is_ok();
    #[cfg(not(simdutf8))]
    std::str::from_utf8(bytes).is_ok()
}

fn is_boundary(bytes: &[u8], at: usize) -> bool {
    at == bytes.len() || (bytes[at] as i8) >= -0x40
}

/// Each view: `is_text` judges a value that lies in a buffer, which is asked once it is known to lie there.
#[inline(always)]
fn check_views(
    views: &[View],
    buffers: &[Buffer<u8>],
    is_text: impl Fn(&[u8], Range<usize>) -> bool,
) -> Result<()> {
    for (row, view) in views.iter().enumerate() {
        let good = if view.size() <= MAX_INLINED_SIZE {
            view.is_inlined_text()
        } else {
            let (buffer, range) = view.place(row, buffers)?;
            is_text(buffer, range)
        };
        if !good {
            return Err(Refusal::NotUtf8(row));
        }
    }
    Ok(())
}

#[inline(never)]
fn check_in_ascii(views: &[View], buffers: &[Buffer<u8>]) -> Result<()> {
    check_views(views, buffers, |_, _| true)
}

#[inline(never)]
fn check_in_text(views: &[View], buffers: &[Buffer<u8>]) -> Result<()> {
    check_views(views, buffers, |buffer, range| {
        is_boundary(buffer, range.start) && is_boundary(buffer, range.end)
    })
}

/// Each value that lies in a buffer alone, by the standard library.
#[inline(never)]
fn check_each_by_std(views: &[View], buffers: &[Buffer<u8>]) -> Result<()> {
    check_views(views, buffers, |buffer, range| std::str::from_utf8(&buffer[range]).is_ok())
}

#[inline(never)]
fn check_each(views: &[View], buffers: &[Buffer<u8>]) -> Result<()> {
    check_views(views, buffers, |buffer, range| {
        let value = &buffer[range];
        value.is_ascii() || is_utf8(value)
    })
}

/// Whole buffers first: in one of ASCII each value is text, in one of text each between boundaries.
/// Else, and where std alone reads buffers more slowly than values, each value alone.
fn check_text(views: &[View], buffers: &[Buffer<u8>]) -> Result<()> {
    if buffers.iter().all(|buffer| buffer.as_slice().is_ascii()) {
        check_in_ascii(views, buffers)
    } else if cfg!(simdutf8) && buffers.iter().all(|buffer| is_utf8(buffer.as_slice())) {
        check_in_text(views, buffers)
    } else {
        check_each(views, buffers)
    }
}

#[inline(never)]
fn check_bytes(views: &[View], buffers: &[Buffer<u8>]) -> Result<()> {
    for (row, view) in views.iter().enumerate() {
        if view.size() > MAX_INLINED_SIZE {
            view.place(row, buffers)?;
        }
    }
    Ok(())
}

// ---- checksums ----

#[derive(Clone, Copy)]
struct Checksum(u64);

impl Checksum {
    fn with_word(self, word: u64) -> Checksum {
        Checksum((self.0.rotate_left(5) ^ word).wrapping_mul(0x517cc1b727220a95))
    }

    fn with_words(self, words: impl Iterator<Item = u64>) -> Checksum {
        words.fold(self, Checksum::with_word)
    }

    /// As the bytes of the numbers, eight at a time and then one at a time.
    fn with_numbers(self, numbers: &[u32]) -> Checksum {
        let (pairs, rest) = numbers.as_chunks::<2>();
        let sum = self.with_words(pairs.iter().map(|pair| pair[0] as u64 | (pair[1] as u64) << 32));
        let bytes = rest.iter().flat_map(|number| number.to_le_bytes());
        sum.with_words(bytes.map(|byte| byte as u64))
    }

    fn with_bytes(self, bytes: &[u8]) -> Checksum {
        let (words, rest) = bytes.as_chunks::<8>();
        let sum = self.with_words(words.iter().map(|word| u64::from_le_bytes(*word)));
        sum.with_words(rest.iter().map(|byte| *byte as u64))
    }

    fn with_bits(self, bits: &Bits) -> Checksum {
        self.with_words((0..bits.len).map(|i| bits.value(i) as u64))
    }

    fn with_built(self, made: &Built) -> Checksum {
        let words = made.1.as_slice().iter().flat_map(|view| [view.0 as u64, (view.0 >> 64) as u64]);
        let sum = self.with_words(words);
        made.0.iter().fold(sum, |sum, buffer| sum.with_bytes(buffer.as_slice()))
    }

    fn with_views(self, views: &[View]) -> Checksum {
        self.with_words(views.iter().flat_map(|view| [view.0 as u64, (view.0 >> 64) as u64]))
    }

    fn with_list_view(self, lists: &ListViewArray) -> Checksum {
        self.with_numbers(lists.offsets.numbers())
            .with_numbers(lists.sizes.numbers())
            .with_numbers(lists.elements.numbers())
    }
}

const EMPTY: Checksum = Checksum(0);

// ---- data ----

struct Random(u64);

impl Random {
    fn number(&mut self) -> u32 {
        self.0 = self.0.wrapping_mul(6364136223846793005).wrapping_add(1442695040888963407);
        (self.0 >> 33) as u32
    }
}

fn random_numbers(count: usize, limit: u32, seed: u64) -> Vec<u32> {
    let mut random = Random(seed);
    (0..count).map(|_| random.number() % limit.max(1)).collect()
}

fn random_bools(count: usize, limit: u32, seed: u64) -> Vec<bool> {
    random_numbers(count, limit, seed).iter().map(|number| *number != 0).collect()
}

fn random_bits(count: usize, limit: u32, seed: u64) -> Bits {
    let bools = random_bools(count, limit, seed);
    Bits::collect(count, |i| bools[i])
}

#[derive(Clone, Copy)]
struct ListShape {
    size: u32,
    in_order: bool,
    some_null: bool,
}

const IN_ORDER: ListShape = ListShape { size: 4, in_order: true, some_null: false };
const AT_RANDOM: ListShape = ListShape { size: 4, in_order: false, some_null: false };

fn list_view(scale_rows: usize, shape: ListShape) -> Result<Arc<ListViewArray>> {
    let count = 4 * scale_rows;
    let rows = count / shape.size as usize;
    let offsets = if shape.in_order {
        (0..rows as u32).map(|row| row * shape.size).collect()
    } else {
        random_numbers(rows, count as u32 - shape.size, 2)
    };
    let validity = shape.some_null.then(|| random_bits(rows, 10, 3));
    let elements = number_array(random_numbers(count, u32::MAX, 1));
    let sizes = number_array(vec![shape.size; rows]);
    ListViewArray::try_new(elements, number_array(offsets), sizes, validity)
}

/// Which texts there are: whether half of the pairs of bytes are one letter of Latin-1, and how many
/// bytes one text in 128 has; the others have 8 or 24.
#[derive(Clone, Copy)]
struct Texts {
    mixed: bool,
    longest: u32,
}

const ASCII: Texts = Texts { mixed: false, longest: 24 };
const MIXED: Texts = Texts { mixed: true, longest: 24 };
const LONG_ASCII: Texts = Texts { mixed: false, longest: 2000 };
const LONG_MIXED: Texts = Texts { mixed: true, longest: 2000 };

impl Texts {
    fn length(self, number: u32) -> u32 {
        if number & 0x7F00 == 0 && self.longest > 24 {
            self.longest
        } else if number & 0x80 == 0 {
            8
        } else {
            24
        }
    }
}

fn text_heap(rows: usize, texts: Texts) -> (Buffer<u8>, Vec<u32>) {
    let mut random = Random(4);
    let (mut bytes, mut lengths) = (Vec::new(), Vec::with_capacity(rows));
    for _ in 0..rows {
        let length = texts.length(random.number());
        lengths.push(length);
        for _ in 0..length / 2 {
            let number = random.number();
            if texts.mixed && number & 0x1000 == 0 {
                bytes.extend([0xC3, 0x80 + (number % 64) as u8]);
            } else {
                bytes.extend([b'a' + (number % 26) as u8, b'a' + ((number >> 17) % 26) as u8]);
            }
        }
    }
    (Buffer::new(bytes), lengths)
}

// ---- operations ----

trait Operation {
    type Made;

    /// The operation: this alone is timed.
    fn run(&mut self) -> Result<Self::Made>;

    fn checksum(&self, made: Self::Made) -> u64;
}

/// How often an operation runs on how many rows; with no number of runs once, and no time is printed.
struct Bench {
    rows: usize,
    runs: Option<usize>,
}

/// An operation that is run some times in one measurement, each result but the last let go at once.
struct Repeated<O> {
    operation: O,
    times: usize,
}

impl<O: Operation> Operation for Repeated<O> {
    type Made = O::Made;

    fn run(&mut self) -> Result<O::Made> {
        let mut made = self.operation.run()?;
        for _ in 1..self.times {
            made = black_box(self.operation.run()?);
        }
        Ok(made)
    }

    fn checksum(&self, made: O::Made) -> u64 {
        self.operation.checksum(made)
    }
}

impl Bench {
    /// Measures an operation that takes no time by the row: once for ten rows.
    fn measure_often<O: Operation>(&self, operation: O) -> Result<()> {
        self.measure(Repeated { operation, times: self.rows / 10 })
    }

    fn measure<O: Operation>(&self, mut operation: O) -> Result<()> {
        for _ in 0..self.runs.unwrap_or(1) {
            let start = Instant::now();
            let made = black_box(black_box(&mut operation).run()?);
            let nanos = start.elapsed().as_nanos();
            let checksum = operation.checksum(made);
            match self.runs {
                Some(_) => println!("{nanos} {checksum}"),
                None => println!("{checksum}"),
            }
        }
        Ok(())
    }
}

struct Rebuild(Arc<ListViewArray>);

impl Operation for Rebuild {
    type Made = Arc<ListViewArray>;

    fn run(&mut self) -> Result<Arc<ListViewArray>> {
        self.0.rebuild()
    }

    fn checksum(&self, made: Arc<ListViewArray>) -> u64 {
        EMPTY.with_list_view(&made).0
    }
}

struct TakeNumbers {
    array: Arc<PrimitiveArray>,
    indices: Vec<u32>,
}

impl Operation for TakeNumbers {
    type Made = Arc<PrimitiveArray>;

    fn run(&mut self) -> Result<Arc<PrimitiveArray>> {
        Ok(number_array(take_numbers(self.array.numbers(), &self.indices)))
    }

    fn checksum(&self, made: Arc<PrimitiveArray>) -> u64 {
        EMPTY.with_numbers(made.numbers()).0
    }
}

struct TakeBools {
    array: Arc<BoolArray>,
    indices: Vec<u32>,
}

impl Operation for TakeBools {
    type Made = Arc<BoolArray>;

    fn run(&mut self) -> Result<Arc<BoolArray>> {
        let bits = take_bits(&self.array.bits, &self.indices);
        Ok(Arc::new(BoolArray { dtype: DType::Bool, bits, validity: None }))
    }

    fn checksum(&self, made: Arc<BoolArray>) -> u64 {
        EMPTY.with_bits(&made.bits).0
    }
}

struct TakeListView {
    array: Arc<ListViewArray>,
    indices: Vec<u32>,
}

impl Operation for TakeListView {
    type Made = Arc<ListViewArray>;

    fn run(&mut self) -> Result<Arc<ListViewArray>> {
        Ok(self.array.take(&self.indices))
    }

    fn checksum(&self, made: Arc<ListViewArray>) -> u64 {
        EMPTY.with_list_view(&made).0
    }
}

/// Rows of any layout, of which some are picked or kept.
enum Rows {
    Numbers(Vec<u32>),
    Bools(Bits),
    Lists(Arc<ListViewArray>),
    Views(Vec<View>),
    FixedLists(Vec<u32>),
    Records(Vec<u32>, Bits),
    Dictionary(Vec<u32>, Arc<Vec<u32>>),
    Constant(u32, usize),
}

impl Rows {
    fn checksum(&self) -> u64 {
        match self {
            Rows::Numbers(numbers) | Rows::FixedLists(numbers) => EMPTY.with_numbers(numbers).0,
            Rows::Bools(bits) => EMPTY.with_bits(bits).0,
            Rows::Lists(lists) => EMPTY.with_list_view(lists).0,
            Rows::Views(views) => EMPTY.with_views(views).0,
            Rows::Records(numbers, bits) => EMPTY.with_numbers(numbers).with_bits(bits).0,
            Rows::Dictionary(codes, values) => EMPTY.with_numbers(codes).with_numbers(values).0,
            Rows::Constant(number, rows) => {
                EMPTY.with_word(*number as u64).with_word(*rows as u64).0
            }
        }
    }
}

struct TakeRows {
    rows: Rows,
    indices: Vec<u32>,
}

impl Operation for TakeRows {
    type Made = Rows;

    fn run(&mut self) -> Result<Rows> {
        let indices = &self.indices;
        Ok(match &self.rows {
            Rows::Numbers(numbers) => Rows::Numbers(take_numbers(numbers, indices)),
            Rows::Bools(bits) => Rows::Bools(take_bits(bits, indices)),
            Rows::Lists(lists) => Rows::Lists(lists.take(indices)),
            Rows::Views(views) => Rows::Views(take_views(views, indices)),
            Rows::FixedLists(elements) => Rows::FixedLists(take_fixed_lists(elements, indices)),
            Rows::Records(numbers, bits) => {
                Rows::Records(take_numbers(numbers, indices), take_bits(bits, indices))
            }
            Rows::Dictionary(codes, values) => {
                Rows::Dictionary(take_numbers(codes, indices), values.clone())
            }
            Rows::Constant(number, rows) => {
                check_indices(indices, *rows)?;
                Rows::Constant(*number, indices.len())
            }
        })
    }

    fn checksum(&self, made: Rows) -> u64 {
        made.checksum()
    }
}

struct FilterRows {
    rows: Rows,
    mask: Bits,
}

impl Operation for FilterRows {
    type Made = Rows;

    fn run(&mut self) -> Result<Rows> {
        let mask = &self.mask;
        Ok(match &self.rows {
            Rows::Numbers(numbers) => Rows::Numbers(filter_items(numbers, mask)),
            Rows::Bools(bits) => Rows::Bools(filter_bits(bits, mask)),
            Rows::Lists(lists) => Rows::Lists(Arc::new(ListViewArray {
                dtype: lists.dtype.clone(),
                elements: lists.elements.clone(),
                offsets: number_array(filter_items(lists.offsets.numbers(), mask)),
                sizes: number_array(filter_items(lists.sizes.numbers(), mask)),
                validity: None,
                zero_copy_to_list: false,
            })),
            Rows::Views(views) => Rows::Views(filter_items(views, mask)),
            Rows::FixedLists(elements) => Rows::FixedLists(filter_fixed_lists(elements, mask)),
            Rows::Records(numbers, bits) => {
                Rows::Records(filter_items(numbers, mask), filter_bits(bits, mask))
            }
            Rows::Dictionary(codes, values) => {
                Rows::Dictionary(filter_items(codes, mask), values.clone())
            }
            Rows::Constant(number, rows) => {
                if mask.len != *rows {
                    return Err(Refusal::LengthMismatch);
                }
                Rows::Constant(*number, mask.true_count())
            }
        })
    }

    fn checksum(&self, made: Rows) -> u64 {
        made.checksum()
    }
}

struct Narrow(Vec<u32>);

impl Operation for Narrow {
    type Made = Vec<u16>;

    fn run(&mut self) -> Result<Vec<u16>> {
        Ok(narrow(&self.0))
    }

    fn checksum(&self, made: Vec<u16>) -> u64 {
        let bytes: Vec<u8> = made.iter().flat_map(|number| number.to_le_bytes()).collect();
        EMPTY.with_bytes(&bytes).0
    }
}

/// A mask of bits, shared, with how many are true, and the numbers that it keeps.
struct Keep {
    numbers: Vec<u32>,
    bits: Bits,
}

impl Operation for Keep {
    type Made = Arc<PrimitiveArray>;

    fn run(&mut self) -> Result<Arc<PrimitiveArray>> {
        let mask = self.bits.clone();
        let count = mask.true_count();
        Ok(number_array(filter_by_words(&self.numbers, &mask, count)))
    }

    fn checksum(&self, made: Arc<PrimitiveArray>) -> u64 {
        EMPTY.with_numbers(made.numbers()).0
    }
}

struct ReferencedValues(Vec<u32>);

impl Operation for ReferencedValues {
    type Made = Bits;

    fn run(&mut self) -> Result<Bits> {
        Ok(referenced_values(&self.0, 1000))
    }

    fn checksum(&self, made: Bits) -> u64 {
        EMPTY.with_bits(&made).0
    }
}

struct SliceListView {
    array: Arc<ListViewArray>,
    count: usize,
}

impl Operation for SliceListView {
    type Made = u64;

    fn run(&mut self) -> Result<u64> {
        let mut rows = 0u64;
        for i in 0..self.count {
            let start = i % 500;
            let slice = black_box(self.array.slice(start..start + 400));
            rows += slice.offsets.len() as u64;
        }
        Ok(rows)
    }

    fn checksum(&self, made: u64) -> u64 {
        made
    }
}

struct ListViewTryNew(Arc<ListViewArray>);

impl Operation for ListViewTryNew {
    type Made = Arc<ListViewArray>;

    fn run(&mut self) -> Result<Arc<ListViewArray>> {
        let lists = &self.0;
        let (elements, offsets) = (lists.elements.clone(), lists.offsets.clone());
        ListViewArray::try_new(elements, offsets, lists.sizes.clone(), None)
    }

    fn checksum(&self, made: Arc<ListViewArray>) -> u64 {
        EMPTY.with_list_view(&made).0
    }
}

struct IsConsecutive(Arc<ListViewArray>);

impl Operation for IsConsecutive {
    type Made = bool;

    fn run(&mut self) -> Result<bool> {
        Ok(self.0.is_consecutive())
    }

    fn checksum(&self, made: bool) -> u64 {
        made as u64
    }
}

struct BuildViews {
    heap: Buffer<u8>,
    lengths: Vec<u32>,
}

impl Operation for BuildViews {
    type Made = Built;

    fn run(&mut self) -> Result<Built> {
        build_views(MAX_BUFFER_LEN, &self.heap, &self.lengths)
    }

    fn checksum(&self, made: Built) -> u64 {
        EMPTY.with_built(&made).0
    }
}

struct BuildViewsFromOffsets {
    heap: Buffer<u8>,
    offsets: Vec<u32>,
}

impl Operation for BuildViewsFromOffsets {
    type Made = Built;

    fn run(&mut self) -> Result<Built> {
        build_views_from_offsets(MAX_BUFFER_LEN, &self.heap, &self.offsets)
    }

    fn checksum(&self, made: Built) -> u64 {
        EMPTY.with_built(&made).0
    }
}

struct CheckViews {
    made: Built,
    check: fn(&[View], &[Buffer<u8>]) -> Result<()>,
}

impl Operation for CheckViews {
    type Made = ();

    fn run(&mut self) -> Result<()> {
        (self.check)(self.made.1.as_slice(), &self.made.0)
    }

    fn checksum(&self, _made: ()) -> u64 {
        self.made.1.len as u64
    }
}

struct FromBools(Vec<bool>);

impl Operation for FromBools {
    type Made = Bits;

    fn run(&mut self) -> Result<Bits> {
        let bools = self.0.as_slice();
        Ok(Bits::collect(bools.len(), |i| bools[i]))
    }

    fn checksum(&self, made: Bits) -> u64 {
        EMPTY.with_bits(&made).0
    }
}

struct TrueCount(Bits);

impl Operation for TrueCount {
    type Made = usize;

    fn run(&mut self) -> Result<usize> {
        Ok(self.0.true_count())
    }

    fn checksum(&self, made: usize) -> u64 {
        made as u64
    }
}

struct And(Bits, Bits);

impl Operation for And {
    type Made = Bits;

    fn run(&mut self) -> Result<Bits> {
        self.0.and(&self.1)
    }

    fn checksum(&self, made: Bits) -> u64 {
        EMPTY.with_bits(&made).0
    }
}

struct Equal(Bits, Bits);

impl Operation for Equal {
    type Made = bool;

    fn run(&mut self) -> Result<bool> {
        Ok(self.0 == self.1)
    }

    fn checksum(&self, made: bool) -> u64 {
        made as u64
    }
}

/// Words of bits for each run, and how many bits they are.
struct Fill {
    rows: usize,
    ready: Vec<Vec<u64>>,
}

impl Operation for Fill {
    type Made = Vec<u64>;

    fn run(&mut self) -> Result<Vec<u64>> {
        let mut words = self.ready.pop().ok_or(Refusal::Usage)?;
        fill(&mut words, black_box(3)..self.rows - 5);
        Ok(words)
    }

    fn checksum(&self, made: Vec<u64>) -> u64 {
        EMPTY.with_bits(&Bits { words: Buffer::new(made), len: self.rows }).0
    }
}

/// The bits of a validity, shared, with how many are true.
struct ExecuteMask(Bits);

impl Operation for ExecuteMask {
    type Made = (Bits, usize);

    fn run(&mut self) -> Result<(Bits, usize)> {
        let bits = self.0.clone();
        let count = bits.true_count();
        Ok((bits, count))
    }

    fn checksum(&self, made: (Bits, usize)) -> u64 {
        made.1 as u64
    }
}

/// An array of numbers, copied, as where they become the bytes of an array.
struct PrimitiveTryNew(Buffer<u32>);

impl Operation for PrimitiveTryNew {
    type Made = Arc<PrimitiveArray>;

    fn run(&mut self) -> Result<Arc<PrimitiveArray>> {
        Ok(number_array(self.0.as_slice().to_vec()))
    }

    fn checksum(&self, made: Arc<PrimitiveArray>) -> u64 {
        EMPTY.with_numbers(made.numbers()).0
    }
}

struct IntAt(Vec<u32>);

impl Operation for IntAt {
    type Made = u64;

    fn run(&mut self) -> Result<u64> {
        let numbers = black_box(Numbers::U32(&self.0));
        let rows = (0..self.0.len()).filter_map(|row| numbers.int_at(row));
        Ok(rows.fold(0u64, |sum, number| sum.wrapping_add(number as u64)))
    }

    fn checksum(&self, made: u64) -> u64 {
        made
    }
}

struct IntoByteBuffer(Buffer<u32>);

impl Operation for IntoByteBuffer {
    type Made = Buffer<u8>;

    fn run(&mut self) -> Result<Buffer<u8>> {
        let numbers = self.0.as_slice();
        let mut bytes = vec![0u8; numbers.len() * 4];
        for (place, number) in bytes.as_chunks_mut::<4>().0.iter_mut().zip(numbers) {
            *place = number.to_le_bytes();
        }
        Ok(Buffer::new(bytes))
    }

    fn checksum(&self, made: Buffer<u8>) -> u64 {
        EMPTY.with_bytes(made.as_slice()).0
    }
}

struct FromByteBuffer(Buffer<u8>);

impl Operation for FromByteBuffer {
    type Made = Buffer<u32>;

    fn run(&mut self) -> Result<Buffer<u32>> {
        let places = self.0.as_slice().as_chunks::<4>().0;
        Ok(Buffer::new(places.iter().map(|place| u32::from_le_bytes(*place)).collect()))
    }

    fn checksum(&self, made: Buffer<u32>) -> u64 {
        EMPTY.with_words(made.as_slice().iter().map(|number| *number as u64)).0
    }
}

struct ReadCounts(Buffer<u8>);

impl Operation for ReadCounts {
    type Made = Vec<usize>;

    fn run(&mut self) -> Result<Vec<usize>> {
        let places = self.0.as_slice().as_chunks::<4>().0;
        Ok(places.iter().map(|place| u32::from_le_bytes(*place) as usize).collect())
    }

    fn checksum(&self, made: Vec<usize>) -> u64 {
        EMPTY.with_words(made.iter().map(|count| *count as u64)).0
    }
}

struct WriteCounts(Vec<usize>);

impl Operation for WriteCounts {
    type Made = Buffer<u8>;

    fn run(&mut self) -> Result<Buffer<u8>> {
        let mut bytes = vec![0u8; self.0.len() * 8];
        for (place, count) in bytes.as_chunks_mut::<8>().0.iter_mut().zip(&self.0) {
            *place = (*count as u64).to_le_bytes();
        }
        Ok(Buffer::new(bytes))
    }

    fn checksum(&self, made: Buffer<u8>) -> u64 {
        EMPTY.with_bytes(made.as_slice()).0
    }
}

const OPERATIONS: [&str; 115] = [
    "rebuild_in_order",
    "rebuild_at_random",
    "rebuild_in_order_null",
    "rebuild_at_random_null",
    "rebuild_long_lists",
    "rebuild_lists_of_texts",
    "rebuild_lists_of_lists",
    "take_numbers",
    "take_bools",
    "take_list_view",
    "take_views",
    "take_fixed_lists",
    "take_records",
    "take_dictionary",
    "take_constant",
    "take_short_runs",
    "take_long_runs",
    "filter_numbers",
    "filter_bools",
    "filter_list_view",
    "filter_views",
    "filter_fixed_lists",
    "filter_records",
    "filter_dictionary",
    "filter_constant",
    "kept_at_random",
    "kept_in_runs",
    "kept_in_one_run",
    "mask_numbers",
    "mask_bools",
    "mask_list_view",
    "mask_views",
    "mask_fixed_lists",
    "mask_records",
    "mask_dictionary",
    "mask_constant",
    "concat_numbers",
    "concat_bools",
    "concat_list_view",
    "concat_views",
    "concat_fixed_lists",
    "concat_records",
    "concat_dictionaries",
    "concat_constants",
    "canonical_constant",
    "canonical_constant_text",
    "canonical_constant_list",
    "canonical_dictionary",
    "canonical_nested_dictionary",
    "canonical_list_view",
    "canonical_numbers",
    "canonical_bools",
    "canonical_views",
    "canonical_fixed_lists",
    "canonical_records",
    "slice_list_view",
    "list_view_try_new",
    "is_consecutive",
    "build_views",
    "build_views_from_offsets",
    "check_views_ascii",
    "check_views_mixed",
    "check_views_bytes",
    "check_long_ascii",
    "check_long_mixed",
    "rebuffer_filtered",
    "texts_try_new",
    "texts_try_new_null",
    "texts_from_iter_short",
    "texts_from_iter_long",
    "texts_from_option_iter",
    "texts_bytes_at",
    "bits_from_bools",
    "true_count",
    "and_bits",
    "equal_bits",
    "fill_bits",
    "execute_mask",
    "primitive_try_new",
    "int_at",
    "into_byte_buffer",
    "from_byte_buffer",
    "read_counts",
    "write_counts",
    "numbers_from_iter",
    "numbers_from_option_iter",
    "numbers_from_values",
    "numbers_to_buffer",
    "bools_from_iter",
    "bools_from_option_iter",
    "bools_from_indices",
    "bools_execute_mask",
    "bools_to_mask",
    "narrow",
    "referenced_values",
    "referenced_values_but_one",
    "fixed_lists_try_new",
    "records_try_new",
    "records_project",
    "records_with_column",
    "records_remove_column",
    "records_push_validity",
    "records_concat",
    "records_by_name",
    "validity_and",
    "validity_not",
    "validity_patch",
    "pack_lists",
    "pack_texts",
    "pack_records",
    "rows_equal_numbers",
    "rows_equal_texts",
    "rows_equal_lists",
    "steps_run",
    "steps_direct",
];

fn byte_buffer(numbers: &[u32]) -> Buffer<u8> {
    Buffer::new(numbers.iter().flat_map(|number| number.to_le_bytes()).collect())
}

fn measure_check(bench: &Bench, texts: Texts, check: fn(&[View], &[Buffer<u8>]) -> Result<()>) -> Result<()> {
    let (heap, lengths) = text_heap(bench.rows, texts);
    let made = build_views(MAX_BUFFER_LEN, &heap, &lengths)?;
    bench.measure(CheckViews { made, check })
}

/// The rows of an operation, by the last word of its name.
fn rows_of(rows: usize, name: &str) -> Result<Rows> {
    let numbers = || random_numbers(rows, u32::MAX, 6);
    Ok(match name.split_once('_').map_or("", |(_, layout)| layout) {
        "numbers" => Rows::Numbers(numbers()),
        "bools" => Rows::Bools(random_bits(rows, 2, 7)),
        "list_view" => Rows::Lists(list_view(rows, AT_RANDOM)?),
        "views" => Rows::Views(text_array(rows)?.1.as_slice().to_vec()),
        "fixed_lists" => Rows::FixedLists(random_numbers(4 * rows, u32::MAX, 1)),
        "records" => Rows::Records(numbers(), random_bits(rows, 2, 7)),
        "constant" => Rows::Constant(1_000_003, rows),
        _ => {
            let values = Arc::new(random_numbers(1000, u32::MAX, 6));
            Rows::Dictionary(random_numbers(rows, 1000, 9), values)
        }
    })
}

/// The buffers and the views of texts.
fn text_array(rows: usize) -> Result<Built> {
    let (heap, lengths) = text_heap(rows, ASCII);
    build_views(MAX_BUFFER_LEN, &heap, &lengths)
}

fn measure_rows(bench: &Bench, name: &str) -> Result<()> {
    let rows = rows_of(bench.rows, name)?;
    if name.starts_with("take") {
        let indices = random_numbers(bench.rows, bench.rows as u32, 5);
        bench.measure(TakeRows { rows, indices })
    } else {
        bench.measure(FilterRows { rows, mask: random_bits(bench.rows, 4, 8) })
    }
}

fn measure_lists(bench: &Bench, name: &str) -> Result<()> {
    let rows = bench.rows;
    let null = |shape| ListShape { some_null: true, ..shape };
    let indices = || random_numbers(rows, rows as u32, 5);
    match name {
        "rebuild_in_order" => bench.measure(Rebuild(list_view(rows, IN_ORDER)?)),
        "rebuild_at_random" => bench.measure(Rebuild(list_view(rows, AT_RANDOM)?)),
        "rebuild_in_order_null" => bench.measure(Rebuild(list_view(rows, null(IN_ORDER))?)),
        "rebuild_at_random_null" => bench.measure(Rebuild(list_view(rows, null(AT_RANDOM))?)),
        "rebuild_long_lists" => {
            bench.measure(Rebuild(list_view(rows, ListShape { size: 40, ..IN_ORDER })?))
        }
        "take_numbers" => {
            let array = number_array(random_numbers(rows, u32::MAX, 6));
            bench.measure(TakeNumbers { array, indices: indices() })
        }
        "take_bools" => {
            let bits = random_bits(rows, 2, 7);
            let array = Arc::new(BoolArray { dtype: DType::Bool, bits, validity: None });
            bench.measure(TakeBools { array, indices: indices() })
        }
        "take_list_view" => {
            bench.measure(TakeListView { array: list_view(rows, AT_RANDOM)?, indices: indices() })
        }
        "slice_list_view" => {
            bench.measure(SliceListView { array: list_view(rows, AT_RANDOM)?, count: rows / 10 })
        }
        "take_views" | "take_fixed_lists" | "take_records" | "take_dictionary" | "filter_numbers" | "filter_bools"
        | "filter_list_view" | "filter_views" | "filter_fixed_lists" | "filter_records"
        | "filter_dictionary" | "take_constant" | "filter_constant" => measure_rows(bench, name),
        "list_view_try_new" => bench.measure(ListViewTryNew(list_view(rows, AT_RANDOM)?)),
        "is_consecutive" => bench.measure(IsConsecutive(list_view(rows, IN_ORDER)?)),
        _ => measure_flat(bench, name),
    }
}

/// The operation of a name, by the first word of it.
fn measure(bench: &Bench, name: &str) -> Result<()> {
    let (verb, rest) = name.split_once('_').unwrap_or((name, ""));
    match verb {
        "kept" => measure_kept(bench, rest),
        "rebuffer" => texts::measure(bench),
        "texts" => texts::measure_texts(bench, rest),
        "rebuild" if rest.starts_with("lists_of") => lists::measure_rebuild(bench, rest),
        "take" if rest.ends_with("runs") => lists::measure_runs(bench, rest),
        "fixed" => lists::measure_fixed(bench),
        "records" => records::measure(bench, rest),
        "validity" => validities::measure(bench, rest),
        "steps" => steps::measure(bench, rest),
        "pack" => packed::measure_pack(bench, rest),
        "rows" => packed::measure_equal(bench, rest),
        "mask" => parts::measure_mask(bench, rest),
        "concat" => trees::measure_concat(bench, rest),
        "canonical" => trees::measure_canonical(bench, rest),
        "numbers" => leaves::measure_numbers(bench, rest),
        "bools" => leaves::measure_bools(bench, rest),
        _ => measure_lists(bench, name),
    }
}

/// A filter of numbers, the making of its mask counted.
fn measure_kept(bench: &Bench, which: &str) -> Result<()> {
    let rows = bench.rows;
    let (run, quarter) = (rows / 100, rows / 4);
    let bits = match which {
        "at_random" => random_bits(rows, 4, 8),
        "in_runs" => Bits::collect(rows, |i| i / run % 4 != 0),
        "in_one_run" => Bits::collect(rows, |i| (quarter..rows - quarter).contains(&i)),
        _ => return Err(Refusal::Usage),
    };
    bench.measure(Keep { numbers: random_numbers(rows, u32::MAX, 6), bits })
}

fn measure_flat(bench: &Bench, name: &str) -> Result<()> {
    let rows = bench.rows;
    let numbers = || random_numbers(rows, u32::MAX, 6);
    match name {
        "narrow" => bench.measure(Narrow(random_numbers(rows, 60000, 10))),
        "referenced_values" => bench.measure(ReferencedValues(random_numbers(rows, 1000, 9))),
        "referenced_values_but_one" => bench.measure(ReferencedValues(random_numbers(rows, 999, 9))),
        "build_views" => {
            let (heap, lengths) = text_heap(rows, ASCII);
            bench.measure(BuildViews { heap, lengths })
        }
        "build_views_from_offsets" => {
            let (heap, lengths) = text_heap(rows, ASCII);
            let ends = lengths.iter().scan(0, |end, length| {
                *end += length;
                Some(*end)
            });
            let offsets = std::iter::once(0).chain(ends).collect();
            bench.measure(BuildViewsFromOffsets { heap, offsets })
        }
        "check_views_ascii" => measure_check(bench, ASCII, check_text),
        "check_views_mixed" => measure_check(bench, MIXED, check_text),
        "ascii_each" => measure_check(bench, ASCII, check_each),
        "mixed_text" => measure_check(bench, MIXED, check_in_text),
        "check_views_bytes" => measure_check(bench, MIXED, check_bytes),
        "check_long_ascii" => measure_check(bench, LONG_ASCII, check_each_by_std),
        "check_long_mixed" => measure_check(bench, LONG_MIXED, check_each_by_std),
        "bits_from_bools" => bench.measure(FromBools(random_bools(rows, 2, 7))),
        "true_count" => bench.measure(TrueCount(random_bits(rows, 2, 7))),
        "and_bits" => bench.measure(And(random_bits(rows, 2, 7), random_bits(rows, 3, 8))),
        "equal_bits" => bench.measure(Equal(random_bits(rows, 2, 7), random_bits(rows, 2, 7))),
        "fill_bits" => {
            let zeroes = || (0..rows.div_ceil(64)).map(|i| black_box(i as u64 * 0)).collect();
            let ready = (0..bench.runs.unwrap_or(1)).map(|_| zeroes()).collect();
            bench.measure(Fill { rows, ready })
        }
        "execute_mask" => bench.measure(ExecuteMask(random_bits(rows, 10, 3))),
        "primitive_try_new" => bench.measure(PrimitiveTryNew(Buffer::new(numbers()))),
        "int_at" => bench.measure(IntAt(numbers())),
        "into_byte_buffer" => bench.measure(IntoByteBuffer(Buffer::new(numbers()))),
        "from_byte_buffer" => bench.measure(FromByteBuffer(byte_buffer(&numbers()))),
        "read_counts" => bench.measure(ReadCounts(byte_buffer(&numbers()))),
        "write_counts" => {
            bench.measure(WriteCounts(numbers().iter().map(|number| *number as usize).collect()))
        }
        _ => Err(Refusal::Usage),
    }
}

fn start() -> Result<()> {
    let words: Vec<String> = std::env::args().skip(1).collect();
    match words.as_slice() {
        [] => {
            let bench = Bench { rows: 1_000, runs: None };
            for name in OPERATIONS {
                print!("{name} ");
                measure(&bench, name)?;
            }
            Ok(())
        }
        [name, runs, rest @ ..] => {
            let number = |word: &String| word.parse::<usize>().map_err(|_| Refusal::Usage);
            let rows = rest.first().map_or(Ok(1_000_000), number)?;
            measure(&Bench { rows, runs: Some(number(runs)?) }, name)
        }
        _ => Err(Refusal::Usage),
    }
}

fn main() -> ExitCode {
    match start() {
        Ok(()) => ExitCode::SUCCESS,
        Err(refusal) => {
            eprintln!("{refusal:?}");
            ExitCode::FAILURE
        }
    }
}
