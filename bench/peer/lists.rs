//! Lists of texts and of lists, fixed-size lists, and rows that are taken in runs.

use super::{
    Bench, Buffer, Built, Checksum, DType, EMPTY, IN_ORDER, ListViewArray, Operation,
    PrimitiveArray, Refusal, Result, View, list_view, number_array, random_numbers, text_array,
};
use std::sync::Arc;

/// Elements that are copied as ranges.
trait Elements: Sized {
    fn len(&self) -> usize;

    /// The elements of these ranges, one range after another, `total` in all.
    fn ranges(&self, ranges: impl Iterator<Item = (usize, usize)>, total: usize) -> Self;

    fn add_to(&self, sum: Checksum) -> Checksum;
}

fn copy_ranges<T: Copy>(
    items: &[T],
    ranges: impl Iterator<Item = (usize, usize)>,
    total: usize,
) -> Vec<T> {
    let mut copied = Vec::with_capacity(total);
    for (start, end) in ranges {
        copied.extend_from_slice(&items[start..end]);
    }
    copied
}

/// Views, whose buffers are shared.
struct Texts {
    buffers: Arc<[Buffer<u8>]>,
    views: Vec<View>,
}

impl Elements for Texts {
    fn len(&self) -> usize {
        self.views.len()
    }

    fn ranges(&self, ranges: impl Iterator<Item = (usize, usize)>, total: usize) -> Texts {
        Texts { buffers: self.buffers.clone(), views: copy_ranges(&self.views, ranges, total) }
    }

    fn add_to(&self, sum: Checksum) -> Checksum {
        sum.with_views(&self.views)
    }
}

/// Lists, whose elements are shared.
impl Elements for Arc<ListViewArray> {
    fn len(&self) -> usize {
        self.offsets.len()
    }

    fn ranges(&self, ranges: impl Iterator<Item = (usize, usize)>, total: usize) -> Self {
        let (mut offsets, mut sizes) = (Vec::with_capacity(total), Vec::with_capacity(total));
        for (start, end) in ranges {
            offsets.extend_from_slice(&self.offsets.numbers()[start..end]);
            sizes.extend_from_slice(&self.sizes.numbers()[start..end]);
        }
        Arc::new(ListViewArray {
            dtype: self.dtype.clone(),
            elements: self.elements.clone(),
            offsets: number_array(offsets),
            sizes: number_array(sizes),
            validity: None,
            zero_copy_to_list: false,
        })
    }

    fn add_to(&self, sum: Checksum) -> Checksum {
        sum.with_list_view(self)
    }
}

/// Lists of four elements each that lie anywhere.
struct Lists<E> {
    elements: E,
    offsets: Arc<PrimitiveArray>,
    sizes: Arc<PrimitiveArray>,
}

impl<E: Elements> Lists<E> {
    fn over(elements: E) -> Lists<E> {
        let rows = elements.len() / 4;
        let limit = (elements.len() as u32).saturating_sub(4);
        let offsets = number_array(random_numbers(rows, limit, 2));
        Lists { elements, offsets, sizes: number_array(vec![4; rows]) }
    }

    /// Each list's elements, copied as a range to the end of those before.
    #[inline(never)]
    fn rebuild(&self) -> Result<Lists<E>> {
        let (offsets, sizes) = (self.offsets.numbers(), self.sizes.numbers());
        let total: u64 = sizes.iter().map(|size| *size as u64).sum();
        if total > u32::MAX as u64 {
            return Err(Refusal::Overflow);
        }
        let starts = sizes.iter().scan(0, |end, size| {
            let start = *end;
            *end += size;
            Some(start)
        });
        let starts = number_array(starts.collect());
        let places = offsets.iter().zip(sizes);
        let ranges = places.map(|(start, size)| (*start as usize, (start + size) as usize));
        let elements = self.elements.ranges(ranges, total as usize);
        Ok(Lists { elements, offsets: starts, sizes: number_array(sizes.to_vec()) })
    }
}

struct Rebuild<E>(Lists<E>);

impl<E: Elements> Operation for Rebuild<E> {
    type Made = Lists<E>;

    fn run(&mut self) -> Result<Lists<E>> {
        self.0.rebuild()
    }

    fn checksum(&self, made: Lists<E>) -> u64 {
        let places = EMPTY.with_numbers(made.offsets.numbers()).with_numbers(made.sizes.numbers());
        made.elements.add_to(places).0
    }
}

pub fn measure_rebuild(bench: &Bench, name: &str) -> Result<()> {
    match name {
        "lists_of_texts" => {
            let (buffers, views): Built = text_array(bench.rows)?;
            let texts = Texts { buffers: buffers.into(), views: views.as_slice().to_vec() };
            bench.measure(Rebuild(Lists::over(texts)))
        }
        "lists_of_lists" => bench.measure(Rebuild(Lists::over(list_view(bench.rows, IN_ORDER)?))),
        _ => Err(Refusal::Usage),
    }
}

// ---- runs ----

struct TakeRuns {
    numbers: Vec<u32>,
    runs: Vec<(usize, usize)>,
}

#[inline(never)]
fn check_runs(runs: &[(usize, usize)], len: usize) -> Result<()> {
    match runs.iter().find(|(start, end)| start > end || *end > len) {
        Some((_, end)) => Err(Refusal::OutOfBounds(*end)),
        None => Ok(()),
    }
}

#[inline(never)]
fn take_runs(numbers: &[u32], runs: &[(usize, usize)]) -> Vec<u32> {
    let total = runs.iter().map(|(start, end)| end - start).sum();
    copy_ranges(numbers, runs.iter().copied(), total)
}

impl Operation for TakeRuns {
    type Made = Vec<u32>;

    fn run(&mut self) -> Result<Vec<u32>> {
        check_runs(&self.runs, self.numbers.len())?;
        Ok(take_runs(&self.numbers, &self.runs))
    }

    fn checksum(&self, made: Vec<u32>) -> u64 {
        EMPTY.with_numbers(&made).0
    }
}

pub fn measure_runs(bench: &Bench, name: &str) -> Result<()> {
    let rows = bench.rows;
    let size = if name == "short_runs" { 8 } else { rows / 100 };
    let starts = random_numbers(rows / size, (rows - size) as u32, 5);
    let runs = starts.iter().map(|start| (*start as usize, *start as usize + size)).collect();
    bench.measure(TakeRuns { numbers: random_numbers(rows, u32::MAX, 6), runs })
}

// ---- fixed-size lists ----

#[allow(dead_code)]
struct FixedLists {
    dtype: DType,
    elements: Arc<PrimitiveArray>,
    size: u32,
    len: usize,
}

impl FixedLists {
    #[inline(never)]
    fn try_new(elements: Arc<PrimitiveArray>, size: u32, len: usize) -> Result<Arc<FixedLists>> {
        let count = len.checked_mul(size as usize).ok_or(Refusal::Overflow)?;
        if count != elements.len() {
            return Err(Refusal::LengthMismatch);
        }
        let dtype = DType::FixedList(Arc::new(elements.dtype.clone()), size);
        Ok(Arc::new(FixedLists { dtype, elements, size, len }))
    }
}

/// The checks of the parts of fixed-size lists.
struct FixedTryNew {
    elements: Arc<PrimitiveArray>,
    rows: usize,
}

impl Operation for FixedTryNew {
    type Made = Arc<FixedLists>;

    fn run(&mut self) -> Result<Arc<FixedLists>> {
        FixedLists::try_new(self.elements.clone(), 4, self.rows)
    }

    fn checksum(&self, made: Arc<FixedLists>) -> u64 {
        EMPTY.with_numbers(made.elements.numbers()).0
    }
}

pub fn measure_fixed(bench: &Bench) -> Result<()> {
    let elements = number_array(random_numbers(4 * bench.rows, u32::MAX, 1));
    bench.measure_often(FixedTryNew { elements, rows: bench.rows })
}
