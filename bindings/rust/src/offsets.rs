//! Values and lists that lie between offsets, as the library takes them: by views, and by sizes.

use std::ops::Range;

use crate::faults::{Refused, OVERFLOW};
use crate::raw::View;

/// Values as views, and the heaps that they refer to: each has fewer than 2^31 bytes, since an
/// Arrow view counts no more.
pub(crate) struct Cut<'a> {
    pub(crate) views: Vec<View>,
    pub(crate) heaps: Vec<&'a [u8]>,
    /// The bytes up to the last offset, and the place of the first value in them.
    bytes: &'a [u8],
    base: usize,
    /// How many bytes there are.
    all: usize,
    /// Where the last heap starts.
    start: usize,
}

/// The longest value, and the longest heap.
const MOST: usize = i32::MAX as usize;

/// The view of a value whose offsets do not lie in order between the first and the last: it names
/// no buffer, and is refused.
const ASTRAY: View = [13, 0, 0, 0, 0, 0, 0, 0, 0xff, 0xff, 0xff, 0xff, 0, 0, 0, 0];

/// The view of a value that begins where the bytes end, or after that: it begins past each buffer.
const PAST: View = [13, 0, 0, 0, 0, 0, 0, 0, 0, 0, 0, 0, 0xff, 0xff, 0xff, 0xff];

impl<'a> Cut<'a> {
    pub(crate) fn of_32(offsets: &[i32], bytes: &'a [u8]) -> Cut<'a> {
        let ends = offsets.first().zip(offsets.last());
        let ends = ends.map(|(&first, &last)| (first.into(), last.into()));
        let mut cut = Cut::new(offsets.len(), ends, bytes);
        for pair in offsets.windows(2) {
            cut.push(pair[0].into(), pair[1].into());
        }
        cut
    }

    /// Refuses the first value within the bytes that has 2 GiB or more.
    pub(crate) fn of_64(offsets: &[i64], bytes: &'a [u8]) -> Result<Cut<'a>, Refused> {
        let ends = offsets.first().copied().zip(offsets.last().copied());
        let mut cut = Cut::new(offsets.len(), ends, bytes);
        for (row, pair) in offsets.windows(2).enumerate() {
            let inside = cut
                .range(pair[0], pair[1])
                .filter(|range| range.end <= cut.bytes.len());
            if inside.is_some_and(|range| range.len() > MOST) {
                return Err(Refused::new(OVERFLOW, 0, row));
            }
            cut.push(pair[0], pair[1]);
        }
        Ok(cut)
    }

    /// No value yet, of bytes between a first and a last offset; where these tell no place, they
    /// begin with the first byte.
    fn new(offsets: usize, ends: Option<(i64, i64)>, bytes: &'a [u8]) -> Cut<'a> {
        let (first, last) = ends.unwrap_or((0, 0));
        let end = usize::try_from(last).map_or(0, |last| last.min(bytes.len()));
        let base = usize::try_from(first).ok().filter(|&base| base <= end);
        let mut cut = Cut {
            views: Vec::with_capacity(offsets.saturating_sub(1)),
            heaps: Vec::new(),
            bytes: &bytes[..end],
            base: base.unwrap_or(0),
            all: bytes.len(),
            start: 0,
        };
        cut.open(cut.base);
        cut
    }

    /// Starts a heap.
    fn open(&mut self, start: usize) {
        let rest = &self.bytes[start..];
        self.start = start;
        self.heaps.push(&rest[..rest.len().min(MOST)]);
    }

    /// Where a value lies whose offsets lie in order, from the first one on.
    fn range(&self, start: i64, end: i64) -> Option<Range<usize>> {
        let (start, end) = (usize::try_from(start).ok()?, usize::try_from(end).ok()?);
        (self.base <= start && start <= end).then_some(start..end)
    }

    fn push(&mut self, start: i64, end: i64) {
        let known = self.bytes.len();
        let view = match self.range(start, end) {
            Some(range) if range.end <= known && range.len() <= 12 => short(&self.bytes[range]),
            Some(range) if range.end <= known => self.long(range),
            Some(range) if range.end > self.all && range.start >= known => PAST,
            Some(range) if range.end > self.all => self.long(range),
            _ => ASTRAY,
        };
        self.views.push(view);
    }

    /// The view of a value that stands in a heap, or begins there and passes the end of the bytes,
    /// for which it is refused. One that begins before the last heap has no heap.
    fn long(&mut self, range: Range<usize>) -> View {
        if range.start >= self.start && range.end - self.start > MOST {
            self.open(range.start);
        }
        let Some(place) = range.start.checked_sub(self.start) else {
            return ASTRAY;
        };
        let prefix = self.bytes.get(range.start..range.start + 4);
        let mut view = [0; 16];
        view[..4].copy_from_slice(&counted(range.len().max(13)).to_le_bytes());
        view[4..8].copy_from_slice(prefix.unwrap_or(&[0; 4]));
        view[8..12].copy_from_slice(&counted(self.heaps.len() - 1).to_le_bytes());
        view[12..].copy_from_slice(&counted(place).to_le_bytes());
        view
    }
}

/// A number of a view. What has more bits stays past every heap.
fn counted(number: usize) -> u32 {
    u32::try_from(number).unwrap_or(u32::MAX)
}

/// The view of a value of at most 12 bytes, which stands in it.
fn short(value: &[u8]) -> View {
    let mut view = [0; 16];
    view[0] = value.len() as u8;
    view[4..4 + value.len()].copy_from_slice(value);
    view
}

/// The sizes of lists: each offset but the first, less the one before it; where no number is that
/// small, it stays too small.
pub(crate) fn sizes(offsets: impl Iterator<Item = i64> + Clone) -> Vec<i64> {
    let sizes = offsets.clone().skip(1).zip(offsets);
    sizes
        .map(|(end, start)| end.checked_sub(start).unwrap_or(i64::MIN))
        .collect()
}

#[cfg(test)]
mod tests {
    use super::*;

    /// The bytes that a view refers to.
    fn referred<'a>(cut: &Cut<'a>, row: usize) -> &'a [u8] {
        let field = |i: usize| {
            let field = cut.views[row][4 * i..4 * i + 4].try_into();
            u32::from_le_bytes(field.expect("four bytes")) as usize
        };
        &cut.heaps[field(2)][field(3)..field(3) + field(0)]
    }

    #[test]
    fn values_past_2_gib_lie_in_heaps_that_views_can_count() {
        let bytes = vec![0; 3 * (MOST + 1)];
        let places = [0, 20, MOST, MOST + 30, 2 * MOST, 2 * MOST + 50, 3 * MOST];
        let offsets: Vec<i64> = places.iter().map(|&place| place as i64).collect();
        let cut = Cut::of_64(&offsets, &bytes).expect("no value is too long");
        for (row, pair) in places.windows(2).enumerate() {
            let value = &bytes[pair[0]..pair[1]];
            assert_eq!(
                referred(&cut, row).as_ptr_range(),
                value.as_ptr_range(),
                "{row}"
            );
        }
        assert!(cut.heaps.iter().all(|heap| heap.len() <= MOST));
    }

    #[test]
    fn a_value_of_2_gib_is_refused_at_its_row() {
        let bytes = vec![0; MOST + 64];
        let refused = |offsets: &[i64]| {
            Cut::of_64(offsets, &bytes)
                .err()
                .map(|refused| refused.row())
        };
        let most = MOST as i64;
        assert_eq!(refused(&[0, 5, 5 + most]), None);
        assert_eq!(refused(&[0, 5, 6 + most]), Some(1));
        assert_eq!(refused(&[0, 5, 65 + most]), None, "it passes the end");
    }

    #[test]
    fn a_value_before_the_last_heap_has_none() {
        let bytes = vec![0; 2 * MOST];
        let far = 2 * MOST as i64 - 20;
        let cut = Cut::of_64(&[0, 0, 0, far, far + 20], &bytes);
        assert_eq!(
            cut.err().map(|refused| (refused.name(), refused.row())),
            Some(("Overflow", 2))
        );
        let offsets = [0, 20, far - 1, far + 19, 40, 60, 2 * MOST as i64];
        let cut = Cut::of_64(&offsets, &bytes);
        assert_eq!(cut.err().map(|refused| refused.row()), Some(1));
        let near = MOST as i64;
        let offsets = [0, 20, near, near + 20, 40, 60, near + 60];
        let cut = Cut::of_64(&offsets, &bytes).expect("no value is too long");
        assert_eq!((referred(&cut, 0).len(), referred(&cut, 2).len()), (20, 20));
        assert_eq!(cut.views[3..], [ASTRAY, ASTRAY, ASTRAY]);
        let offsets = [0, 20, near, near + 20, 60, 3 * near];
        let cut = Cut::of_64(&offsets, &bytes).expect("one passes the end");
        assert_eq!(cut.views[3..], [ASTRAY, ASTRAY]);
    }
}
