//! All that is unsafe: the structs that this crate shares with C, the calls of the library, and who
//! gives back what.
//!
//! What is trusted of the library: it reads within the slices that it is lent, keeps none of them
//! after a call, and what it writes is well-formed memory until it is given back. The first two are
//! proved of `codrask_check` and `codrask_run`.
#![allow(unsafe_code)]

pub(crate) mod arrow;

use std::ffi::{c_char, CStr};
use std::marker::PhantomData;
use std::{mem, slice, thread};

use crate::faults::{Refused, Stopped, MEMORY};

/// A slice as C has it: a pointer that is never null, and a count.
#[repr(C)]
pub(crate) struct Lent<'a, T> {
    pointer: *const T,
    count: usize,
    slice: PhantomData<&'a [T]>,
}

// SAFETY: a `Lent` is a shared slice and nothing else, so it may go wherever `&[T]` may.
unsafe impl<T: Sync> Send for Lent<'_, T> {}
// SAFETY: the same.
unsafe impl<T: Sync> Sync for Lent<'_, T> {}

impl<T> Clone for Lent<'_, T> {
    fn clone(&self) -> Self {
        *self
    }
}

impl<T> Copy for Lent<'_, T> {}

impl<'a, T> Lent<'a, T> {
    pub(crate) const fn new(slice: &'a [T]) -> Self {
        Lent {
            pointer: slice.as_ptr(),
            count: slice.len(),
            slice: PhantomData,
        }
    }

    pub(crate) fn get(self) -> &'a [T] {
        if self.count == 0 {
            return &[];
        }
        // SAFETY: the two fields are those of a slice that lives as long as `'a`: `new` takes one,
        // and the library writes no others into the nodes that it makes.
        unsafe { slice::from_raw_parts(self.pointer, self.count) }
    }
}

/// The view of a text or of a byte list.
pub(crate) type View = [u8; 16];

/// Some bytes: a buffer of views, or a name.
pub(crate) type Bytes<'a> = Lent<'a, u8>;

/// An array of a table, as `struct codrask_node` has it.
#[repr(C)]
#[derive(Clone, Copy)]
pub(crate) struct Node<'a> {
    pub(crate) kind: u32,
    pub(crate) validity: u32,
    pub(crate) size: u32,
    pub(crate) length: usize,
    pub(crate) offset: usize,
    pub(crate) bytes: Lent<'a, u8>,
    pub(crate) views: Lent<'a, View>,
    pub(crate) buffers: Lent<'a, Bytes<'a>>,
}

/// A step, as `struct codrask_step` has it.
#[repr(C)]
#[derive(Clone, Copy)]
pub(crate) struct RawStep<'a> {
    pub(crate) kind: u32,
    pub(crate) mode: u32,
    pub(crate) array: usize,
    pub(crate) other: usize,
    pub(crate) start: usize,
    pub(crate) end: usize,
    pub(crate) arrays: Lent<'a, usize>,
    pub(crate) names: Lent<'a, Bytes<'a>>,
    pub(crate) name: Bytes<'a>,
}

/// How texts, byte lists and lists lie in Arrow: a number of `enum codrask_format`.
pub(crate) type Format = u8;

/// The format of all other arrays, and where none is known.
pub(crate) const NO_FORMAT: Format = 0;

/// A column, as `struct codrask_column` has it.
pub(crate) type Nodes<'a> = Lent<'a, Node<'a>>;

#[repr(C)]
#[derive(Default)]
struct Fault {
    number: u32,
    node: usize,
    place: usize,
}

#[repr(C)]
#[derive(Default)]
pub(crate) struct RunFault {
    number: u32,
    part: u32,
    which: usize,
    node: usize,
    place: usize,
}

const _: () = assert!(mem::size_of::<usize>() == 8 && cfg!(target_endian = "little"));
const _: () = assert!(mem::size_of::<Node>() == 80 && mem::size_of::<RawStep>() == 88);

extern "C" {
    fn codrask_version() -> u32;
    fn codrask_check(nodes: *const Node, count: usize, fault: *mut Fault) -> u32;
    fn codrask_run(
        columns: *const Nodes,
        column_count: usize,
        steps: *const RawStep,
        step_count: usize,
        wanted: *const usize,
        wanted_count: usize,
        made: *mut Lent<'static, Nodes<'static>>,
        fault: *mut RunFault,
    ) -> u32;
    fn codrask_run_formats(
        columns: *const Nodes,
        formats: *const *const Format,
        column_count: usize,
        steps: *const RawStep,
        step_count: usize,
        wanted: *const usize,
        made: *const Lent<'static, Nodes<'static>>,
        made_formats: *const *mut Format,
    ) -> u32;
    fn codrask_columns_free(made: *mut Lent<'static, Nodes<'static>>);
    fn codrask_fault_name(number: u32) -> *const c_char;
}

pub(crate) fn version() -> u32 {
    // SAFETY: the call takes nothing and answers a number.
    unsafe { codrask_version() }
}

pub(crate) fn fault_name(number: u32) -> &'static str {
    // SAFETY: the call takes any number, and answers a text that ends at a byte 0 and is never
    // given back.
    let name = unsafe { CStr::from_ptr(codrask_fault_name(number)) };
    name.to_str().unwrap_or_default()
}

/// Numbers and views: each is its bytes, whatever these are.
///
/// # Safety
///
/// The type has no padding, and any bytes are one of its values.
pub unsafe trait Plain: Copy + 'static {}

// SAFETY: integers and bytes have no padding, and each pattern of bits is one of them.
unsafe impl Plain for u8 {}
// SAFETY: the same.
unsafe impl Plain for u16 {}
// SAFETY: the same.
unsafe impl Plain for u32 {}
// SAFETY: the same.
unsafe impl Plain for u64 {}
// SAFETY: the same.
unsafe impl Plain for u128 {}
// SAFETY: the same.
unsafe impl Plain for i8 {}
// SAFETY: the same.
unsafe impl Plain for i16 {}
// SAFETY: the same.
unsafe impl Plain for i32 {}
// SAFETY: the same.
unsafe impl Plain for i64 {}
// SAFETY: the same.
unsafe impl Plain for View {}

/// The bytes of items.
pub(crate) fn bytes_of<T: Plain>(items: &[T]) -> &[u8] {
    // SAFETY: the items are so many bytes, all of them initialised since the type has no padding,
    // and shared as long.
    unsafe { slice::from_raw_parts(items.as_ptr().cast(), mem::size_of_val(items)) }
}

/// The items that bytes are; none where the bytes do not begin or end where an item does.
pub(crate) fn items_of<T: Plain>(bytes: &[u8]) -> Option<&[T]> {
    // SAFETY: any bytes are items of such a type.
    let (before, items, after) = unsafe { bytes.align_to::<T>() };
    (before.is_empty() && after.is_empty()).then_some(items)
}

/// How many levels of arrays any thread's stack has room for in the library, which walks a table by
/// calls of itself.
const SHALLOW: usize = 64;

/// A stack for every table that the library takes.
const DEEP_STACK: usize = 64 << 20;

/// Calls the library on the stack of this thread, or where arrays are nested deeply, on a large
/// one; none where there is none.
fn on_a_stack<R: Send>(levels: usize, call: impl FnOnce() -> R + Send) -> Option<R> {
    if levels <= SHALLOW {
        return Some(call());
    }
    thread::scope(|scope| {
        let thread = thread::Builder::new().stack_size(DEEP_STACK);
        thread.spawn_scoped(scope, call).ok()?.join().ok()
    })
}

/// Whether nodes are a column; `levels` is no less than how deep they are nested.
pub(crate) fn check(nodes: &[Node], levels: usize) -> Result<(), Refused> {
    let mut fault = Fault::default();
    let told = &mut fault;
    // SAFETY: the nodes are a slice of nodes whose slices live during the call, and the fault can
    // be written to.
    let call = move || unsafe { codrask_check(nodes.as_ptr(), nodes.len(), told) };
    match on_a_stack(levels, call) {
        Some(0) => Ok(()),
        Some(_) => Err(refused(&fault)),
        None => Err(Refused::new(MEMORY, 0, 0)),
    }
}

fn refused(fault: &Fault) -> Refused {
    Refused::new(fault.number, fault.node, fault.place)
}

pub(crate) fn stopped(fault: &RunFault) -> Stopped {
    let part = (fault.part, fault.which);
    Stopped::new(fault.number, part, fault.node, fault.place)
}

/// The columns that a run wrote. They are given back once.
pub(crate) struct Made {
    columns: Lent<'static, Nodes<'static>>,
    /// Of each column, the format of each node.
    formats: Vec<Vec<Format>>,
}

impl Made {
    /// Runs steps on columns, of which each node has a format; `levels` is no less than how deep any
    /// array of the run is nested.
    pub(crate) fn run(
        (columns, formats): (&[Nodes], &[Vec<Format>]),
        steps: &[RawStep],
        wanted: &[usize],
        levels: usize,
    ) -> Result<Made, Stopped> {
        let (mut made, mut fault) = (Lent::new(&[]), RunFault::default());
        let (c, s, w) = (columns.len(), steps.len(), wanted.len());
        let (written, told) = (&mut made, &mut fault);
        // SAFETY: columns, steps and positions are slices that live during the call, as do all
        // slices in them. What is written to is ours, and is no column before the call.
        let call = move || unsafe {
            let (columns, steps, wanted) = (columns.as_ptr(), steps.as_ptr(), wanted.as_ptr());
            codrask_run(columns, c, steps, s, wanted, w, written, told)
        };
        match on_a_stack(levels, call) {
            Some(0) => {
                let made = Made {
                    columns: made,
                    formats: Vec::new(),
                };
                made.with_formats((columns, formats), steps, wanted)
            }
            Some(_) => Err(stopped(&fault)),
            None => Err(Stopped::new(MEMORY, (0, 0), 0, 0)),
        }
    }

    /// The same with the formats of what was written, by those of the columns of the run.
    fn with_formats(
        mut self,
        (columns, formats): (&[Nodes], &[Vec<Format>]),
        steps: &[RawStep],
        wanted: &[usize],
    ) -> Result<Made, Stopped> {
        let made = self.columns.get().iter();
        self.formats = made.map(|nodes| vec![NO_FORMAT; nodes.count]).collect();
        let own: Vec<_> = formats.iter().map(|formats| formats.as_ptr()).collect();
        let into: Vec<_> = self.formats.iter_mut().map(|to| to.as_mut_ptr()).collect();
        // SAFETY: columns, steps and positions are those of the run that wrote the columns. There is
        // a format for each node of theirs, and room for one for each that was written.
        let number = unsafe {
            codrask_run_formats(
                columns.as_ptr(),
                own.as_ptr(),
                columns.len(),
                steps.as_ptr(),
                steps.len(),
                wanted.as_ptr(),
                &self.columns,
                into.as_ptr(),
            )
        };
        match number {
            0 => Ok(self),
            _ => Err(Stopped::new(MEMORY, (0, 0), 0, 0)),
        }
    }

    pub(crate) fn count(&self) -> usize {
        self.columns.count
    }

    /// The nodes of a column, as long as they are not given back.
    pub(crate) fn nodes(&self, place: usize) -> &[Node<'_>] {
        self.columns.get()[place].get()
    }

    /// The formats of the nodes of a column.
    pub(crate) fn formats(&self, place: usize) -> &[Format] {
        &self.formats[place]
    }
}

impl Drop for Made {
    fn drop(&mut self) {
        // SAFETY: the call that wrote the columns gave them to us; nothing that is lent of them
        // outlives `self`.
        unsafe { codrask_columns_free(&mut self.columns) }
    }
}

#[cfg(test)]
mod tests {
    use super::*;

    #[test]
    fn deep_calls_have_a_large_stack_of_their_own() {
        let here = thread::current().id();
        let at = |levels| on_a_stack(levels, || thread::current().id());
        assert_eq!(at(SHALLOW), Some(here));
        assert!(at(SHALLOW + 1).is_some_and(|there| there != here));
        let deep = on_a_stack(SHALLOW + 1, || {
            let large = std::hint::black_box([1u8; 8 << 20]);
            large.iter().map(|&byte| usize::from(byte)).sum::<usize>()
        });
        assert_eq!(deep, Some(8 << 20));
    }

    #[test]
    fn items_are_lent_where_they_lie_so() {
        let numbers = [1u64, 2, 3];
        let bytes = bytes_of(&numbers);
        assert_eq!(items_of::<u64>(bytes), Some(&numbers[..]));
        assert_eq!(items_of::<u64>(&bytes[8..]), Some(&numbers[1..]));
        assert_eq!(items_of::<u64>(&bytes[4..20]), None);
        assert_eq!(items_of::<u64>(&bytes[..20]), None);
        assert_eq!(items_of::<u8>(&bytes[1..2]), Some(&[0][..]));
        assert_eq!(items_of::<u64>(&[]), Some(&[][..]));
    }
}
