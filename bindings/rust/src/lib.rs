//! Columns from outside, tested by proved code.
//!
//! A [`Column`] is made of slices that are lent, as Arrow lays them out. Nothing of it is tested
//! but what a slice tells, until [`Column::check`] has the proved code test it at every depth. What
//! passed is a [`Checked`], whose rows can be read; what did not is [`Refused`] with its first
//! fault, by number, array and row. [`run`] runs steps on columns, whose meaning is proved.
//!
//! ```
//! use codrask::Column;
//!
//! let texts = Column::utf8(&[0, 3, 16], b"abca longer text", None);
//! assert_eq!(texts.check()?.text_at(1), Some("a longer text"));
//!
//! let refused = Column::utf8(&[0, 3, 16], b"abc\xff longer text", None).check().unwrap_err();
//! assert_eq!((refused.name(), refused.row()), ("NotUtf8", 1));
//! # Ok::<(), codrask::Refused>(())
//! ```
//!
//! Arrow arrays come in by [`from_data`], which knows the length of each buffer and is safe, or by
//! [`from_ffi`], which believes Arrow's C structures and is not. They go out by
//! [`Checked::into_ffi`]. Streams of them come in by [`from_stream`], and go out by
//! [`into_stream`].
#![deny(unsafe_code, unsafe_op_in_unsafe_fn)]
#![warn(missing_docs)]

mod checked;
mod column;
mod data;
mod faults;
mod offsets;
mod raw;
mod shown;
mod steps;

pub use checked::{Checked, Writing};
pub use column::{Bits, Column, IsView, Kind, Number, Validity};
pub use data::{from_data, Data, Reading};
pub use faults::{Part, Refused, Stopped};
pub use raw::arrow::stream::{from_stream, into_stream, Batches, FFI_ArrowArrayStream};
pub use raw::arrow::{from_ffi, FFI_ArrowArray, FFI_ArrowSchema, Foreign, Table};
pub use steps::{run, Owned, Rebuild, Step};

/// The version of the proved calls.
pub fn version() -> u32 {
    raw::version()
}
