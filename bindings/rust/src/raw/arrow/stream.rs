//! Arrow's C Stream Interface: streams that are taken over and read a batch at a time, and streams
//! of columns that have passed.

use std::ffi::{c_char, c_int, c_void, CStr};
use std::{fmt, mem, ptr};

use super::{
    refused_field, with_reading, ArrowFault, FFI_ArrowArray, FFI_ArrowSchema, Foreign, RawReading,
    RawTable, Table,
};
use crate::checked::{Checked, Writing};
use crate::data::Reading;
use crate::faults::{Refused, Stopped, IN_COLUMN};
use crate::raw::{stopped, RunFault};

/// Arrow's `ArrowArrayStream`, laid out as arrow-rs lays it out. It is released when it is dropped,
/// in the thread that it came to.
#[repr(C)]
#[allow(non_camel_case_types)]
pub struct FFI_ArrowArrayStream {
    get_schema:
        Option<unsafe extern "C" fn(*mut FFI_ArrowArrayStream, *mut FFI_ArrowSchema) -> c_int>,
    get_next: Option<unsafe extern "C" fn(*mut FFI_ArrowArrayStream, *mut FFI_ArrowArray) -> c_int>,
    get_last_error: Option<unsafe extern "C" fn(*mut FFI_ArrowArrayStream) -> *const c_char>,
    release: Option<unsafe extern "C" fn(*mut FFI_ArrowArrayStream)>,
    private_data: *mut c_void,
}

impl FFI_ArrowArrayStream {
    /// A stream that was released: a place for others to write to.
    pub fn empty() -> FFI_ArrowArrayStream {
        FFI_ArrowArrayStream {
            get_schema: None,
            get_next: None,
            get_last_error: None,
            release: None,
            private_data: ptr::null_mut(),
        }
    }

    /// Takes over the stream at a place, at which one that was released is left.
    ///
    /// # Safety
    ///
    /// The pointer is to an `ArrowArrayStream` of Arrow's C Stream Interface, of this crate or of
    /// another one, that was released or can be, and nobody else uses it during the call.
    pub unsafe fn from_raw(stream: *mut FFI_ArrowArrayStream) -> FFI_ArrowArrayStream {
        // SAFETY: the caller says that the place can be read and written to.
        unsafe { ptr::replace(stream, FFI_ArrowArrayStream::empty()) }
    }

    /// Whether there is nothing to release, or nothing any more.
    pub fn is_released(&self) -> bool {
        self.release.is_none()
    }
}

impl Drop for FFI_ArrowArrayStream {
    fn drop(&mut self) {
        if let Some(release) = self.release {
            // SAFETY: a stream whose release is there has not been released, and now is, once.
            unsafe { release(self) }
        }
    }
}

impl fmt::Debug for FFI_ArrowArrayStream {
    fn fmt(&self, f: &mut fmt::Formatter<'_>) -> fmt::Result {
        f.debug_struct("FFI_ArrowArrayStream")
            .field("is_released", &self.is_released())
            .finish_non_exhaustive()
    }
}

/// A stream that is read, as `struct codrask_stream` has it. Each batch is taken out of it at once:
/// so what it has beside is the schema.
#[repr(C)]
struct RawStream {
    stream: *mut FFI_ArrowArrayStream,
    schema: FFI_ArrowSchema,
    array: FFI_ArrowArray,
    table: RawTable,
    batches: usize,
    error: c_int,
    message: *const c_char,
    refused: ArrowFault,
    state: u32,
}

extern "C" {
    fn codrask_next_batch(
        stream: *mut RawStream,
        how: *const RawReading,
        fault: *mut ArrowFault,
    ) -> u32;
    fn codrask_stream_written(
        schemas: *mut FFI_ArrowSchema,
        arrays: *mut FFI_ArrowArray,
        count: usize,
        stream: *mut FFI_ArrowArrayStream,
        fault: *mut RunFault,
    ) -> u32;
}

/// The batches of a stream, each read when it is asked for. After the first that is refused there
/// is none. The schema and the stream are released when this is dropped.
pub struct Batches<'r> {
    raw: RawStream,
    /// Where the stream lies: it does not move while it is read.
    stream: Box<FFI_ArrowArrayStream>,
    how: Reading<'r>,
    is_over: bool,
}

impl Batches<'_> {
    /// What the stream itself answered and said, where it failed: the refusal is `StreamFailed`.
    pub fn error(&self) -> Option<(i32, String)> {
        // SAFETY: the library has a text that ends at a byte 0, good until the stream is given back.
        let message = unsafe { self.raw.message.as_ref().map(|text| CStr::from_ptr(text)) };
        let text = message.unwrap_or_default().to_string_lossy();
        (self.raw.error != 0).then(|| (self.raw.error, text.into_owned()))
    }

    /// Reads the next batch into the raw stream.
    fn read(&mut self) -> Result<(), Refused> {
        let mut fault = ArrowFault::none();
        self.raw.stream = &mut *self.stream;
        let (raw, how) = (&mut self.raw, &self.how);
        // SAFETY: the stream lies where the raw one says; who made this said that it is one. All
        // that is read by is there during the call.
        match with_reading(how, None, |how| unsafe {
            codrask_next_batch(raw, how, &mut fault)
        })? {
            0 => Ok(()),
            // SAFETY: the two texts are null pointers or good as long as the schema, which is kept.
            _ => Err(unsafe { refused_field(&fault) }),
        }
    }

    /// The batch that was read, taken out of the raw stream; none at the end.
    fn take(&mut self) -> Option<Foreign> {
        if self.raw.table.count == 0 {
            return None;
        }
        let raw = mem::replace(&mut self.raw.table, RawTable::none());
        let array = mem::replace(&mut self.raw.array, FFI_ArrowArray::empty());
        Some(Foreign {
            table: Table::of(raw),
            _array: array,
        })
    }
}

impl Iterator for Batches<'_> {
    type Item = Result<Foreign, Refused>;

    fn next(&mut self) -> Option<Result<Foreign, Refused>> {
        if self.is_over {
            return None;
        }
        let batch = match self.read() {
            Ok(()) => self.take().map(Ok),
            Err(refused) => Some(Err(refused)),
        };
        self.is_over = !matches!(batch, Some(Ok(_)));
        batch
    }
}

/// Takes over a stream of another library, and reads a batch at a time. A batch outlives the
/// stream; what nobody takes is released with it.
///
/// # Safety
///
/// The stream is one of Arrow's C Stream Interface, whose callbacks do what it says. What they give
/// is what [`from_ffi`](crate::from_ffi) asks for.
///
/// ```
/// use codrask::{from_stream, into_stream, Column, Reading, Writing};
///
/// let (first, second) = (Column::from(&[7, 8]), Column::from(&[9]));
/// let stream = into_stream(&[first.check()?, second.check()?], &Writing::default())?;
/// // SAFETY: the stream is one that this crate wrote.
/// for batch in unsafe { from_stream(stream, &Reading::default()) } {
///     println!("{:?}", batch?.check()?);
/// }
/// # Ok::<(), Box<dyn std::error::Error>>(())
/// ```
pub unsafe fn from_stream<'r>(stream: FFI_ArrowArrayStream, how: &Reading<'r>) -> Batches<'r> {
    Batches {
        raw: RawStream {
            stream: ptr::null_mut(),
            schema: FFI_ArrowSchema::empty(),
            array: FFI_ArrowArray::empty(),
            table: RawTable::none(),
            batches: 0,
            error: 0,
            message: ptr::null(),
            refused: ArrowFault::none(),
            state: 0,
        },
        stream: Box::new(stream),
        how: *how,
        is_over: false,
    }
}

/// Writes columns as a stream that hands them out one after another, each as
/// [`Checked::into_ffi`] writes it. All are written before this answers, so they need not outlive
/// it. Refused are no columns at all (`EmptyInput`), the first column that is not written, and the
/// first one that has another schema than the first (`DifferingSchemas`).
pub fn into_stream(
    columns: &[Checked<'_>],
    how: &Writing,
) -> Result<FFI_ArrowArrayStream, Stopped> {
    let (mut arrays, mut schemas) = (Vec::new(), Vec::new());
    for (place, column) in columns.iter().enumerate() {
        let written = column.clone().into_ffi(how);
        let (array, schema) = written.map_err(|refused| refused.in_part((IN_COLUMN, place)))?;
        arrays.push(array);
        schemas.push(schema);
    }
    let (mut stream, mut fault) = (FFI_ArrowArrayStream::empty(), RunFault::default());
    // SAFETY: the structs are those that the library wrote, as many of each. What it takes over it
    // marks as released, and where it takes nothing they are given back here.
    let number = unsafe {
        let (schemas, arrays) = (schemas.as_mut_ptr(), arrays.as_mut_ptr());
        codrask_stream_written(schemas, arrays, columns.len(), &mut stream, &mut fault)
    };
    match number {
        0 => Ok(stream),
        _ => Err(stopped(&fault)),
    }
}
