//! The structs of Arrow's C Data Interface, and the calls of the library that read and write them.

pub(crate) mod stream;

use std::ffi::{c_char, c_void, CStr};
use std::marker::PhantomData;
use std::{fmt, ptr, slice};

use super::{refused, Fault, Format, Node};
use crate::checked::Checked;
use crate::column::Column;
use crate::data::Reading;
use crate::faults::Refused;

/// Arrow's `ArrowSchema`, laid out as arrow-rs lays it out. It is released when it is dropped.
#[repr(C)]
#[allow(non_camel_case_types)]
pub struct FFI_ArrowSchema {
    format: *const c_char,
    name: *const c_char,
    metadata: *const c_char,
    flags: i64,
    n_children: i64,
    children: *mut *mut FFI_ArrowSchema,
    dictionary: *mut FFI_ArrowSchema,
    release: Option<unsafe extern "C" fn(*mut FFI_ArrowSchema)>,
    private_data: *mut c_void,
}

/// Arrow's `ArrowArray`, laid out as arrow-rs lays it out. It is released when it is dropped. Arrow
/// does not say by which threads an array may be released, so it stays in its own.
#[repr(C)]
#[allow(non_camel_case_types)]
pub struct FFI_ArrowArray {
    length: i64,
    null_count: i64,
    offset: i64,
    n_buffers: i64,
    n_children: i64,
    buffers: *mut *const c_void,
    children: *mut *mut FFI_ArrowArray,
    dictionary: *mut FFI_ArrowArray,
    release: Option<unsafe extern "C" fn(*mut FFI_ArrowArray)>,
    private_data: *mut c_void,
}

impl FFI_ArrowSchema {
    /// A schema that was released: a place for others to write to.
    pub fn empty() -> FFI_ArrowSchema {
        FFI_ArrowSchema {
            format: ptr::null(),
            name: ptr::null(),
            metadata: ptr::null(),
            flags: 0,
            n_children: 0,
            children: ptr::null_mut(),
            dictionary: ptr::null_mut(),
            release: None,
            private_data: ptr::null_mut(),
        }
    }

    /// Takes over the schema at a place, at which one that was released is left.
    ///
    /// # Safety
    ///
    /// The pointer is to an `ArrowSchema` of Arrow's C Data Interface, of this crate or of another
    /// one, that was released or can be, and nobody else uses it during the call.
    pub unsafe fn from_raw(schema: *mut FFI_ArrowSchema) -> FFI_ArrowSchema {
        // SAFETY: the caller says that the place can be read and written to.
        unsafe { ptr::replace(schema, FFI_ArrowSchema::empty()) }
    }

    /// Whether there is nothing to release, or nothing any more.
    pub fn is_released(&self) -> bool {
        self.release.is_none()
    }
}

impl FFI_ArrowArray {
    /// An array that was released: a place for others to write to.
    pub fn empty() -> FFI_ArrowArray {
        FFI_ArrowArray {
            length: 0,
            null_count: 0,
            offset: 0,
            n_buffers: 0,
            n_children: 0,
            buffers: ptr::null_mut(),
            children: ptr::null_mut(),
            dictionary: ptr::null_mut(),
            release: None,
            private_data: ptr::null_mut(),
        }
    }

    /// Takes over the array at a place, at which one that was released is left.
    ///
    /// # Safety
    ///
    /// The pointer is to an `ArrowArray` of Arrow's C Data Interface, of this crate or of another
    /// one, that was released or can be, and nobody else uses it during the call.
    pub unsafe fn from_raw(array: *mut FFI_ArrowArray) -> FFI_ArrowArray {
        // SAFETY: the caller says that the place can be read and written to.
        unsafe { ptr::replace(array, FFI_ArrowArray::empty()) }
    }

    /// Whether there is nothing to release, or nothing any more.
    pub fn is_released(&self) -> bool {
        self.release.is_none()
    }
}

impl Drop for FFI_ArrowSchema {
    fn drop(&mut self) {
        if let Some(release) = self.release {
            // SAFETY: a schema whose release is there has not been released, and now is, once.
            unsafe { release(self) }
        }
    }
}

impl Drop for FFI_ArrowArray {
    fn drop(&mut self) {
        if let Some(release) = self.release {
            // SAFETY: an array whose release is there has not been released, and now is, once.
            unsafe { release(self) }
        }
    }
}

impl fmt::Debug for FFI_ArrowSchema {
    fn fmt(&self, f: &mut fmt::Formatter<'_>) -> fmt::Result {
        f.debug_struct("FFI_ArrowSchema")
            .field("is_released", &self.is_released())
            .finish_non_exhaustive()
    }
}

impl fmt::Debug for FFI_ArrowArray {
    fn fmt(&self, f: &mut fmt::Formatter<'_>) -> fmt::Result {
        f.debug_struct("FFI_ArrowArray")
            .field("length", &self.length)
            .field("is_released", &self.is_released())
            .finish_non_exhaustive()
    }
}

#[repr(C)]
struct RawTable {
    nodes: *mut Node<'static>,
    count: usize,
    memory: *mut c_void,
}

/// How many bytes a call may take; 0 where the library tells.
#[repr(C)]
struct Limits {
    bytes: usize,
}

#[repr(C)]
struct RawReading {
    limits: Limits,
    lengths: *const usize,
    length_count: usize,
    columns: *const *const c_char,
    column_count: usize,
}

/// A fault, and the format and the name of the schema that it is of: null pointers, or good as long
/// as that schema.
#[repr(C)]
struct ArrowFault {
    fault: Fault,
    format: *const c_char,
    name: *const c_char,
}

impl RawTable {
    fn none() -> RawTable {
        RawTable {
            nodes: ptr::null_mut(),
            count: 0,
            memory: ptr::null_mut(),
        }
    }
}

impl ArrowFault {
    fn none() -> ArrowFault {
        ArrowFault {
            fault: Fault::default(),
            format: ptr::null(),
            name: ptr::null(),
        }
    }
}

extern "C" {
    fn codrask_read_arrow_sized(
        schema: *const FFI_ArrowSchema,
        array: *const FFI_ArrowArray,
        how: *const RawReading,
        table: *mut RawTable,
        fault: *mut ArrowFault,
    ) -> u32;
    fn codrask_table_name(table: *const RawTable) -> *const c_char;
    fn codrask_table_formats(table: *const RawTable) -> *const Format;
    fn codrask_table_free(table: *mut RawTable);
    fn codrask_write_passed(
        nodes: *const Node,
        count: usize,
        formats: *const Format,
        flags: u32,
        name: *const c_char,
        limits: *const Limits,
        schema: *mut FFI_ArrowSchema,
        array: *mut FFI_ArrowArray,
        fault: *mut Fault,
    ) -> u32;
}

/// A column that the library read out of buffers that are lent as long as `'a`: whether it is one,
/// nobody has tested.
pub struct Table<'a> {
    raw: RawTable,
    kept: Vec<Vec<u8>>,
    lent: PhantomData<&'a [u8]>,
}

// SAFETY: the nodes are blocks of `malloc` that the table alone has, which any thread may read and
// give back, over buffers that are lent as `&[u8]` or are blocks of the table.
unsafe impl Send for Table<'_> {}
// SAFETY: the same; nothing is written to while the table is there.
unsafe impl Sync for Table<'_> {}

impl<'a> Table<'a> {
    fn of(raw: RawTable) -> Table<'a> {
        Table {
            raw,
            kept: Vec::new(),
            lent: PhantomData,
        }
    }
}

impl Table<'_> {
    pub(crate) fn nodes(&self) -> &[Node<'_>] {
        // SAFETY: the call that made the table wrote so many nodes, over buffers that live longer
        // than `self`, and they are given back with it.
        unsafe { slice::from_raw_parts(self.raw.nodes, self.raw.count) }
    }

    /// The formats with which the nodes came in.
    fn formats(&self) -> &[Format] {
        // SAFETY: the library wrote one for each node, and they are given back with the table.
        unsafe { slice::from_raw_parts(codrask_table_formats(&self.raw), self.raw.count) }
    }

    /// The name of the column, as its schema has it.
    pub fn name(&self) -> &[u8] {
        // SAFETY: the library answers a text that ends at a byte 0 and lives as long as the table.
        unsafe { CStr::from_ptr(codrask_table_name(&self.raw)) }.to_bytes()
    }

    /// The column, over the same buffers.
    pub fn as_column(&self) -> Column<'_> {
        Column::of_nodes(self.nodes(), self.formats())
    }

    /// The rows, where the table is a column.
    pub fn check(&self) -> Result<Checked<'_>, Refused> {
        Checked::of(self.nodes().to_vec(), self.formats().to_vec())
    }
}

impl Drop for Table<'_> {
    fn drop(&mut self) {
        // SAFETY: the call that made the table gave it to us; nothing that is lent of it outlives
        // it.
        unsafe { codrask_table_free(&mut self.raw) }
    }
}

/// A column over the buffers of an Arrow array that was handed over. It is released when this is
/// dropped, in the thread that it came to.
pub struct Foreign {
    table: Table<'static>,
    _array: FFI_ArrowArray,
}

impl Foreign {
    /// The name of the column, as its schema has it.
    pub fn name(&self) -> &[u8] {
        self.table.name()
    }

    /// The column, over the buffers of the array.
    pub fn as_column(&self) -> Column<'_> {
        self.table.as_column()
    }

    /// The rows, where the array is a column.
    pub fn check(&self) -> Result<Checked<'_>, Refused> {
        self.table.check()
    }
}

/// Takes over an Arrow array of another library. It is released when what this gives is dropped,
/// and at once where it is refused. The schema is only read, and may serve for other arrays.
///
/// Refused are structs that are none, nulls that are counted falsely or stand where none may, and
/// more bytes than a limit. Whether it is a column, `check` says.
///
/// # Safety
///
/// Arrow's C structures tell the length of no buffer but those of views, so nothing can test these:
///
/// - Schema and array are structs of Arrow's C Data Interface, and of one column; all their
///   pointers are to what the interface says, with as many children and buffers as they say.
/// - Each buffer is as long as format, length and offset say, and as the last of its offsets.
/// - Until the array is released nobody writes to what its buffers hold, in any thread.
///
/// Whoever knows the lengths of the buffers takes [`from_data`](crate::from_data), which tests
/// them.
///
/// ```
/// use codrask::{from_ffi, Column, Reading, Writing};
///
/// let (array, schema) = Column::from(&[7, 8]).check()?.into_ffi(&Writing::default())?;
/// // SAFETY: the structs are those that this crate wrote.
/// let foreign = unsafe { from_ffi(array, &schema, &Reading::default()) }?;
/// assert_eq!(foreign.check()?.int_at(1), Some(8));
/// # Ok::<(), codrask::Refused>(())
/// ```
pub unsafe fn from_ffi(
    array: FFI_ArrowArray,
    schema: &FFI_ArrowSchema,
    how: &Reading,
) -> Result<Foreign, Refused> {
    // SAFETY: the caller says that the structs are what they say, until the array is released; that
    // is after the table is given back.
    let table = unsafe { read(schema, &array, None, how) }?;
    Ok(Foreign {
        table,
        _array: array,
    })
}

/// Reads a table.
///
/// # Safety
///
/// The structs are what they say, with pointers to what they say. Where lengths are told, each
/// buffer has so many bytes, else as many as its format asks for, as long as `'a`, and nobody
/// writes to them.
unsafe fn read<'a>(
    schema: &FFI_ArrowSchema,
    array: &FFI_ArrowArray,
    lengths: Option<&[usize]>,
    how: &Reading,
) -> Result<Table<'a>, Refused> {
    let (mut table, mut fault) = (Table::of(RawTable::none()), ArrowFault::none());
    // SAFETY: as the caller says; what is read by is there during the call, and table and fault can
    // be written to.
    match with_reading(how, lengths, |how| unsafe {
        codrask_read_arrow_sized(schema, array, how, &mut table.raw, &mut fault)
    })? {
        0 => Ok(table),
        // SAFETY: the two texts are null pointers or good as long as the schema.
        _ => Err(unsafe { refused_field(&fault) }),
    }
}

/// Calls the library with what is asked of a reading, as C takes it.
fn with_reading(
    how: &Reading,
    lengths: Option<&[usize]>,
    call: impl FnOnce(&RawReading) -> u32,
) -> Result<u32, Refused> {
    let names = how.names()?;
    let columns: Vec<_> = names.iter().flatten().map(|name| name.as_ptr()).collect();
    Ok(call(&RawReading {
        limits: Limits {
            bytes: how.most_bytes.unwrap_or(0),
        },
        lengths: lengths.map_or(ptr::null(), <[usize]>::as_ptr),
        length_count: lengths.map_or(0, <[usize]>::len),
        columns: names.as_ref().map_or(ptr::null(), |_| columns.as_ptr()),
        column_count: columns.len(),
    }))
}

/// The refusal of an array.
///
/// # Safety
///
/// Format and name are null pointers, or end at a byte 0.
unsafe fn refused_field(fault: &ArrowFault) -> Refused {
    // SAFETY: as the caller says.
    let text = |text: *const c_char| (!text.is_null()).then(|| unsafe { CStr::from_ptr(text) });
    refused(&fault.fault).of_field(text(fault.format), text(fault.name))
}

/// What a struct of Arrow says beside its parts.
pub(crate) struct Shape {
    pub(crate) format: Vec<u8>,
    pub(crate) name: Vec<u8>,
    pub(crate) nullable: bool,
    pub(crate) length: usize,
    pub(crate) offset: usize,
}

/// A buffer that is lent, or that was made; none is a null pointer.
pub(crate) enum Buffer<'a> {
    None,
    Lent(&'a [u8]),
    Made(Vec<u8>),
}

impl Buffer<'_> {
    fn slice(&self) -> Option<&[u8]> {
        match self {
            Buffer::None => None,
            Buffer::Lent(bytes) => Some(bytes),
            Buffer::Made(bytes) => Some(bytes),
        }
    }
}

/// Arrow's two structs over buffers that are lent, with all that they point to. No vector changes
/// after `new`, so what is pointed to stays where it is.
pub(crate) struct Given<'a> {
    schema: FFI_ArrowSchema,
    array: FFI_ArrowArray,
    shape: Shape,
    buffers: Vec<Buffer<'a>>,
    children: Vec<Given<'a>>,
    dictionary: Vec<Given<'a>>,
    pointers: Vec<*const c_void>,
    schemas: Vec<*mut FFI_ArrowSchema>,
    arrays: Vec<*mut FFI_ArrowArray>,
}

extern "C" fn keep_schema(_: *mut FFI_ArrowSchema) {}

extern "C" fn keep_array(_: *mut FFI_ArrowArray) {}

/// Arrow's flag of a field that may be null.
const NULLABLE: i64 = 2;

impl<'a> Given<'a> {
    /// The structs of an array. Format and name are without a byte 0.
    pub(crate) fn new(
        mut shape: Shape,
        buffers: Vec<Buffer<'a>>,
        children: Vec<Given<'a>>,
        dictionary: Option<Given<'a>>,
    ) -> Given<'a> {
        shape.format.push(0);
        shape.name.push(0);
        let mut given = Given {
            schema: FFI_ArrowSchema::empty(),
            array: FFI_ArrowArray::empty(),
            shape,
            buffers,
            children,
            dictionary: Vec::from_iter(dictionary),
            pointers: Vec::new(),
            schemas: Vec::new(),
            arrays: Vec::new(),
        };
        given.point();
        given
    }

    /// Has the structs point to what they have.
    fn point(&mut self) {
        for buffer in &self.buffers {
            let start = buffer.slice().map_or(ptr::null(), <[u8]>::as_ptr);
            self.pointers.push(start.cast());
        }
        for child in &mut self.children {
            self.schemas.push(&mut child.schema);
            self.arrays.push(&mut child.array);
        }
        let (schema, array) = (&mut self.schema, &mut self.array);
        schema.format = self.shape.format.as_ptr().cast();
        schema.name = self.shape.name.as_ptr().cast();
        schema.flags = if self.shape.nullable { NULLABLE } else { 0 };
        schema.n_children = self.schemas.len() as i64;
        schema.children = self.schemas.as_mut_ptr();
        schema.release = Some(keep_schema);
        array.length = self.shape.length as i64;
        array.null_count = -1;
        array.offset = self.shape.offset as i64;
        array.n_buffers = self.pointers.len() as i64;
        array.n_children = self.arrays.len() as i64;
        array.buffers = self.pointers.as_mut_ptr();
        array.children = self.arrays.as_mut_ptr();
        array.release = Some(keep_array);
        if let Some(values) = self.dictionary.first_mut() {
            schema.dictionary = &mut values.schema;
            array.dictionary = &mut values.array;
        }
    }

    /// The lengths of the buffers: those of the array, of its children, of its dictionary.
    fn lengths(&self, all: &mut Vec<usize>) {
        all.extend(
            self.buffers
                .iter()
                .map(|buffer| buffer.slice().map_or(0, <[u8]>::len)),
        );
        for part in self.children.iter().chain(&self.dictionary) {
            part.lengths(all);
        }
    }

    /// The buffers that were made.
    fn keep(self, kept: &mut Vec<Vec<u8>>) {
        for buffer in self.buffers {
            if let Buffer::Made(bytes) = buffer {
                kept.push(bytes);
            }
        }
        for part in self.children.into_iter().chain(self.dictionary) {
            part.keep(kept);
        }
    }

    /// The table of the column, of which no byte past the end of a buffer is read.
    pub(crate) fn read(self, how: &Reading) -> Result<Table<'a>, Refused> {
        let mut lengths = Vec::new();
        self.lengths(&mut lengths);
        // SAFETY: `new` made the structs, over what `self` has. Each buffer has the length that is
        // told; it is lent as long as `'a`, or kept by the table.
        let mut table = unsafe { read(&self.schema, &self.array, Some(&lengths), how) }?;
        self.keep(&mut table.kept);
        Ok(table)
    }
}

/// Writes nodes that have passed as an Arrow array, in their formats where there are some, one for
/// each. They are not tested again, and written by loops: no nest is too deep for the stack.
pub(crate) fn write(
    (nodes, formats): (&[Node], Option<&[Format]>),
    flags: u32,
    name: &CStr,
    most_bytes: Option<usize>,
) -> Result<(FFI_ArrowArray, FFI_ArrowSchema), Refused> {
    let (mut schema, mut array) = (FFI_ArrowSchema::empty(), FFI_ArrowArray::empty());
    let mut fault = Fault::default();
    let limits = Limits {
        bytes: most_bytes.unwrap_or(0),
    };
    let formats = formats.map_or(ptr::null(), <[Format]>::as_ptr);
    // SAFETY: the nodes have passed, and what is lent cannot have changed since. They, as many
    // formats and the name live during the call; the rest can be written to, and the structs have
    // nothing that would be lost.
    let number = unsafe {
        codrask_write_passed(
            nodes.as_ptr(),
            nodes.len(),
            formats,
            flags,
            name.as_ptr(),
            &limits,
            &mut schema,
            &mut array,
            &mut fault,
        )
    };
    match number {
        0 => Ok((array, schema)),
        _ => Err(refused(&fault)),
    }
}
