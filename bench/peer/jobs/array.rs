//! Arrays: a data type, a length and parts that are shared.

use crate::bits::BitBuffer;
use crate::buffer::Buffer;
use crate::validity::Validity;
use std::sync::Arc;

/// Why parts are refused, with the row where there is one.
#[derive(Debug)]
#[allow(dead_code)]
pub enum Fault {
    Usage,
    LengthMismatch,
    MismatchedTypes,
    DifferingDtypes,
    OutOfBounds(usize),
    Overflow,
    ValueTooLong(usize),
    BadBuffer(usize),
    BadStart(usize),
    BadEnd(usize),
    BadPrefix(usize),
    NotUtf8(usize),
}

pub type Result<T> = std::result::Result<T, Fault>;

/// The types of numbers that the jobs have.
#[derive(Clone, Copy, PartialEq, Eq)]
pub enum PType {
    U8,
    U16,
    U32,
    I16,
    I32,
    I64,
}

impl PType {
    #[inline]
    pub fn width(self) -> usize {
        match self {
            PType::U8 => 1,
            PType::U16 | PType::I16 => 2,
            PType::U32 | PType::I32 => 4,
            PType::I64 => 8,
        }
    }

    pub fn is_unsigned(self) -> bool {
        matches!(self, PType::U8 | PType::U16 | PType::U32)
    }
}

/// The data type of an array; the last part says whether a row may be null.
#[derive(Clone, PartialEq, Eq)]
pub enum DType {
    Bool(bool),
    Primitive(PType, bool),
    Utf8(bool),
    Binary(bool),
    List(Arc<DType>, bool),
    FixedSizeList(Arc<DType>, u32, bool),
    Struct(Fields, bool),
}

/// Names and data types, both shared.
#[derive(Clone, PartialEq, Eq)]
pub struct Fields {
    pub names: Arc<[Arc<str>]>,
    pub dtypes: Arc<[DType]>,
}

impl DType {
    pub fn is_nullable(&self) -> bool {
        match self {
            DType::Bool(nullable)
            | DType::Primitive(_, nullable)
            | DType::Utf8(nullable)
            | DType::Binary(nullable)
            | DType::List(_, nullable)
            | DType::FixedSizeList(_, _, nullable)
            | DType::Struct(_, nullable) => *nullable,
        }
    }

    pub fn or_nullable(mut self, more: bool) -> DType {
        match &mut self {
            DType::Bool(nullable)
            | DType::Primitive(_, nullable)
            | DType::Utf8(nullable)
            | DType::Binary(nullable)
            | DType::List(_, nullable)
            | DType::FixedSizeList(_, _, nullable)
            | DType::Struct(_, nullable) => *nullable |= more,
        }
        self
    }
}

pub type ArrayRef = Arc<Array>;

pub struct Array {
    pub dtype: DType,
    pub len: usize,
    pub layout: Layout,
}

pub enum Layout {
    Bool {
        bits: BitBuffer,
        validity: Validity,
    },
    Primitive {
        ptype: PType,
        values: Buffer,
        validity: Validity,
    },
    Dict {
        codes: ArrayRef,
        values: ArrayRef,
    },
    FixedSizeList {
        elements: ArrayRef,
        size: u32,
        validity: Validity,
    },
    ListView {
        elements: ArrayRef,
        offsets: ArrayRef,
        sizes: ArrayRef,
        validity: Validity,
        flag: bool,
    },
    VarBinView {
        views: Buffer,
        buffers: Arc<[Buffer]>,
        validity: Validity,
    },
    Struct {
        columns: Vec<ArrayRef>,
        validity: Validity,
    },
}

impl Layout {
    /// That of a dictionary is the one of its codes: no job asks one whose values are null.
    pub fn validity(&self) -> &Validity {
        match self {
            Layout::Bool { validity, .. }
            | Layout::Primitive { validity, .. }
            | Layout::FixedSizeList { validity, .. }
            | Layout::ListView { validity, .. }
            | Layout::VarBinView { validity, .. }
            | Layout::Struct { validity, .. } => validity,
            Layout::Dict { codes, .. } => codes.layout.validity(),
        }
    }
}

fn made(dtype: DType, len: usize, layout: Layout) -> ArrayRef {
    Arc::new(Array { dtype, len, layout })
}

impl Array {
    pub fn bools(bits: BitBuffer, validity: Validity) -> Result<ArrayRef> {
        validity.check(bits.len())?;
        Ok(Array::bools_unchecked(bits, validity))
    }

    pub fn bools_unchecked(bits: BitBuffer, validity: Validity) -> ArrayRef {
        made(DType::Bool(validity.is_nullable()), bits.len(), Layout::Bool { bits, validity })
    }

    pub fn primitive(ptype: PType, values: Buffer, validity: Validity) -> Result<ArrayRef> {
        if values.len() % ptype.width() != 0 {
            return Err(Fault::LengthMismatch);
        }
        validity.check(values.len() / ptype.width())?;
        Ok(Array::primitive_unchecked(ptype, values, validity))
    }

    pub fn primitive_unchecked(ptype: PType, values: Buffer, validity: Validity) -> ArrayRef {
        let dtype = DType::Primitive(ptype, validity.is_nullable());
        made(dtype, values.len() / ptype.width(), Layout::Primitive { ptype, values, validity })
    }

    pub fn u32s(values: Vec<u32>) -> ArrayRef {
        Array::primitive_unchecked(PType::U32, Buffer::from_vec(values), Validity::NonNullable)
    }

    pub fn dictionary(codes: ArrayRef, values: ArrayRef) -> ArrayRef {
        let dtype = values.dtype.clone().or_nullable(codes.dtype.is_nullable());
        made(dtype, codes.len, Layout::Dict { codes, values })
    }

    pub fn try_dictionary(codes: ArrayRef, values: ArrayRef) -> Result<ArrayRef> {
        let Layout::Primitive { ptype: PType::U16, values: numbers, .. } = &codes.layout else {
            return Err(Fault::MismatchedTypes);
        };
        let greatest = numbers.typed::<u16>().iter().fold(0, |most, code| most.max(*code));
        if codes.len > 0 && greatest as usize >= values.len {
            return Err(Fault::OutOfBounds(greatest as usize));
        }
        Ok(Array::dictionary(codes, values))
    }

    pub fn fixed_size_list(
        elements: ArrayRef,
        size: u32,
        validity: Validity,
        len: usize,
    ) -> Result<ArrayRef> {
        validity.check(len)?;
        let count = len.checked_mul(size as usize).ok_or(Fault::Overflow)?;
        if count != elements.len {
            return Err(Fault::LengthMismatch);
        }
        let dtype =
            DType::FixedSizeList(Arc::new(elements.dtype.clone()), size, validity.is_nullable());
        Ok(made(dtype, len, Layout::FixedSizeList { elements, size, validity }))
    }

    pub fn list_view(
        elements: ArrayRef,
        offsets: ArrayRef,
        sizes: ArrayRef,
        validity: Validity,
        flag: bool,
    ) -> ArrayRef {
        let dtype = DType::List(Arc::new(elements.dtype.clone()), validity.is_nullable());
        let len = offsets.len;
        made(dtype, len, Layout::ListView { elements, offsets, sizes, validity, flag })
    }

    pub fn try_list_view(
        elements: ArrayRef,
        offsets: ArrayRef,
        sizes: ArrayRef,
        validity: Validity,
    ) -> Result<ArrayRef> {
        validity.check(offsets.len)?;
        if sizes.len != offsets.len {
            return Err(Fault::LengthMismatch);
        }
        let count = elements.len as u64;
        let (starts, lens) = (offsets.u32_values()?, sizes.u32_values()?);
        let ends = starts.iter().zip(lens).map(|(start, len)| *start as u64 + *len as u64);
        if ends.fold(0, u64::max) > count {
            return Err(Fault::OutOfBounds(elements.len));
        }
        Ok(Array::list_view(elements, offsets, sizes, validity, false))
    }

    pub fn views_unchecked(
        views: Buffer,
        buffers: Arc<[Buffer]>,
        dtype: DType,
        validity: Validity,
    ) -> ArrayRef {
        made(dtype, views.len() / 16, Layout::VarBinView { views, buffers, validity })
    }

    pub fn structure(
        names: Arc<[Arc<str>]>,
        columns: Vec<ArrayRef>,
        validity: Validity,
        len: usize,
    ) -> ArrayRef {
        let dtypes = columns.iter().map(|column| column.dtype.clone()).collect();
        let dtype = DType::Struct(Fields { names, dtypes }, validity.is_nullable());
        made(dtype, len, Layout::Struct { columns, validity })
    }

    pub fn try_structure(
        names: Arc<[Arc<str>]>,
        columns: Vec<ArrayRef>,
        validity: Validity,
        len: usize,
    ) -> Result<ArrayRef> {
        if names.len() != columns.len() {
            return Err(Fault::LengthMismatch);
        }
        validity.check(len)?;
        if columns.iter().any(|column| column.len != len) {
            return Err(Fault::LengthMismatch);
        }
        Ok(Array::structure(names, columns, validity, len))
    }

    /// Other parts of the same data type.
    pub fn with(&self, len: usize, layout: Layout) -> ArrayRef {
        made(self.dtype.clone(), len, layout)
    }

    pub fn u32_values(&self) -> Result<&[u32]> {
        match &self.layout {
            Layout::Primitive { ptype: PType::U32, values, .. } => Ok(values.typed()),
            _ => Err(Fault::MismatchedTypes),
        }
    }

    pub fn names(&self) -> Result<&Arc<[Arc<str>]>> {
        match &self.dtype {
            DType::Struct(fields, _) => Ok(&fields.names),
            _ => Err(Fault::MismatchedTypes),
        }
    }

    pub fn columns(&self) -> Result<&[ArrayRef]> {
        match &self.layout {
            Layout::Struct { columns, .. } => Ok(columns),
            _ => Err(Fault::MismatchedTypes),
        }
    }
}
