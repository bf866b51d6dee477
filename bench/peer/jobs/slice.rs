//! The rows of a range, shared.

use crate::array::{Array, ArrayRef, Fault, Layout, Result};

impl Array {
    /// The rows from `start` up to, but not at, `end`.
    pub fn slice(&self, start: usize, end: usize) -> Result<ArrayRef> {
        if start > end || end > self.len {
            return Err(Fault::OutOfBounds(end));
        }
        Ok(self.with(end - start, self.layout.slice(start, end)?))
    }
}

impl Layout {
    fn slice(&self, start: usize, end: usize) -> Result<Layout> {
        let len = end - start;
        let cut = || self.validity().slice(start, end);
        Ok(match self {
            Layout::Bool { bits, .. } => {
                Layout::Bool { bits: bits.slice(start, end), validity: cut() }
            }
            Layout::Primitive { ptype, values, .. } => {
                let values = values.slice(start * ptype.width(), len * ptype.width());
                Layout::Primitive { ptype: *ptype, values, validity: cut() }
            }
            Layout::Dict { codes, values } => {
                Layout::Dict { codes: codes.slice(start, end)?, values: values.clone() }
            }
            Layout::FixedSizeList { elements, size, .. } => {
                let width = *size as usize;
                let elements = elements.slice(start * width, end * width)?;
                Layout::FixedSizeList { elements, size: *size, validity: cut() }
            }
            Layout::ListView { elements, offsets, sizes, flag, .. } => {
                let (offsets, sizes) = (offsets.slice(start, end)?, sizes.slice(start, end)?);
                let elements = elements.clone();
                Layout::ListView { elements, offsets, sizes, validity: cut(), flag: *flag }
            }
            Layout::VarBinView { views, buffers, .. } => {
                let views = views.slice(start * 16, len * 16);
                Layout::VarBinView { views, buffers: buffers.clone(), validity: cut() }
            }
            Layout::Struct { columns, .. } => {
                let columns = columns.iter().map(|column| column.slice(start, end));
                Layout::Struct { columns: columns.collect::<Result<_>>()?, validity: cut() }
            }
        })
    }
}
