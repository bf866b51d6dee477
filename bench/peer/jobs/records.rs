//! Records whose columns are chosen, added and removed by name.

use crate::array::{Array, ArrayRef, DType, Fault, Fields, Layout, Result};
use crate::validity::Validity;
use std::sync::Arc;

fn fields(array: &Array) -> Result<&Fields> {
    match &array.dtype {
        DType::Struct(fields, _) => Ok(fields),
        _ => Err(Fault::MismatchedTypes),
    }
}

pub fn place_of(array: &Array, name: &str) -> Result<usize> {
    fields(array)?.names.iter().position(|known| **known == *name).ok_or(Fault::Usage)
}

pub fn column<'a>(array: &'a Array, name: &str) -> Result<&'a ArrayRef> {
    Ok(&array.columns()?[place_of(array, name)?])
}

pub fn project(array: &Array, names: &Arc<[Arc<str>]>) -> Result<ArrayRef> {
    let mut columns = Vec::with_capacity(names.len());
    for name in names.iter() {
        columns.push(column(array, name)?.clone());
    }
    Ok(Array::structure(names.clone(), columns, array.layout.validity().clone(), array.len))
}

pub fn with_column(array: &Array, name: &str, column: ArrayRef) -> Result<ArrayRef> {
    if column.len != array.len {
        return Err(Fault::LengthMismatch);
    }
    let names = fields(array)?.names.iter().cloned().chain([Arc::from(name)]).collect();
    let known = array.columns()?;
    let mut columns = Vec::with_capacity(known.len() + 1);
    columns.extend_from_slice(known);
    columns.push(column);
    Ok(Array::structure(names, columns, array.layout.validity().clone(), array.len))
}

pub fn remove_column(array: &Array, name: &str) -> Result<(ArrayRef, ArrayRef)> {
    let place = place_of(array, name)?;
    let mut names = fields(array)?.names.to_vec();
    names.remove(place);
    let mut columns = array.columns()?.to_vec();
    let removed = columns.remove(place);
    Ok((
        Array::structure(names.into(), columns, array.layout.validity().clone(), array.len),
        removed,
    ))
}

/// The same records, none of them null: each column is null where its record was.
pub fn push_validity(array: &Array) -> Result<ArrayRef> {
    let Layout::Struct { columns, validity } = &array.layout else {
        return Err(Fault::MismatchedTypes);
    };
    let columns = match validity {
        Validity::NonNullable | Validity::AllValid => columns.clone(),
        Validity::AllInvalid => return Err(Fault::Usage),
        Validity::Array(bits) => {
            columns.iter().map(|column| column.mask(bits)).collect::<Result<_>>()?
        }
    };
    Ok(Array::structure(array.names()?.clone(), columns, Validity::NonNullable, array.len))
}
