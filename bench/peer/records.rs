//! Records: columns under names, that are chosen, added, removed and joined.

use super::parts::{Array, bool_array, number_array};
use super::trees::{concat_bits, concat_numbers};
use super::{
    Bench, Bits, DType, EMPTY, Operation, Refusal, Result, random_bits, random_numbers,
};
use std::sync::Arc;

/// Columns, and the data type, which has their names.
#[derive(Clone)]
#[allow(dead_code)]
struct Records {
    fields: Arc<[(Arc<str>, DType)]>,
    columns: Arc<[Array]>,
    len: usize,
    validity: Option<Bits>,
}

fn dtype_of(array: &Array) -> DType {
    match array {
        Array::Numbers(array) => array.dtype.clone(),
        Array::Bools(array) => array.dtype.clone(),
        _ => DType::Text,
    }
}

fn len_of(array: &Array) -> usize {
    match array {
        Array::Numbers(array) => array.numbers.len,
        Array::Bools(array) => array.bits.len,
        _ => 0,
    }
}

impl Records {
    #[inline(never)]
    fn try_new(
        names: &[Arc<str>],
        columns: Vec<Array>,
        len: usize,
        validity: Option<Bits>,
    ) -> Result<Arc<Records>> {
        let matches = validity.as_ref().is_none_or(|valid| valid.len == len);
        if names.len() != columns.len() || !matches || columns.iter().any(|column| len_of(column) != len) {
            return Err(Refusal::LengthMismatch);
        }
        let fields = names.iter().cloned().zip(columns.iter().map(dtype_of)).collect();
        Ok(Arc::new(Records { fields, columns: columns.into(), len, validity }))
    }

    /// The column of a name: names are compared one after another.
    #[inline(never)]
    fn place_of(&self, name: &str) -> Result<usize> {
        self.fields.iter().position(|(known, _)| **known == *name).ok_or(Refusal::Usage)
    }

    fn with(&self, fields: Vec<(Arc<str>, DType)>, columns: Vec<Array>) -> Arc<Records> {
        let (len, validity) = (self.len, self.validity.clone());
        Arc::new(Records { fields: fields.into(), columns: columns.into(), len, validity })
    }

    #[inline(never)]
    fn project(&self, names: &[Arc<str>]) -> Result<Arc<Records>> {
        let (mut fields, mut columns) = (Vec::new(), Vec::new());
        for name in names {
            let place = self.place_of(name)?;
            fields.push(self.fields[place].clone());
            columns.push(self.columns[place].clone());
        }
        Ok(self.with(fields, columns))
    }

    #[inline(never)]
    fn with_column(&self, name: &str, column: Array) -> Result<Arc<Records>> {
        if len_of(&column) != self.len {
            return Err(Refusal::LengthMismatch);
        }
        let (mut fields, mut columns) = (self.fields.to_vec(), self.columns.to_vec());
        fields.push((name.into(), dtype_of(&column)));
        columns.push(column);
        Ok(self.with(fields, columns))
    }

    #[inline(never)]
    fn remove_column(&self, name: &str) -> Result<(Arc<Records>, Array)> {
        let place = self.place_of(name)?;
        let (mut fields, mut columns) = (self.fields.to_vec(), self.columns.to_vec());
        fields.remove(place);
        let removed = columns.remove(place);
        Ok((self.with(fields, columns), removed))
    }

    /// The same records, none of them null: each column is null where its record was.
    #[inline(never)]
    fn push_validity(&self) -> Result<Arc<Records>> {
        let Some(valid) = &self.validity else {
            return Ok(Arc::new(self.clone()));
        };
        let columns = self.columns.iter().map(|column| column.masked(valid)).collect::<Result<_>>()?;
        let (fields, len) = (self.fields.clone(), self.len);
        Ok(Arc::new(Records { fields, columns, len, validity: None }))
    }

    #[inline(never)]
    fn concat(records: &[Arc<Records>]) -> Result<Arc<Records>> {
        let first = records.first().ok_or(Refusal::Usage)?;
        let places = 0..first.columns.len();
        let columns = places.map(|place| concat_columns(records, place)).collect::<Result<_>>()?;
        let (fields, len) = (first.fields.clone(), records.iter().map(|array| array.len).sum());
        Ok(Arc::new(Records { fields, columns, len, validity: None }))
    }
}

fn concat_columns(records: &[Arc<Records>], place: usize) -> Result<Array> {
    if let Array::Numbers(_) = records[0].columns[place] {
        let mut parts = Vec::with_capacity(records.len());
        for array in records {
            match &array.columns[place] {
                Array::Numbers(numbers) => parts.push(numbers.numbers()),
                _ => return Err(Refusal::Usage),
            }
        }
        return Ok(number_array(concat_numbers(&parts)));
    }
    let mut parts = Vec::with_capacity(records.len());
    for array in records {
        match &array.columns[place] {
            Array::Bools(truths) => parts.push(&truths.bits),
            _ => return Err(Refusal::Usage),
        }
    }
    Ok(bool_array(concat_bits(&parts)))
}

enum Change {
    TryNew(Vec<Arc<str>>, Vec<Array>),
    Project(Vec<Arc<str>>),
    Add(Array),
    Remove,
    Push,
}

struct Changed {
    records: Arc<Records>,
    change: Change,
}

impl Operation for Changed {
    type Made = Arc<Records>;

    fn run(&mut self) -> Result<Arc<Records>> {
        match &self.change {
            Change::TryNew(names, columns) => Records::try_new(names, columns.clone(), self.records.len, None),
            Change::Project(names) => self.records.project(names),
            Change::Add(column) => self.records.with_column("last", column.clone()),
            Change::Remove => Ok(self.records.remove_column("count")?.0),
            Change::Push => self.records.push_validity(),
        }
    }

    fn checksum(&self, made: Arc<Records>) -> u64 {
        made.columns.iter().fold(EMPTY, |sum, column| sum.with_parts(column)).0
    }
}

struct Concat(Vec<Arc<Records>>);

impl Operation for Concat {
    type Made = Arc<Records>;

    fn run(&mut self) -> Result<Arc<Records>> {
        Records::concat(&self.0)
    }

    fn checksum(&self, made: Arc<Records>) -> u64 {
        made.columns.iter().fold(EMPTY, |sum, column| sum.with_parts(column)).0
    }
}

struct ByName {
    records: Arc<Records>,
    wanted: Vec<Arc<str>>,
}

impl Operation for ByName {
    type Made = u64;

    fn run(&mut self) -> Result<u64> {
        let mut rows = 0;
        for name in &self.wanted {
            rows += len_of(&self.records.columns[self.records.place_of(name)?]) as u64;
        }
        Ok(rows)
    }

    fn checksum(&self, made: u64) -> u64 {
        made
    }
}

fn named(names: &[&str]) -> Vec<Arc<str>> {
    names.iter().map(|name| (*name).into()).collect()
}

const NAMES: [&str; 5] = ["number", "truth", "count", "flag", "weight"];

fn five_columns(rows: usize) -> Vec<Array> {
    let numbers = number_array(random_numbers(rows, u32::MAX, 6));
    let truths = bool_array(random_bits(rows, 2, 7));
    vec![numbers.clone(), truths.clone(), numbers.clone(), truths, numbers]
}

fn records_of_five(rows: usize) -> Result<Arc<Records>> {
    Records::try_new(&named(&NAMES), five_columns(rows), rows, None)
}

fn column_name(number: u32) -> Arc<str> {
    format!("column_{:02}", number % 100).into()
}

fn measure_by_name(bench: &Bench) -> Result<()> {
    let number = number_array(random_numbers(1, u32::MAX, 6));
    let names: Vec<Arc<str>> = (0..100).map(column_name).collect();
    let records = Records::try_new(&names, vec![number; 100], 1, None)?;
    let wanted = random_numbers(bench.rows / 10, 100, 9).into_iter().map(column_name).collect();
    bench.measure(ByName { records, wanted })
}

fn measure_push(bench: &Bench) -> Result<()> {
    let rows = bench.rows;
    let valid = random_bits(rows, 10, 12);
    let columns = five_columns(rows).iter().map(|column| column.masked(&valid)).collect::<Result<_>>()?;
    let records = Records::try_new(&named(&NAMES), columns, rows, Some(random_bits(rows, 10, 3)))?;
    bench.measure(Changed { records, change: Change::Push })
}

pub fn measure(bench: &Bench, name: &str) -> Result<()> {
    let rows = bench.rows;
    let change = match name {
        "by_name" => return measure_by_name(bench),
        "push_validity" => return measure_push(bench),
        "concat" => return bench.measure(Concat(vec![records_of_five(rows / 4)?; 4])),
        "try_new" => Change::TryNew(named(&NAMES), five_columns(rows)),
        "project" => Change::Project(named(&["weight", "truth", "number"])),
        "with_column" => Change::Add(bool_array(random_bits(rows, 2, 7))),
        "remove_column" => Change::Remove,
        _ => return Err(Refusal::Usage),
    };
    bench.measure_often(Changed { records: records_of_five(rows)?, change })
}
