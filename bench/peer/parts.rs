//! Arrays whose parts are shared: in plain layout once more, and with rows that become null.

use super::{
    AT_RANDOM, Bench, Bits, BoolArray, Buffer, Checksum, DType, EMPTY, ListShape, ListViewArray,
    Operation, PrimitiveArray, Refusal, Result, View, list_view, random_bits, random_numbers,
    shared_numbers, text_array,
};
use std::sync::Arc;

#[derive(Clone)]
pub struct ViewArray {
    dtype: DType,
    views: Buffer<View>,
    buffers: Arc<[Buffer<u8>]>,
    validity: Option<Bits>,
}

#[derive(Clone)]
pub struct FixedListArray {
    dtype: DType,
    elements: Array,
    size: u32,
    len: usize,
    validity: Option<Bits>,
}

#[derive(Clone)]
pub struct RecordArray {
    dtype: DType,
    columns: Arc<[Array]>,
    len: usize,
    validity: Option<Bits>,
}

/// An array in plain layout.
#[derive(Clone)]
pub enum Array {
    Numbers(Arc<PrimitiveArray>),
    Bools(Arc<BoolArray>),
    Views(Arc<ViewArray>),
    FixedLists(Arc<FixedListArray>),
    Records(Arc<RecordArray>),
}

/// True where both are.
pub fn both(validity: &Option<Bits>, mask: &Bits) -> Result<Option<Bits>> {
    Ok(Some(match validity {
        Some(valid) => valid.and(mask)?,
        None => mask.clone(),
    }))
}

/// The views of null rows become zeroes.
#[inline(never)]
fn mask_views(views: &[View], mask: &Bits) -> Vec<View> {
    let rows = views.iter().enumerate();
    rows.map(|(i, view)| if mask.value(i) { *view } else { View(0) }).collect()
}

impl PrimitiveArray {
    fn masked(&self, mask: &Bits) -> Result<PrimitiveArray> {
        let validity = both(&self.validity, mask)?;
        Ok(PrimitiveArray { dtype: self.dtype.clone(), numbers: self.numbers.clone(), validity })
    }
}

impl ViewArray {
    fn masked(&self, mask: &Bits) -> Result<ViewArray> {
        let validity = both(&self.validity, mask)?;
        let views = Buffer::new(mask_views(self.views.as_slice(), mask));
        let (dtype, buffers) = (self.dtype.clone(), self.buffers.clone());
        Ok(ViewArray { dtype, views, buffers, validity })
    }
}

impl Array {
    /// The same rows in plain layout: an array of the same parts, those that are arrays made plain.
    #[inline(never)]
    fn to_canonical(&self) -> Array {
        match self {
            Array::Numbers(array) => Array::Numbers(Arc::new(PrimitiveArray::clone(array))),
            Array::Bools(array) => Array::Bools(Arc::new(BoolArray::clone(array))),
            Array::Views(array) => Array::Views(Arc::new(ViewArray::clone(array))),
            Array::FixedLists(array) => {
                let elements = array.elements.to_canonical();
                let (dtype, validity) = (array.dtype.clone(), array.validity.clone());
                let (size, len) = (array.size, array.len);
                Array::FixedLists(Arc::new(FixedListArray { dtype, elements, size, len, validity }))
            }
            Array::Records(array) => {
                let columns = array.columns.iter().map(Array::to_canonical).collect();
                let (dtype, validity) = (array.dtype.clone(), array.validity.clone());
                Array::Records(Arc::new(RecordArray { dtype, columns, len: array.len, validity }))
            }
        }
    }

    /// The same rows, null where the mask is false.
    pub fn masked(&self, mask: &Bits) -> Result<Array> {
        Ok(match self {
            Array::Numbers(array) => Array::Numbers(Arc::new(array.masked(mask)?)),
            Array::Bools(array) => {
                let validity = both(&array.validity, mask)?;
                let (dtype, bits) = (array.dtype.clone(), array.bits.clone());
                Array::Bools(Arc::new(BoolArray { dtype, bits, validity }))
            }
            Array::Views(array) => Array::Views(Arc::new(array.masked(mask)?)),
            Array::FixedLists(array) => {
                let validity = both(&array.validity, mask)?;
                Array::FixedLists(Arc::new(FixedListArray {
                    dtype: array.dtype.clone(),
                    elements: array.elements.clone(),
                    size: array.size,
                    len: array.len,
                    validity,
                }))
            }
            Array::Records(array) => {
                let validity = both(&array.validity, mask)?;
                let (dtype, columns) = (array.dtype.clone(), array.columns.clone());
                Array::Records(Arc::new(RecordArray { dtype, columns, len: array.len, validity }))
            }
        })
    }

    pub fn validity(&self) -> &Option<Bits> {
        match self {
            Array::Numbers(array) => &array.validity,
            Array::Bools(array) => &array.validity,
            Array::Views(array) => &array.validity,
            Array::FixedLists(array) => &array.validity,
            Array::Records(array) => &array.validity,
        }
    }
}

impl Checksum {
    /// The parts of an array but for its validity.
    pub fn with_parts(self, array: &Array) -> Checksum {
        match array {
            Array::Numbers(array) => self.with_numbers(array.numbers()),
            Array::Bools(array) => self.with_bits(&array.bits),
            Array::Views(array) => self.with_views(array.views.as_slice()),
            Array::FixedLists(array) => self.with_parts(&array.elements),
            Array::Records(array) => array.columns.iter().fold(self, Checksum::with_parts),
        }
    }

    pub fn with_validity(self, validity: &Option<Bits>) -> Checksum {
        validity.as_ref().map_or(self, |valid| self.with_bits(valid))
    }
}

/// The plain layout of an array.
struct ToCanonical(Array);

impl Operation for ToCanonical {
    type Made = Array;

    fn run(&mut self) -> Result<Array> {
        Ok(self.0.to_canonical())
    }

    fn checksum(&self, made: Array) -> u64 {
        EMPTY.with_parts(&made).0
    }
}

struct MaskArray {
    array: Array,
    mask: Bits,
}

impl Operation for MaskArray {
    type Made = Array;

    fn run(&mut self) -> Result<Array> {
        self.array.masked(&self.mask)
    }

    fn checksum(&self, made: Array) -> u64 {
        EMPTY.with_parts(&made).with_validity(made.validity()).0
    }
}

struct MaskLists {
    lists: Arc<ListViewArray>,
    mask: Bits,
}

impl Operation for MaskLists {
    type Made = Arc<ListViewArray>;

    fn run(&mut self) -> Result<Arc<ListViewArray>> {
        Ok(Arc::new(ListViewArray {
            dtype: self.lists.dtype.clone(),
            elements: self.lists.elements.clone(),
            offsets: self.lists.offsets.clone(),
            sizes: self.lists.sizes.clone(),
            validity: both(&self.lists.validity, &self.mask)?,
            zero_copy_to_list: self.lists.zero_copy_to_list,
        }))
    }

    fn checksum(&self, made: Arc<ListViewArray>) -> u64 {
        EMPTY.with_list_view(&made).with_validity(&made.validity).0
    }
}

#[derive(Clone)]
struct DictionaryArray {
    dtype: DType,
    codes: Arc<PrimitiveArray>,
    values: Arc<PrimitiveArray>,
}

/// The codes of null rows become null.
struct MaskDictionary {
    array: DictionaryArray,
    mask: Bits,
}

impl Operation for MaskDictionary {
    type Made = Arc<DictionaryArray>;

    fn run(&mut self) -> Result<Arc<DictionaryArray>> {
        let codes = Arc::new(self.array.codes.masked(&self.mask)?);
        let (dtype, values) = (self.array.dtype.clone(), self.array.values.clone());
        Ok(Arc::new(DictionaryArray { dtype, codes, values }))
    }

    fn checksum(&self, made: Arc<DictionaryArray>) -> u64 {
        let parts = EMPTY.with_numbers(made.codes.numbers()).with_numbers(made.values.numbers());
        parts.with_validity(&made.codes.validity).0
    }
}

/// A number, in every row that is not null: a dictionary of it alone, whose codes are all 0.
#[allow(dead_code)]
struct NullableConstant {
    dtype: DType,
    codes: Buffer<u8>,
    number: u32,
    validity: Option<Bits>,
}

struct MaskConstant {
    number: u32,
    rows: usize,
    mask: Bits,
}

impl Operation for MaskConstant {
    type Made = Arc<NullableConstant>;

    fn run(&mut self) -> Result<Arc<NullableConstant>> {
        if self.mask.len != self.rows {
            return Err(Refusal::LengthMismatch);
        }
        let codes = Buffer::new(vec![0; self.rows]);
        let (number, validity) = (self.number, Some(self.mask.clone()));
        Ok(Arc::new(NullableConstant { dtype: DType::Int, codes, number, validity }))
    }

    fn checksum(&self, made: Arc<NullableConstant>) -> u64 {
        let codes = EMPTY.with_bytes(made.codes.as_slice());
        codes.with_words([made.number as u64, 1].into_iter()).with_validity(&made.validity).0
    }
}

// ---- the operations by name ----

pub fn bool_array(bits: Bits) -> Array {
    Array::Bools(Arc::new(BoolArray { dtype: DType::Bool, bits, validity: None }))
}

pub fn number_array(numbers: Vec<u32>) -> Array {
    Array::Numbers(shared_numbers(Buffer::new(numbers)))
}

fn view_array(rows: usize) -> Result<Array> {
    let (buffers, views) = text_array(rows)?;
    let (dtype, buffers) = (DType::Text, buffers.into());
    Ok(Array::Views(Arc::new(ViewArray { dtype, views, buffers, validity: None })))
}

fn fixed_lists(rows: usize) -> Array {
    let dtype = DType::FixedList(Arc::new(DType::Int), 4);
    let elements = number_array(random_numbers(4 * rows, u32::MAX, 1));
    let lists = FixedListArray { dtype, elements, size: 4, len: rows, validity: None };
    Array::FixedLists(Arc::new(lists))
}

fn records(rows: usize) -> Array {
    let fields = [("number".into(), DType::Int), ("truth".into(), DType::Bool)];
    let numbers = number_array(random_numbers(rows, u32::MAX, 6));
    let truths = bool_array(random_bits(rows, 2, 7));
    Array::Records(Arc::new(RecordArray {
        dtype: DType::Record(Arc::new(fields)),
        columns: Arc::new([numbers, truths]),
        len: rows,
        validity: None,
    }))
}

/// Rows none of which is null.
fn array_of(rows: usize, layout: &str) -> Result<Array> {
    Ok(match layout {
        "numbers" => number_array(random_numbers(rows, u32::MAX, 6)),
        "bools" => bool_array(random_bits(rows, 2, 7)),
        "views" => view_array(rows)?,
        "fixed_lists" => fixed_lists(rows),
        "records" => records(rows),
        _ => return Err(Refusal::Usage),
    })
}

pub fn measure_canonical(bench: &Bench, layout: &str) -> Result<()> {
    let array = array_of(bench.rows, layout)?;
    bench.measure_often(ToCanonical(array))
}

/// Rows become null; but of texts and of a constant one in ten is null before.
pub fn measure_mask(bench: &Bench, layout: &str) -> Result<()> {
    let rows = bench.rows;
    let (mask, valid) = (random_bits(rows, 4, 8), random_bits(rows, 10, 3));
    match layout {
        "list_view" => {
            let lists = list_view(rows, ListShape { some_null: true, ..AT_RANDOM })?;
            bench.measure(MaskLists { lists, mask })
        }
        "dictionary" => {
            let codes = Buffer::new(random_numbers(rows, 1000, 9));
            let values = Buffer::new(random_numbers(1000, u32::MAX, 6));
            let codes = Arc::new(shared_numbers(codes).masked(&valid)?);
            let array = DictionaryArray { dtype: DType::Int, codes, values: shared_numbers(values) };
            bench.measure(MaskDictionary { array, mask })
        }
        "constant" => bench.measure(MaskConstant { number: 1_000_003, rows, mask }),
        "views" => bench.measure(MaskArray { array: view_array(rows)?, mask }),
        _ => bench.measure(MaskArray { array: array_of(rows, layout)?.masked(&valid)?, mask }),
    }
}
