//! Arrow data whose buffers have lengths, as arrow-rs's `ArrayData` has them: a stand-in for it has
//! the calls that the page uses of it.

use codrask::{from_data, Bits, Checked, Column, Data, Kind, Reading, Refused};

/// Of arrow-rs what the page uses, by the same names.
mod arrow {
    use std::sync::Arc;

    #[allow(dead_code)]
    pub struct Field {
        pub name: String,
        pub nullable: bool,
        pub data_type: DataType,
    }

    impl Field {
        pub fn name(&self) -> &String {
            &self.name
        }
        pub fn is_nullable(&self) -> bool {
            self.nullable
        }
    }

    #[allow(dead_code)]
    pub enum DataType {
        Boolean,
        Int8,
        Int32,
        Int64,
        UInt32,
        Utf8,
        LargeUtf8,
        Utf8View,
        Binary,
        FixedSizeList(Arc<Field>, i32),
        List(Arc<Field>),
        LargeList(Arc<Field>),
        Map(Arc<Field>, bool),
        Struct(Vec<Arc<Field>>),
        Dictionary(Box<DataType>, Box<DataType>),
        RunEndEncoded,
    }

    #[allow(non_camel_case_types)]
    pub struct FFI_ArrowSchema(String);

    impl TryFrom<&DataType> for FFI_ArrowSchema {
        type Error = ();

        fn try_from(data_type: &DataType) -> Result<Self, ()> {
            Ok(FFI_ArrowSchema(match data_type {
                DataType::Boolean => "b".into(),
                DataType::Int8 => "c".into(),
                DataType::Int32 => "i".into(),
                DataType::Int64 => "l".into(),
                DataType::UInt32 => "I".into(),
                DataType::Utf8 => "u".into(),
                DataType::LargeUtf8 => "U".into(),
                DataType::Utf8View => "vu".into(),
                DataType::Binary => "z".into(),
                DataType::FixedSizeList(_, size) => format!("+w:{size}"),
                DataType::List(_) => "+l".into(),
                DataType::LargeList(_) => "+L".into(),
                DataType::Map(..) => "+m".into(),
                DataType::Struct(_) => "+s".into(),
                DataType::Dictionary(codes, _) => return FFI_ArrowSchema::try_from(&**codes),
                DataType::RunEndEncoded => "+r".into(),
            }))
        }
    }

    impl FFI_ArrowSchema {
        pub fn format(&self) -> &str {
            &self.0
        }
    }

    pub struct Buffer(pub Vec<u8>);

    impl Buffer {
        pub fn as_slice(&self) -> &[u8] {
            &self.0
        }
    }

    pub struct NullBuffer {
        pub bytes: Vec<u8>,
        pub offset: usize,
        pub len: usize,
    }

    impl NullBuffer {
        pub fn validity(&self) -> &[u8] {
            &self.bytes
        }
        pub fn offset(&self) -> usize {
            self.offset
        }
        pub fn len(&self) -> usize {
            self.len
        }
    }

    pub struct ArrayData {
        pub data_type: DataType,
        pub len: usize,
        pub offset: usize,
        pub nulls: Option<NullBuffer>,
        pub buffers: Vec<Buffer>,
        pub child_data: Vec<ArrayData>,
    }

    impl ArrayData {
        pub fn data_type(&self) -> &DataType {
            &self.data_type
        }
        pub fn len(&self) -> usize {
            self.len
        }
        pub fn offset(&self) -> usize {
            self.offset
        }
        pub fn nulls(&self) -> Option<&NullBuffer> {
            self.nulls.as_ref()
        }
        pub fn buffers(&self) -> &[Buffer] {
            &self.buffers
        }
        pub fn child_data(&self) -> &[ArrayData] {
            &self.child_data
        }
    }
}

use arrow::DataType::{self, *};
use arrow::{ArrayData, Buffer, FFI_ArrowSchema, Field, NullBuffer};
use std::sync::Arc;

struct Lent<'a>(&'a ArrayData);

// as the page has it
#[rustfmt::skip]
impl<'a> Data<'a> for Lent<'a> {
    fn format(&self) -> String { FFI_ArrowSchema::try_from(self.0.data_type()).unwrap().format().to_string() }
    fn length(&self) -> usize { self.0.len() }
    fn offset(&self) -> usize { self.0.offset() }
    fn nulls(&self) -> Option<Bits<'a>> { self.0.nulls().map(|nulls| Bits::new(nulls.validity(), nulls.offset(), nulls.len())) }
    fn buffers(&self) -> Vec<&'a [u8]> { self.0.buffers().iter().map(|buffer| buffer.as_slice()).collect() }
    fn dictionary(&self) -> Option<Self> { matches!(self.0.data_type(), Dictionary(..)).then(|| Lent(&self.0.child_data()[0])) }
    fn children(&self) -> Vec<(&'a str, bool, Self)> {
        let fields = match self.0.data_type() {
            Struct(fields) => fields.iter().collect(),
            List(field) | LargeList(field) | FixedSizeList(field, _) | Map(field, _) => vec![field],
            _ => vec![],
        };
        let children = fields.into_iter().zip(self.0.child_data());
        children.map(|(field, child)| (field.name().as_str(), field.is_nullable(), Lent(child))).collect()
    }
}

// ---- the tests

const ASKED: Reading<'static> = Reading {
    most_bytes: None,
    columns: None,
};

fn data(data_type: DataType, len: usize, buffers: Vec<Vec<u8>>) -> ArrayData {
    ArrayData {
        data_type,
        len,
        offset: 0,
        nulls: None,
        buffers: buffers.into_iter().map(exactly).collect(),
        child_data: Vec::new(),
    }
}

/// A buffer in a block of its length: a byte past its end is none of ours.
fn exactly(mut bytes: Vec<u8>) -> Buffer {
    bytes.shrink_to_fit();
    Buffer(bytes)
}

fn with_children(mut parent: ArrayData, children: Vec<ArrayData>) -> ArrayData {
    parent.child_data = children;
    parent
}

fn with_nulls(mut data: ArrayData, bits: &[u8], offset: usize) -> ArrayData {
    data.nulls = Some(NullBuffer {
        bytes: bits.to_vec(),
        offset,
        len: data.len,
    });
    data
}

fn sliced(mut data: ArrayData, offset: usize, len: usize) -> ArrayData {
    (data.offset, data.len) = (offset, len);
    data
}

fn of_32(numbers: &[i32]) -> Vec<u8> {
    numbers
        .iter()
        .flat_map(|number| number.to_le_bytes())
        .collect()
}

fn of_64(numbers: &[i64]) -> Vec<u8> {
    numbers
        .iter()
        .flat_map(|number| number.to_le_bytes())
        .collect()
}

fn field(name: &str, nullable: bool, data_type: DataType) -> Arc<Field> {
    Arc::new(Field {
        name: name.into(),
        nullable,
        data_type,
    })
}

/// The rows as `Debug` shows them.
fn shown(data: &ArrayData) -> String {
    let table = from_data(&Lent(data), &ASKED).unwrap();
    let shown = format!("{:?}", table.check().unwrap());
    shown
}

fn refused(data: &ArrayData) -> Refused {
    match from_data(&Lent(data), &ASKED) {
        Ok(table) => table.check().unwrap_err(),
        Err(refused) => refused,
    }
}

fn told(data: &ArrayData) -> (&'static str, usize, usize) {
    let refused = refused(data);
    (refused.name(), refused.node(), refused.row())
}

fn texts() -> ArrayData {
    data(
        DataType::Utf8,
        3,
        vec![of_32(&[0, 3, 16, 16]), b"abca longer text".to_vec()],
    )
}

#[test]
fn each_layout_of_values_is_read() {
    let bits = data(Boolean, 3, vec![vec![0b101]]);
    assert_eq!(shown(&bits), "bool, 3 rows: [true, false, true]");
    assert_eq!(
        shown(&data(Int32, 2, vec![of_32(&[-1, 7])])),
        "i32, 2 rows: [-1, 7]"
    );
    assert_eq!(
        shown(&texts()),
        "utf8, 3 rows: [\"abc\", \"a longer text\", \"\"]"
    );
    let large = data(LargeUtf8, 1, vec![of_64(&[1, 3]), b"abc".to_vec()]);
    assert_eq!(shown(&large), "utf8, 1 rows: [\"bc\"]");
    let views = *b"\x03\0\0\0abc\0\0\0\0\0\0\0\0\0\x0d\0\0\0a lo\x01\0\0\0\x02\0\0\0";
    let heaps = [&views[..], b"", b"..a longer text"].map(<[u8]>::to_vec);
    let views = data(Utf8View, 2, heaps.to_vec());
    assert_eq!(shown(&views), "utf8, 2 rows: [\"abc\", \"a longer text\"]");
    let named = Dictionary(Box::new(Int8), Box::new(Utf8));
    let named = with_children(data(named, 2, vec![vec![1, 0]]), vec![texts()]);
    assert_eq!(
        shown(&named),
        "dictionary<i8, utf8>, 2 rows: [\"a longer text\", \"abc\"]"
    );
}

#[test]
fn each_layout_of_arrays_is_read() {
    let item = || field("item", true, Int32);
    let numbers = || vec![data(Int32, 4, vec![of_32(&[1, 2, 3, 4])])];
    let lists = data(List(item()), 2, vec![of_32(&[0, 1, 4])]);
    let lists = with_children(lists, numbers());
    assert_eq!(shown(&lists), "list<i32>, 2 rows: [[1], [2, 3, 4]]");
    let lists = data(LargeList(item()), 1, vec![of_64(&[1, 3])]);
    let lists = with_children(lists, numbers());
    assert_eq!(shown(&lists), "list<i32>, 1 rows: [[2, 3]]");
    let lists = with_children(data(FixedSizeList(item(), 2), 2, vec![]), numbers());
    assert_eq!(
        shown(&lists),
        "fixed_size_list<i32>, 2 rows: [[1, 2], [3, 4]]"
    );
    let fields = vec![field("a", false, Int32), field("b", false, Utf8)];
    let columns = numbers().into_iter().chain([texts()]).collect();
    let records = sliced(
        with_children(data(Struct(fields), 3, vec![]), columns),
        0,
        2,
    );
    let told = "{a: i32, b: utf8}, 2 rows: [{a: 1, b: \"abc\"}, {a: 2, b: \"a longer text\"}]";
    assert_eq!(shown(&records), told);
}

/// Nine bits whose first one stands at `offset`, and nothing else is set.
fn nine_bits(rows: [bool; 9], offset: usize) -> Vec<u8> {
    let mut bytes = vec![0; (offset + 9).div_ceil(8)];
    for (i, row) in rows.into_iter().enumerate() {
        bytes[(offset + i) / 8] |= u8::from(row) << ((offset + i) % 8);
    }
    bytes
}

#[test]
fn nulls_have_an_offset_of_their_own() {
    let rows = [true, false, true, true, false, false, true, true, false];
    let numbers: Vec<i32> = (0..30).collect();
    for offset in 0..20 {
        for of_nulls in 0..20 {
            let part = data(DataType::Int32, 0, vec![of_32(&numbers)]);
            let part = with_nulls(
                sliced(part, offset, 9),
                &nine_bits(rows, of_nulls),
                of_nulls,
            );
            let table = from_data(&Lent(&part), &ASKED).unwrap();
            let read = table.check().unwrap();
            let found: Vec<_> = (0..9).map(|row| read.int_at(row)).collect();
            let wanted = |row: usize| rows[row].then_some((offset + row) as i128);
            assert_eq!(
                found,
                (0..9).map(wanted).collect::<Vec<_>>(),
                "{offset} {of_nulls}"
            );
        }
    }
}

#[test]
fn slices_are_read_from_their_offset_on() {
    assert_eq!(
        shown(&sliced(texts(), 1, 1)),
        "utf8, 1 rows: [\"a longer text\"]"
    );
    let bits = sliced(data(DataType::Boolean, 0, vec![vec![0b0100_0000, 1]]), 6, 3);
    assert_eq!(shown(&bits), "bool, 3 rows: [true, false, true]");
    let fields = vec![field("a", true, DataType::Int32)];
    let numbers = data(DataType::Int32, 3, vec![of_32(&[5, 6, 7])]);
    let records = with_children(data(DataType::Struct(fields), 0, vec![]), vec![numbers]);
    assert_eq!(
        shown(&sliced(records, 1, 2)),
        "{a: i32}, 2 rows: [{a: 6}, {a: 7}]"
    );
}

#[test]
fn a_buffer_that_is_a_byte_too_short_is_refused_at_its_node() {
    let short = |part: ArrayData, buffer: usize| {
        let mut part = part;
        let mut bytes = std::mem::take(&mut part.buffers[buffer].0);
        bytes.pop();
        part.buffers[buffer] = exactly(bytes);
        part
    };
    assert_eq!(
        told(&short(data(DataType::Boolean, 9, vec![vec![1, 1]]), 0)),
        ("ShortBuffer", 0, 1)
    );
    assert_eq!(
        told(&short(data(DataType::Int64, 1, vec![of_64(&[1])]), 0)),
        ("ShortBuffer", 0, 1)
    );
    assert_eq!(told(&short(texts(), 0)), ("ShortBuffer", 0, 1));
    assert_eq!(told(&short(texts(), 1)), ("BadEnd", 0, 1));
    let nine = || data(DataType::Int8, 9, vec![vec![1; 9]]);
    assert_eq!(told(&with_nulls(nine(), &[0xff], 0)), ("ShortBuffer", 0, 0));
    assert_eq!(told(&with_nulls(nine(), &[0xff], 1)), ("ShortBuffer", 0, 0));
    assert_eq!(told(&with_nulls(nine(), &[], 8)), ("ShortBuffer", 0, 0));
    let mut fewer = with_nulls(nine(), &[0xff, 0xff], 0);
    fewer.nulls.as_mut().unwrap().len = 8;
    assert_eq!(told(&fewer), ("ShortBuffer", 0, 0));
    let item = field("item", false, DataType::Int8);
    let lists = || {
        with_children(
            data(DataType::List(item.clone()), 1, vec![of_32(&[0, 9])]),
            vec![nine()],
        )
    };
    assert_eq!(told(&short(lists(), 0)), ("ShortBuffer", 0, 1));
    let mut lists = lists();
    lists.child_data[0].buffers[0].0.pop();
    assert_eq!(told(&lists), ("ShortBuffer", 1, 1));
}

#[test]
fn lies_are_refused_and_read_nothing() {
    let of = |offset, len| {
        told(&sliced(
            data(DataType::Int32, 0, vec![of_32(&[1])]),
            offset,
            len,
        ))
    };
    assert_eq!(of(0, 2), ("ShortBuffer", 0, 1));
    assert_eq!(of(1, 1), ("ShortBuffer", 0, 1));
    assert_eq!(of(0, usize::MAX), ("BadArrow", 0, 0));
    assert_eq!(of(usize::MAX, 1), ("BadArrow", 0, 0));
    assert_eq!(told(&data(DataType::Int32, 1, vec![])), ("BadArrow", 0, 0));
    assert_eq!(
        told(&data(DataType::Utf8, 1, vec![of_32(&[0, 0])])),
        ("BadArrow", 0, 0)
    );
    let numbers = || data(DataType::Int32, 1, vec![of_32(&[1])]);
    assert_eq!(
        told(&with_nulls(sliced(numbers(), 1 << 40, 1), &[1], 0)),
        ("TooManyBytes", 0, 0)
    );
    let fields = vec![field("a", false, DataType::Int32)];
    let records = with_children(
        data(DataType::Struct(fields), 1, vec![]),
        vec![with_nulls(numbers(), &[0], 0)],
    );
    assert_eq!(told(&records), ("UnexpectedNull", 1, 0));
}

#[test]
fn a_nest_past_64_levels_is_refused() {
    let item = |levels| {
        (0..levels).fold(DataType::Int32, |of, _| {
            DataType::FixedSizeList(field("", false, of), 1)
        })
    };
    let mut nest = data(DataType::Int32, 1, vec![of_32(&[1])]);
    for level in 0..300 {
        let list = data(
            DataType::FixedSizeList(field("item", false, item(1)), 1),
            1,
            vec![],
        );
        nest = with_children(list, vec![nest]);
        match level {
            0..=63 => assert!(from_data(&Lent(&nest), &ASKED).is_ok()),
            _ => assert_eq!(told(&nest), ("TooDeep", 65, 0)),
        }
    }
}

#[test]
fn what_is_not_read_tells_its_column_and_others_are_taken_by_name() {
    let numbers = data(DataType::Int32, 1, vec![of_32(&[7])]);
    let runs = data(DataType::RunEndEncoded, 1, vec![]);
    let fields = vec![
        field("runs", false, DataType::RunEndEncoded),
        field("n", false, DataType::Int32),
    ];
    let records = with_children(
        data(DataType::Struct(fields), 1, vec![]),
        vec![runs, numbers],
    );
    let refused = refused(&records);
    assert_eq!((refused.name(), refused.node()), ("BadArrow", 1));
    assert_eq!(
        (refused.column(), refused.format()),
        (Some("runs"), Some("+r"))
    );
    let told =
        "BadArrow (number 64) at node 1, row or position 0, in column \"runs\" of format \"+r\"";
    assert_eq!(refused.to_string(), told);
    let how = |columns| Reading {
        columns: Some(columns),
        ..ASKED
    };
    let table = from_data(&Lent(&records), &how(&["n"])).unwrap();
    assert_eq!(
        format!("{:?}", table.check().unwrap()),
        "{n: i32}, 1 rows: [{n: 7}]"
    );
    let none = from_data(&Lent(&records), &how(&[])).unwrap();
    assert!(none.check().unwrap().columns().is_empty());
    let unknown = from_data(&Lent(&records), &how(&["n", "m"])).unwrap_err();
    assert_eq!((unknown.name(), unknown.row()), ("UnknownField", 1));
    let unknown = from_data(&Lent(&records), &how(&["n\0"])).unwrap_err();
    assert_eq!((unknown.name(), unknown.row()), ("UnknownField", 0));
}

#[test]
fn a_limit_of_bytes_is_the_callers() {
    let numbers = data(DataType::Int8, 100, vec![vec![1; 100]]);
    let most = |bytes| Reading {
        most_bytes: Some(bytes),
        ..ASKED
    };
    assert!(from_data(&Lent(&numbers), &most(100)).is_ok());
    let refused = from_data(&Lent(&numbers), &most(99)).unwrap_err();
    assert_eq!((refused.name(), refused.node()), ("TooManyBytes", 0));
}

#[test]
fn a_table_is_a_column_that_may_be_sent() {
    fn may<T: Send + Sync>(it: T) -> T {
        it
    }
    let texts = texts();
    let table = may(from_data(&Lent(&texts), &ASKED).unwrap());
    let column: Column<'_> = table.as_column();
    let rows: Checked<'_> = column.check().unwrap();
    assert_eq!(
        (rows.kind(), rows.text_at(1), table.name()),
        (Kind::Utf8, Some("a longer text"), &b""[..])
    );
    assert_eq!(format!("{table:?}"), "utf8, 3 rows, not checked");
}

/// The next of some random numbers, below a bound.
fn below(random: &mut u64, bound: u64) -> u64 {
    *random = random
        .wrapping_mul(6_364_136_223_846_793_005)
        .wrapping_add(1_442_695_040_888_963_407);
    (*random >> 33) % bound
}

/// The rows, or the first fault with its node and row.
fn answer(rows: Result<Checked<'_>, Refused>) -> String {
    match rows {
        Ok(rows) => format!("{rows:?}"),
        Err(refused) => refused.to_string(),
    }
}

/// Offsets that mostly lie in order.
fn some_offsets(random: &mut u64) -> Vec<i32> {
    let count = below(random, 6);
    let mut offsets: Vec<i32> = (0..count).map(|_| below(random, 24) as i32).collect();
    offsets.sort();
    if below(random, 2) == 0 {
        let place = below(random, count + 1) as usize;
        offsets.insert(place, below(random, 30) as i32 - 4);
    }
    offsets
}

#[test]
fn texts_are_the_same_by_slices_and_by_data() {
    let mut random = 1;
    let (mut read, mut told) = (0, std::collections::BTreeMap::new());
    for _ in 0..20_000 {
        let offsets = some_offsets(&mut random);
        let large: Vec<i64> = offsets.iter().copied().map(i64::from).collect();
        let mut byte = || {
            if below(&mut random, 90) == 0 {
                0xff
            } else {
                b'a'
            }
        };
        let bytes: Vec<u8> = (0..20).map(|_| byte()).collect();
        let bits = [(below(&mut random, 256) | (below(&mut random, 2) * 0xff)) as u8];
        let len = offsets.len().saturating_sub(1);
        let part = data(Utf8, len, vec![of_32(&offsets), bytes.clone()]);
        let part = with_nulls(part, &bits, 0);
        let table = from_data(&Lent(&part), &ASKED).unwrap();
        let wanted = answer(table.check());
        let nulls = Some(Bits::new(&bits, 0, len));
        let column = Column::utf8(&offsets, &bytes, nulls);
        assert_eq!(answer(column.check()), wanted, "{offsets:?}");
        let column = Column::large_utf8(&large, &bytes, nulls).unwrap();
        assert_eq!(answer(column.check()), wanted, "{offsets:?}");
        match column.check() {
            Ok(_) => read += 1,
            Err(refused) => *told.entry(refused.name()).or_insert(0) += 1,
        }
    }
    assert!(read > 1000 && told.len() == 4, "{read} {told:?}");
    assert!(told.values().all(|&count| count > 100), "{told:?}");
}
