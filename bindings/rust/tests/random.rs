//! Random rows, laid out at random, read back, cut by steps, and compared with plain loops over the
//! rows. The rows are made first, and all that stands between them and the columns is written here
//! anew.

use codrask::{from_ffi, run, Bits, Checked, Column, Kind, Reading, Step, Validity, Writing};

/// A row, whatever its layout.
#[derive(Clone, Debug, PartialEq)]
enum Row {
    Null,
    Bool(bool),
    Int(i128),
    Text(String),
    Bytes(Vec<u8>),
    List(Vec<Row>),
    Record(Vec<(String, Row)>),
}

/// What rows are.
#[derive(Clone, Debug)]
enum Type {
    Bool,
    Int(Kind),
    Text,
    Bytes,
    List(Box<Type>),
    Fixed(Box<Type>, usize),
    Record(Vec<Type>),
}

struct Random(u64);

impl Random {
    fn below(&mut self, n: usize) -> usize {
        self.0 = self
            .0
            .wrapping_mul(6_364_136_223_846_793_005)
            .wrapping_add(1_442_695_040_888_963_407);
        (self.0 >> 33) as usize % n
    }

    fn chance(&mut self, one_in: usize) -> bool {
        self.below(one_in) == 0
    }
}

const INTS: [(Kind, i128, i128); 8] = [
    (Kind::U8, 0, u8::MAX as i128),
    (Kind::U16, 0, u16::MAX as i128),
    (Kind::U32, 0, u32::MAX as i128),
    (Kind::U64, 0, u64::MAX as i128),
    (Kind::I8, i8::MIN as i128, i8::MAX as i128),
    (Kind::I16, i16::MIN as i128, i16::MAX as i128),
    (Kind::I32, i32::MIN as i128, i32::MAX as i128),
    (Kind::I64, i64::MIN as i128, i64::MAX as i128),
];

fn some_type(random: &mut Random, depth: usize) -> Type {
    match random.below(if depth < 3 { 7 } else { 4 }) {
        0 => Type::Bool,
        1 => Type::Int(INTS[random.below(8)].0),
        2 => Type::Text,
        3 => Type::Bytes,
        4 => Type::List(Box::new(some_type(random, depth + 1))),
        5 => Type::Fixed(Box::new(some_type(random, depth + 1)), random.below(4)),
        _ => Type::Record(
            (0..random.below(4))
                .map(|_| some_type(random, depth + 1))
                .collect(),
        ),
    }
}

fn some_row(random: &mut Random, of: &Type, nulls: usize) -> Row {
    if nulls > 0 && random.chance(nulls) {
        return Row::Null;
    }
    match of {
        Type::Bool => Row::Bool(random.chance(2)),
        Type::Int(kind) => {
            let (_, least, most) = INTS[*kind as usize - 1];
            Row::Int([least, most, 0, 1, random.below(100) as i128][random.below(5)])
        }
        Type::Text => Row::Text(
            (0..random.below(20))
                .map(|_| ['a', 'ü', '語', 'z'][random.below(4)])
                .collect(),
        ),
        Type::Bytes => Row::Bytes(
            (0..random.below(30))
                .map(|_| random.below(256) as u8)
                .collect(),
        ),
        Type::List(of) => Row::List(
            (0..random.below(4))
                .map(|_| some_row(random, of, nulls))
                .collect(),
        ),
        Type::Fixed(of, size) => {
            Row::List((0..*size).map(|_| some_row(random, of, nulls)).collect())
        }
        Type::Record(of) => {
            let column = |(i, of)| (format!("x{i}"), some_row(random, of, nulls));
            Row::Record(of.iter().enumerate().map(column).collect())
        }
    }
}

/// The parts of a column, whose slices are lent to it, and which rows are null.
struct Stored(Layout, Valid);

/// Texts and byte lists say whether they are texts.
enum Layout {
    Bool(Vec<u8>, usize, usize),
    Int(Numbers),
    Values(bool, Vec<i32>, Vec<u8>),
    Large(bool, Vec<i64>, Vec<u8>),
    Views(bool, Vec<[u8; 16]>, Vec<Vec<u8>>),
    Dictionary(Box<Stored>, Box<Stored>),
    List(Box<Stored>, Vec<i32>),
    LargeList(Box<Stored>, Vec<i64>),
    ListView(Box<Stored>, Box<Stored>, Box<Stored>),
    Fixed(Box<Stored>, u32, usize),
    Record(Vec<(String, Stored)>, usize),
}

enum Valid {
    None,
    All,
    No,
    Bits(Vec<u8>, usize, usize),
    Column(Box<Stored>),
}

enum Numbers {
    U8(Vec<u8>),
    U16(Vec<u16>),
    U32(Vec<u32>),
    U64(Vec<u64>),
    I8(Vec<i8>),
    I16(Vec<i16>),
    I32(Vec<i32>),
    I64(Vec<i64>),
}

impl Numbers {
    fn new(kind: Kind, numbers: impl Iterator<Item = i128>) -> Numbers {
        match kind {
            Kind::U8 => Numbers::U8(numbers.map(|n| n as u8).collect()),
            Kind::U16 => Numbers::U16(numbers.map(|n| n as u16).collect()),
            Kind::U32 => Numbers::U32(numbers.map(|n| n as u32).collect()),
            Kind::U64 => Numbers::U64(numbers.map(|n| n as u64).collect()),
            Kind::I8 => Numbers::I8(numbers.map(|n| n as i8).collect()),
            Kind::I16 => Numbers::I16(numbers.map(|n| n as i16).collect()),
            Kind::I32 => Numbers::I32(numbers.map(|n| n as i32).collect()),
            _ => Numbers::I64(numbers.map(|n| n as i64).collect()),
        }
    }

    fn column<'a>(&'a self, valid: Validity<'a>) -> Column<'a> {
        match self {
            Numbers::U8(numbers) => Column::numbers(numbers, valid),
            Numbers::U16(numbers) => Column::numbers(numbers, valid),
            Numbers::U32(numbers) => Column::numbers(numbers, valid),
            Numbers::U64(numbers) => Column::numbers(numbers, valid),
            Numbers::I8(numbers) => Column::numbers(numbers, valid),
            Numbers::I16(numbers) => Column::numbers(numbers, valid),
            Numbers::I32(numbers) => Column::numbers(numbers, valid),
            Numbers::I64(numbers) => Column::numbers(numbers, valid),
        }
    }
}

impl Valid {
    fn lent(&self) -> Validity<'_> {
        match self {
            Valid::None => Validity::NonNullable,
            Valid::All => Validity::AllValid,
            Valid::No => Validity::AllInvalid,
            Valid::Bits(bytes, offset, length) => Some(Bits::new(bytes, *offset, *length)).into(),
            Valid::Column(column) => Validity::Column(column.column()),
        }
    }
}

impl Stored {
    fn column(&self) -> Column<'_> {
        let valid = self.1.lent();
        match &self.0 {
            Layout::Bool(bytes, offset, n) => Column::bools(Bits::new(bytes, *offset, *n), valid),
            Layout::Int(numbers) => numbers.column(valid),
            Layout::Values(true, offsets, bytes) => Column::utf8(offsets, bytes, valid),
            Layout::Values(_, offsets, bytes) => Column::binary(offsets, bytes, valid),
            Layout::Large(true, at, bytes) => Column::large_utf8(at, bytes, valid).unwrap(),
            Layout::Large(_, at, bytes) => Column::large_binary(at, bytes, valid).unwrap(),
            Layout::Views(text, views, heaps) => {
                let heaps: Vec<_> = heaps.iter().map(Vec::as_slice).collect();
                match text {
                    true => Column::utf8_view(views, &heaps, valid),
                    false => Column::binary_view(views, &heaps, valid),
                }
            }
            Layout::Dictionary(codes, values) => {
                Column::dictionary(codes.column(), values.column())
            }
            Layout::List(of, offsets) => Column::list(of.column(), offsets, valid),
            Layout::LargeList(of, offsets) => Column::large_list(of.column(), offsets, valid),
            Layout::ListView(of, offsets, sizes) => {
                Column::list_view(of.column(), offsets.column(), sizes.column(), valid)
            }
            Layout::Fixed(of, size, n) => Column::fixed_size_list(of.column(), *size, *n, valid),
            Layout::Record(columns, n) => {
                let columns = columns
                    .iter()
                    .map(|(name, of)| (name.as_str(), of.column()));
                Column::record(columns, *n, valid)
            }
        }
    }
}

/// Bits at a random place, with random bits around them.
fn some_bits(random: &mut Random, rows: &[bool]) -> (Vec<u8>, usize) {
    let offset = random.below(20);
    let mut bytes: Vec<u8> = (0..(offset + rows.len()).div_ceil(8) + random.below(2))
        .map(|_| random.below(256) as u8)
        .collect();
    for (i, &row) in rows.iter().enumerate() {
        let (byte, bit) = ((offset + i) / 8, (offset + i) % 8);
        bytes[byte] = bytes[byte] & !(1 << bit) | u8::from(row) << bit;
    }
    (bytes, offset)
}

/// A validity that is null just at the null rows; none where no row may be null.
fn some_validity(random: &mut Random, rows: &[Row], nullable: bool) -> Valid {
    let there: Vec<_> = rows.iter().map(|row| *row != Row::Null).collect();
    match random.below(3) {
        _ if !nullable => Valid::None,
        0 if there.iter().all(|&row| row) => Valid::All,
        0 if !there.iter().any(|&row| row) => Valid::No,
        1 => {
            let codes = Numbers::new(Kind::U8, there.iter().map(|&row| i128::from(row)));
            let codes = Box::new(Stored(Layout::Int(codes), Valid::None));
            let values = Box::new(Stored(Layout::Bool(vec![0b10], 0, 2), Valid::None));
            let mask = Stored(Layout::Dictionary(codes, values), Valid::None);
            Valid::Column(Box::new(mask))
        }
        _ => {
            let (bytes, offset) = some_bits(random, &there);
            Valid::Bits(bytes, offset, rows.len())
        }
    }
}

/// Numbers that are never null, of a random type that has them.
fn some_counts(random: &mut Random, counts: &[usize]) -> Box<Stored> {
    let most = counts.iter().copied().max().unwrap_or(0) as i128;
    let fitting: Vec<_> = INTS.iter().filter(|int| int.2 >= most).collect();
    let kind = fitting[random.below(fitting.len())].0;
    let numbers = Numbers::new(kind, counts.iter().map(|&count| count as i128));
    Box::new(Stored(Layout::Int(numbers), Valid::None))
}

/// Rows in a random layout. Where rows may be null it is a nullable column, else not.
fn some_layout(random: &mut Random, of: &Type, rows: &[Row], nulls: bool, depth: usize) -> Stored {
    if depth < 3 && random.chance(5) {
        return some_dictionary(random, of, rows, nulls, depth);
    }
    let valid = some_validity(random, rows, nulls);
    let layout = match of {
        Type::Bool => {
            let set: Vec<_> = rows.iter().map(|row| *row == Row::Bool(true)).collect();
            let (bytes, offset) = some_bits(random, &set);
            Layout::Bool(bytes, offset, rows.len())
        }
        Type::Int(kind) => {
            let number = |row: &Row| {
                if let Row::Int(number) = row {
                    *number
                } else {
                    1
                }
            };
            Layout::Int(Numbers::new(*kind, rows.iter().map(number)))
        }
        Type::Text => some_values(random, rows, true),
        Type::Bytes => some_values(random, rows, false),
        Type::List(of) => some_lists(random, of, rows, nulls, depth + 1),
        Type::Fixed(of, size) => some_fixed(random, (of, *size), rows, nulls, depth + 1),
        Type::Record(types) => some_records(random, types, rows, nulls, depth + 1),
    };
    Stored(layout, valid)
}

fn some_fixed(
    random: &mut Random,
    (of, size): (&Type, usize),
    rows: &[Row],
    nulls: bool,
    depth: usize,
) -> Layout {
    let mut elements = Vec::new();
    for row in rows {
        match row {
            Row::List(list) => elements.extend(list.iter().cloned()),
            _ => elements.extend((0..size).map(|_| some_row(random, of, 0))),
        }
    }
    let elements = Box::new(some_layout(random, of, &elements, nulls, depth));
    Layout::Fixed(elements, size as u32, rows.len())
}

fn some_records(
    random: &mut Random,
    types: &[Type],
    rows: &[Row],
    nulls: bool,
    depth: usize,
) -> Layout {
    let mut columns = Vec::new();
    for (i, of) in types.iter().enumerate() {
        let field = |row: &Row| match row {
            Row::Record(row) => row[i].1.clone(),
            _ => some_row(random, of, 0),
        };
        let column: Vec<_> = rows.iter().map(field).collect();
        let column = some_layout(random, of, &column, nulls, depth);
        columns.push((format!("x{i}"), column));
    }
    Layout::Record(columns, rows.len())
}

/// Codes for rows, in any order, with values that no code names.
fn some_dictionary(
    random: &mut Random,
    of: &Type,
    rows: &[Row],
    nulls: bool,
    depth: usize,
) -> Stored {
    let mut values: Vec<Row> = (0..random.below(3))
        .map(|_| some_row(random, of, 0))
        .collect();
    let mut codes = Vec::new();
    for row in rows {
        if *row == Row::Null && random.chance(2) {
            codes.push(Row::Null);
            continue;
        }
        let known = values.iter().position(|value| value == row);
        if known.is_none() {
            values.push(row.clone());
        }
        codes.push(Row::Int(known.unwrap_or(values.len() - 1) as i128));
    }
    let kind = Type::Int(INTS[random.below(8)].0);
    let codes = some_layout(random, &kind, &codes, nulls, depth + 1);
    let values = some_layout(random, of, &values, nulls, depth + 1);
    Stored(
        Layout::Dictionary(Box::new(codes), Box::new(values)),
        Valid::None,
    )
}

fn value_of(row: &Row) -> &[u8] {
    match row {
        Row::Text(text) => text.as_bytes(),
        Row::Bytes(bytes) => bytes,
        _ => b"",
    }
}

fn some_values(random: &mut Random, rows: &[Row], text: bool) -> Layout {
    let mut bytes = vec![0xff; random.below(5)];
    let mut offsets = vec![bytes.len()];
    for row in rows {
        bytes.extend(value_of(row));
        offsets.push(bytes.len());
    }
    match random.below(3) {
        0 => Layout::Values(text, offsets.iter().map(|&at| at as i32).collect(), bytes),
        1 => Layout::Large(text, offsets.iter().map(|&at| at as i64).collect(), bytes),
        _ => some_views(random, rows, text),
    }
}

/// Views into several heaps; that of a null row is anything.
fn some_views(random: &mut Random, rows: &[Row], text: bool) -> Layout {
    let mut heaps = vec![Vec::new(); 1 + random.below(3)];
    let view = |row: &Row| {
        let (value, heap) = (value_of(row), random.below(heaps.len()));
        let mut view = [0; 16];
        if *row == Row::Null {
            return [random.below(256) as u8; 16];
        }
        view[..4].copy_from_slice(&(value.len() as u32).to_le_bytes());
        if value.len() <= 12 {
            view[4..4 + value.len()].copy_from_slice(value);
            return view;
        }
        view[4..8].copy_from_slice(&value[..4]);
        view[8..12].copy_from_slice(&(heap as u32).to_le_bytes());
        view[12..].copy_from_slice(&(heaps[heap].len() as u32).to_le_bytes());
        heaps[heap].extend(value);
        view
    };
    let views = rows.iter().map(view).collect();
    Layout::Views(text, views, heaps)
}

/// Lists end to end by offsets, or anywhere, with elements between them.
fn some_lists(random: &mut Random, of: &Type, rows: &[Row], nulls: bool, depth: usize) -> Layout {
    let apart = random.chance(2);
    let mut order: Vec<usize> = (0..rows.len()).collect();
    for i in (1..if apart { order.len() } else { 0 }).rev() {
        order.swap(i, random.below(i + 1));
    }
    let mut elements = vec![some_row(random, of, 0)];
    let (mut starts, mut sizes) = (vec![0; rows.len()], vec![0; rows.len()]);
    for row in order {
        starts[row] = elements.len();
        if let Row::List(list) = &rows[row] {
            sizes[row] = list.len();
            elements.extend(list.iter().cloned());
        }
        let between = if apart { random.below(2) } else { 0 };
        elements.extend((0..between).map(|_| some_row(random, of, 0)));
    }
    let offsets = starts.iter().copied().chain([elements.len()]);
    let offsets: Vec<_> = offsets.map(|at| at as i64).collect();
    elements.extend((0..random.below(2)).map(|_| some_row(random, of, 0)));
    let elements = Box::new(some_layout(random, of, &elements, nulls, depth));
    if apart {
        let (starts, sizes) = (some_counts(random, &starts), some_counts(random, &sizes));
        return Layout::ListView(elements, starts, sizes);
    }
    match random.chance(2) {
        true => Layout::List(elements, offsets.iter().map(|&at| at as i32).collect()),
        false => Layout::LargeList(elements, offsets),
    }
}

/// A row as the column tells it.
fn read_row(rows: &Checked<'_>, row: usize) -> Row {
    if rows.is_null(row) {
        return Row::Null;
    }
    match rows.row_kind() {
        Kind::Bool => Row::Bool(rows.bool_at(row).unwrap()),
        Kind::Utf8 => Row::Text(rows.text_at(row).unwrap().into()),
        Kind::Binary => Row::Bytes(rows.bytes_at(row).unwrap().into()),
        Kind::FixedSizeList | Kind::List => {
            let elements = rows.elements().unwrap();
            Row::List(
                rows.list_at(row)
                    .unwrap()
                    .map(|at| read_row(&elements, at))
                    .collect(),
            )
        }
        Kind::Record => {
            let at = rows.record_at(row).unwrap();
            let column =
                |(name, column): &(&str, Checked<'_>)| (name.to_string(), read_row(column, at));
            Row::Record(rows.columns().iter().map(column).collect())
        }
        _ => Row::Int(rows.int_at(row).unwrap()),
    }
}

fn read(rows: &Checked<'_>) -> Vec<Row> {
    (0..rows.len()).map(|row| read_row(rows, row)).collect()
}

/// Random rows and a layout of them.
fn some_column(random: &mut Random) -> (Vec<Row>, Stored) {
    let of = some_type(random, 0);
    let nulls = random.below(5);
    let rows: Vec<Row> = (0..random.below(30))
        .map(|_| some_row(random, &of, nulls))
        .collect();
    let stored = some_layout(random, &of, &rows, nulls > 0, 0);
    (rows, stored)
}

#[test]
fn random_columns_have_their_rows() {
    let mut random = Random(1);
    for _ in 0..3000 {
        let (rows, stored) = some_column(&mut random);
        let column = stored.column();
        assert_eq!(read(&column.check().unwrap()), rows);
    }
}

#[test]
fn columns_are_checked_and_run_in_several_threads_at_once() {
    let work = |seed| {
        let mut random = Random(seed);
        for _ in 0..300 {
            let (rows, stored) = some_column(&mut random);
            let column = stored.column();
            assert_eq!(read(&column.check().unwrap()), rows);
            let made = run(&[column], &[Step::Canonical { array: 0 }], &[1]).unwrap();
            assert_eq!(read(&made[0].rows()), rows);
        }
    };
    std::thread::scope(|scope| (4..8).for_each(|seed| drop(scope.spawn(move || work(seed)))));
}

/// What is asked of a run: the rows from `start` to `end`, those that are kept, and those that are
/// picked.
struct Asked {
    start: usize,
    end: usize,
    kept: Vec<bool>,
    picked: Vec<u32>,
}

fn some_question(random: &mut Random, n: usize) -> Asked {
    let start = random.below(n + 1);
    let count = if n == 0 { 0 } else { random.below(9) };
    Asked {
        start,
        end: start + random.below(n - start + 1),
        kept: (0..n).map(|_| random.chance(2)).collect(),
        picked: (0..count).map(|_| random.below(n) as u32).collect(),
    }
}

/// What the steps of the test below give, by plain loops.
fn answers(rows: &[Row], asked: &Asked) -> [Vec<Row>; 8] {
    let cut = rows[asked.start..asked.end].to_vec();
    let kept = rows.iter().zip(&asked.kept);
    let filtered = kept
        .clone()
        .filter(|kept| *kept.1)
        .map(|kept| kept.0.clone())
        .collect();
    let masked = kept
        .map(|(row, &kept)| if kept { row.clone() } else { Row::Null })
        .collect();
    let taken: Vec<_> = asked
        .picked
        .iter()
        .map(|&row| rows[row as usize].clone())
        .collect();
    let joined = [rows, &cut, &taken].concat();
    [
        rows.to_vec(),
        cut,
        filtered,
        taken,
        masked,
        joined.clone(),
        rows.to_vec(),
        joined,
    ]
}

#[test]
fn random_columns_are_run_as_plain_loops_say() {
    let mut random = Random(2);
    for _ in 0..1000 {
        let (rows, stored) = some_column(&mut random);
        let asked = some_question(&mut random, rows.len());
        let (bytes, offset) = some_bits(&mut random, &asked.kept);
        let mask = Column::bools(Bits::new(&bytes, offset, rows.len()), None);
        let columns = [stored.column(), mask, Column::from(&asked.picked[..])];
        let (array, start, end) = (0, asked.start, asked.end);
        let steps = [
            Step::Slice { array, start, end },
            Step::Filter { array, mask: 1 },
            Step::Take { array, indices: 2 },
            Step::Mask { array, mask: 1 },
            Step::Concat { arrays: &[0, 3, 5] },
            Step::Canonical { array },
            Step::Pack { array: 7 },
        ];
        let made = run(&columns, &steps, &[0, 3, 4, 5, 6, 7, 8, 9]).unwrap();
        for (made, wanted) in made.iter().zip(answers(&rows, &asked)) {
            assert_eq!(read(&made.rows()), wanted);
        }
    }
}

#[test]
fn random_columns_go_out_and_come_in() {
    let mut random = Random(3);
    let mut crossed = 0;
    for _ in 0..1000 {
        let (rows, stored) = some_column(&mut random);
        let column = stored.column();
        let how = Writing {
            by_offsets: [None, Some(false), Some(true)][random.below(3)],
            ..Writing::default()
        };
        let (array, schema) = match column.check().unwrap().into_ffi(&how) {
            Ok(written) => written,
            // a validity or codes in a dictionary, or lists apart
            Err(refused) => {
                assert!(
                    matches!(refused.name(), "BadArrow" | "NotEndToEnd"),
                    "{refused}"
                );
                continue;
            }
        };
        let foreign = unsafe { from_ffi(array, &schema, &Reading::default()) }.unwrap();
        assert_eq!(read(&foreign.check().unwrap()), rows);
        crossed += 1;
    }
    assert!(crossed > 300, "{crossed}");
}
