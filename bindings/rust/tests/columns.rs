//! Columns by hand: the rows that docs/LAYOUTS.md and docs/FROM_C.md tell, and one wrong part of
//! each layout, which is refused at its node and row.

use codrask::{Bits, Checked, Column, Kind, Validity};

/// One number in lists of one size, in each other.
fn nest(levels: usize) -> Column<'static> {
    let inner = Column::from(&[7u8]);
    (1..levels).fold(inner, |of, _| Column::fixed_size_list(of, 1, 1, None))
}

/// The name of the first fault, its node, and its row.
fn fault(column: Column<'_>) -> (&'static str, usize, usize) {
    let refused = column.check().unwrap_err();
    (refused.name(), refused.node(), refused.row())
}

fn bits(bytes: &[u8], length: usize) -> Option<Bits<'_>> {
    Some(Bits::new(bytes, 0, length))
}

fn ints(rows: &Checked<'_>) -> Vec<Option<i128>> {
    (0..rows.len()).map(|row| rows.int_at(row)).collect()
}

fn texts<'c>(rows: &Checked<'c>) -> Vec<Option<&'c str>> {
    (0..rows.len()).map(|row| rows.text_at(row)).collect()
}

/// The integers of each list, or null.
fn lists(rows: &Checked<'_>) -> Vec<Option<Vec<i128>>> {
    let elements = rows.elements().expect("lists");
    let list = |row| {
        Some(
            rows.list_at(row)?
                .map(|at| elements.int_at(at).expect("no null"))
                .collect(),
        )
    };
    (0..rows.len()).map(list).collect()
}

const NONE: Validity<'static> = Validity::NonNullable;

#[test]
fn truth_values_lie_from_the_lowest_bit_on() {
    let bytes = [0xac, 0x69];
    let told = [0, 0, 1, 1, 0, 1, 0, 1, 1, 0, 0, 1, 0, 1, 1, 0];
    for offset in 0..16 {
        let column = Column::bools(Bits::new(&bytes, offset, 16 - offset), None);
        let rows = column.check().unwrap();
        let found: Vec<_> = (0..rows.len())
            .map(|row| rows.bool_at(row).map(i32::from))
            .collect();
        assert_eq!(
            found,
            told[offset..]
                .iter()
                .map(|&bit| Some(bit))
                .collect::<Vec<_>>()
        );
    }
    assert_eq!(
        fault(Column::bools(Bits::new(&bytes, 1, 16), None)),
        ("LengthMismatch", 0, 0)
    );
    assert_eq!(
        fault(Column::bools(Bits::new(&bytes, usize::MAX, 16), None)),
        ("Overflow", 0, 0)
    );
    assert_eq!(
        fault(Column::bools(Bits::new(&[], 0, usize::MAX), None)),
        ("LengthMismatch", 0, 0)
    );
}

#[test]
fn numbers_are_lent_by_arrays_slices_and_vectors() {
    let vector: Vec<i16> = vec![7, -8];
    for column in [
        Column::from(&[7i16, -8]),
        Column::from(&vector[..]),
        Column::from(&vector),
        Column::dictionary(&vec![0u8, 1], &vector),
    ] {
        let rows = column.check().unwrap();
        assert_eq!([rows.int_at(0), rows.int_at(1)], [Some(7), Some(-8)]);
    }
}

#[test]
fn rows_are_null_where_the_validity_is_false() {
    let values = [true, false, true, true];
    let byte = [0b1101];
    let rows = Column::bools(Bits::new(&byte, 0, 4), bits(&[0b1011], 4));
    let rows = rows.check().unwrap();
    let found: Vec<_> = (0..4).map(|row| rows.bool_at(row)).collect();
    assert_eq!(
        found,
        [Some(values[0]), Some(values[1]), None, Some(values[3])]
    );
    assert_eq!(
        (rows.null_count(), rows.is_null(2), rows.is_null(3)),
        (1, true, false)
    );
}

#[test]
fn nulls_of_more_rows_than_could_be_walked_are_counted() {
    let many = 1 << 60;
    for (validity, nulls) in [
        (Validity::NonNullable, 0),
        (Validity::AllValid, 0),
        (Validity::AllInvalid, many),
    ] {
        let records = Column::record([], many, validity);
        assert_eq!(records.check().unwrap().null_count(), nulls);
    }
    let codes = Column::numbers(&[0u8, 1], bits(&[0b01], 2));
    let values = Column::numbers(&[7i32, 8], Validity::AllInvalid);
    let rows = Column::dictionary(codes, values);
    assert_eq!(rows.check().unwrap().null_count(), 2);
}

#[test]
fn every_state_of_a_validity_is_read() {
    let numbers = [7i32, 8];
    let states: [(Validity<'_>, [Option<i128>; 2]); 4] = [
        (Validity::NonNullable, [Some(7), Some(8)]),
        (Validity::AllValid, [Some(7), Some(8)]),
        (Validity::AllInvalid, [None, None]),
        (bits(&[0b01], 2).into(), [Some(7), None]),
    ];
    for (validity, told) in states {
        let column = Column::numbers(&numbers, validity);
        assert_eq!(ints(&column.check().unwrap()), told);
    }
}

#[test]
fn a_validity_is_of_plain_truth_values_and_as_long_as_the_rows() {
    let numbers = [7i32, 8];
    let short = Column::numbers(&numbers, bits(&[3], 1));
    assert_eq!(fault(short), ("LengthMismatch", 0, 0));
    let of_numbers = Column::numbers(&numbers, Validity::Column(Column::from(&numbers[..])));
    assert_eq!(fault(of_numbers), ("MismatchedTypes", 0, 0));
    let nullable = Column::bools(Bits::new(&[3], 0, 2), Validity::AllValid);
    let nullable = Column::numbers(&numbers, Validity::Column(nullable));
    assert_eq!(fault(nullable), ("MismatchedTypes", 0, 0));
    let outside = Column::numbers(&numbers, bits(&[], 2));
    assert_eq!(fault(outside), ("LengthMismatch", 1, 0));
}

#[test]
fn a_validity_may_have_any_layout() {
    let (numbers, codes) = ([7i32, 8, 9], [1u8, 0, 1]);
    let mask = Column::dictionary(
        Column::from(&codes[..]),
        Column::bools(Bits::new(&[0b01], 0, 2), None),
    );
    let column = Column::numbers(&numbers, Validity::Column(mask));
    assert_eq!(ints(&column.check().unwrap()), [None, Some(8), None]);
}

#[test]
fn integers_have_eight_types() {
    fn extremes<T: codrask::Number + PartialEq + std::fmt::Debug>(values: &[T], told: [i128; 2]) {
        let column = Column::from(values);
        let rows = column.check().unwrap();
        assert_eq!(
            (rows.kind(), ints(&rows)),
            (T::KIND, told.map(Some).to_vec())
        );
        assert_eq!(rows.numbers::<T>(), Some(values));
    }
    extremes(&[u8::MIN, u8::MAX], [0, 255]);
    extremes(&[u16::MIN, u16::MAX], [0, 65_535]);
    extremes(&[u32::MIN, u32::MAX], [0, 4_294_967_295]);
    extremes(&[u64::MIN, u64::MAX], [0, 18_446_744_073_709_551_615]);
    extremes(&[i8::MIN, i8::MAX], [-128, 127]);
    extremes(&[i16::MIN, i16::MAX], [-32_768, 32_767]);
    extremes(&[i32::MIN, i32::MAX], [-2_147_483_648, 2_147_483_647]);
    extremes(
        &[i64::MIN, i64::MAX],
        [-9_223_372_036_854_775_808, 9_223_372_036_854_775_807],
    );
    let column = Column::from(&[1i32]);
    assert_eq!(column.check().unwrap().numbers::<u32>(), None);
}

#[test]
fn texts_by_offsets_are_read() {
    let bytes = "abca longer textü".as_bytes();
    let column = Column::utf8(&[0, 3, 3, 16, 18], bytes, bits(&[0b1111], 4));
    let told = [Some("abc"), Some(""), Some("a longer text"), Some("ü")];
    assert_eq!(texts(&column.check().unwrap()), told);
    let large = Column::large_utf8(&[3, 16, 18], bytes, None).unwrap();
    assert_eq!(texts(&large.check().unwrap()), told[2..]);
    for offsets in [&[][..], &[0], &[7]] {
        assert!(Column::utf8(offsets, bytes, None)
            .check()
            .unwrap()
            .is_empty());
    }
    let binary = Column::binary(&[0, 2, 17], b"\xff\0abcdefghijklmno", None);
    let rows = binary.check().unwrap();
    assert_eq!(rows.bytes_at(0), Some(&b"\xff\0"[..]));
    assert_eq!(
        (rows.bytes_at(1), rows.text_at(1)),
        (Some(&b"abcdefghijklmno"[..]), None)
    );
    let large = Column::large_binary(&[0, 2], b"\xff\0", None).unwrap();
    assert_eq!(large.check().unwrap().bytes_at(0), Some(&b"\xff\0"[..]));
}

#[test]
fn texts_by_offsets_are_refused_at_their_row() {
    let of = |offsets: &[i32], bytes: &[u8]| fault(Column::utf8(offsets, bytes, None));
    assert_eq!(of(&[0, 3, 16], b"abc\xff longer text"), ("NotUtf8", 0, 1));
    assert_eq!(of(&[0, 1, 2], "ü".as_bytes()), ("NotUtf8", 0, 0));
    assert_eq!(of(&[0, 3, 9], b"abc"), ("BadStart", 0, 1));
    assert_eq!(of(&[0, 2, 9], b"abc"), ("BadEnd", 0, 1));
    assert_eq!(of(&[0, 2, 99], b"abc"), ("BadEnd", 0, 1));
    assert_eq!(of(&[0, 2, 4], b"abc"), ("BadEnd", 0, 1));
    assert_eq!(of(&[4, 4], b"abc"), ("BadStart", 0, 0));
    assert_eq!(of(&[3, 3, 4, 5], b"abc"), ("BadStart", 0, 1));
    assert_eq!(of(&[99, i32::MAX], b"abc"), ("BadStart", 0, 0));
    assert_eq!(of(&[0, 3, 2, 3], b"abc"), ("BadBuffer", 0, 1));
    assert_eq!(of(&[-1, 3], b"abc"), ("BadBuffer", 0, 0));
    assert_eq!(of(&[i32::MIN, i32::MAX], b"abc"), ("BadBuffer", 0, 0));
    let large = |offsets: &[i64]| fault(Column::large_binary(offsets, b"abc", None).unwrap());
    assert_eq!(large(&[0, 1, i64::MAX]), ("BadEnd", 0, 1));
    assert_eq!(large(&[1 << 40, 1 << 41]), ("BadStart", 0, 0));
    assert_eq!(large(&[i64::MIN, i64::MAX]), ("BadBuffer", 0, 0));
    assert_eq!(large(&[0, 1 << 32, 2]), ("BadEnd", 0, 0));
    let null = Column::utf8(&[0, 3, 99], b"abc", bits(&[0b01], 2));
    assert_eq!(texts(&null.check().unwrap()), [Some("abc"), None]);
}

#[test]
fn texts_by_views_are_read_and_refused_at_their_row() {
    let views: [[u8; 16]; 2] = [
        *b"\x03\0\0\0abc\0\0\0\0\0\0\0\0\0",
        *b"\x0d\0\0\0a lo\x01\0\0\0\x02\0\0\0",
    ];
    let numbers = views.map(u128::from_le_bytes);
    let heaps: [&[u8]; 2] = [b"", b"..a longer text"];
    let told = [Some("abc"), Some("a longer text")];
    assert_eq!(
        texts(&Column::utf8_view(&views, &heaps, None).check().unwrap()),
        told
    );
    assert_eq!(
        texts(&Column::utf8_view(&numbers, &heaps, None).check().unwrap()),
        told
    );
    let binary = Column::binary_view(&views, &heaps, None);
    assert_eq!(
        binary.check().unwrap().bytes_at(1),
        Some(&b"a longer text"[..])
    );
    let of = |heaps: &[&[u8]]| fault(Column::utf8_view(&views, heaps, None));
    assert_eq!(of(&heaps[..1]), ("BadBuffer", 0, 1));
    assert_eq!(of(&[b"", b"."]), ("BadStart", 0, 1));
    assert_eq!(of(&[b"", b"..a longer tex"]), ("BadEnd", 0, 1));
    assert_eq!(of(&[b"", b"..b longer text"]), ("BadPrefix", 0, 1));
    assert_eq!(of(&[b"", b"..a longer\xfftext"]), ("NotUtf8", 0, 1));
    let null = Column::utf8_view(&views, &[], bits(&[0b01], 2));
    assert_eq!(texts(&null.check().unwrap()), [Some("abc"), None]);
}

#[test]
fn dictionaries_have_the_values_that_codes_name() {
    let (codes, values) = ([0i32, 7, 2, 7, 1], [0u64, 6, 9]);
    let values = || Column::numbers(&values, bits(&[0b110], 3));
    let column = Column::dictionary(Column::numbers(&codes, bits(&[0b10101], 5)), values());
    let rows = column.check().unwrap();
    assert_eq!(ints(&rows), [None, None, Some(9), None, Some(6)]);
    assert_eq!(
        (rows.kind(), rows.row_kind()),
        (Kind::Dictionary, Kind::U64)
    );
    let (names, named) = rows.dictionary().unwrap();
    assert_eq!(
        (ints(&names)[2], ints(&named)),
        (Some(2), vec![None, Some(6), Some(9)])
    );
    let of = |codes: &[i32]| fault(Column::dictionary(Column::from(codes), values()));
    assert_eq!(of(&[0, 3]), ("OutOfBounds", 0, 3));
    assert_eq!(of(&[0, -1]), ("Negative", 0, 1));
    let texts = Column::dictionary(Column::utf8(&[0, 1], b"0", None), values());
    assert_eq!(fault(texts), ("MismatchedTypes", 0, 0));
    let codes_of_codes = Column::dictionary(Column::from(&[1u8, 0]), Column::from(&[2u8, 1]));
    let nested = Column::dictionary(codes_of_codes, values());
    assert_eq!(ints(&nested.check().unwrap()), [Some(6), Some(9)]);
}

#[test]
fn lists_of_one_size_have_so_many_elements() {
    let elements = [1i32, 2, 3, 4, 5, 6];
    let of = |count, size, length| {
        Column::fixed_size_list(Column::from(&elements[..count]), size, length, None)
    };
    assert_eq!(
        lists(&of(6, 2, 3).check().unwrap()),
        [Some(vec![1, 2]), Some(vec![3, 4]), Some(vec![5, 6])]
    );
    assert_eq!(
        lists(&of(0, 0, 3).check().unwrap()),
        [Some(vec![]), Some(vec![]), Some(vec![])]
    );
    assert_eq!(fault(of(0, u32::MAX, 8_589_934_592)), ("Overflow", 0, 0));
    assert_eq!(fault(of(1, 0, 1)), ("DegenerateElements", 0, 0));
    assert_eq!(fault(of(5, 2, 3)), ("LengthMismatch", 0, 0));
    let null = Column::fixed_size_list(Column::from(&elements[..]), 2, 3, bits(&[0b101], 3));
    assert_eq!(lists(&null.check().unwrap())[1], None);
}

#[test]
fn lists_lie_anywhere_in_their_elements() {
    let elements = [1i64, 2, 3, 4];
    let of = |offsets: &'static [i32], sizes: &'static [i32]| {
        Column::list_view(Column::from(&[1i64, 2, 3, 4]), offsets, sizes, None)
    };
    let rows = of(&[2, 0, 1], &[2, 1, 2]);
    let rows = rows.check().unwrap();
    assert_eq!(
        lists(&rows),
        [Some(vec![3, 4]), Some(vec![1]), Some(vec![2, 3])]
    );
    assert_eq!(
        rows.elements().unwrap().numbers::<i64>(),
        Some(&elements[..])
    );
    assert_eq!(fault(of(&[2, -1, 1], &[2, 1, 2])), ("Negative", 0, 1));
    assert_eq!(fault(of(&[2, 0, 1], &[2, 1, -2])), ("Negative", 0, 2));
    assert_eq!(fault(of(&[2, 3, 1], &[2, 9, 2])), ("OutOfBounds", 0, 12));
    assert_eq!(fault(of(&[2, 0, 1], &[2, 1])), ("LengthMismatch", 0, 0));
    let nullable = Column::numbers(&[0i32], Validity::AllValid);
    let nullable = Column::list_view(Column::from(&elements[..]), nullable, &[1i32], None);
    assert_eq!(fault(nullable), ("MismatchedTypes", 0, 0));
    let sizes = [u64::MAX];
    let vast = Column::list_view(Column::from(&elements[..]), &[1u8], &sizes, None);
    assert_eq!(fault(vast), ("Overflow", 0, 0));
}

#[test]
fn lists_by_offsets_have_sizes() {
    let of = |offsets: &'static [i32]| Column::list(Column::from(&[1i32, 2, 3]), offsets, None);
    let rows = of(&[0, 2, 2, 3]);
    assert_eq!(
        lists(&rows.check().unwrap()),
        [Some(vec![1, 2]), Some(vec![]), Some(vec![3])]
    );
    assert!(of(&[]).check().unwrap().is_empty());
    assert!(of(&[9]).check().unwrap().is_empty());
    assert_eq!(fault(of(&[0, 2, 1, 3])), ("Negative", 0, 1));
    assert_eq!(fault(of(&[-1, 2])), ("Negative", 0, 0));
    assert_eq!(fault(of(&[0, 2, 4])), ("OutOfBounds", 0, 4));
    let large =
        |offsets: &'static [i64]| Column::large_list(Column::from(&[1i32, 2, 3]), offsets, None);
    assert_eq!(lists(&large(&[1, 3]).check().unwrap()), [Some(vec![2, 3])]);
    assert_eq!(
        fault(large(&[0, 1, i64::MAX])),
        ("OutOfBounds", 0, i64::MAX as usize)
    );
    assert_eq!(fault(large(&[i64::MIN, i64::MAX])), ("Negative", 0, 0));
    assert_eq!(fault(large(&[i64::MAX, i64::MIN])), ("Negative", 0, 0));
    let null = Column::list(Column::from(&[1i32]), &[0, 1, 1], bits(&[0b01], 2));
    assert_eq!(lists(&null.check().unwrap()), [Some(vec![1]), None]);
}

#[test]
fn records_have_columns_of_their_length() {
    let (a, b) = ([1i32, 2], [0b01u8]);
    let columns = || {
        [
            ("a", Column::from(&a[..])),
            ("b", Column::bools(Bits::new(&b, 0, 2), None)),
        ]
    };
    let column = Column::record(columns(), 2, bits(&[0b10], 2));
    let rows = column.check().unwrap();
    assert_eq!((rows.record_at(0), rows.record_at(1)), (None, Some(1)));
    assert_eq!(rows.column("a").unwrap().int_at(1), Some(2));
    assert_eq!(rows.column("b").unwrap().bool_at(1), Some(false));
    assert!(rows.column("c").is_none());
    assert_eq!(
        fault(Column::record(columns(), 3, None)),
        ("LengthMismatch", 0, 0)
    );
    let twice = Column::record(
        [("a", Column::from(&a[..])), ("a", Column::from(&[7u8, 8]))],
        2,
        None,
    );
    let rows = twice.check().unwrap();
    assert_eq!(rows.column("a").unwrap().kind(), Kind::I32);
    assert_eq!(rows.columns().len(), 2);
    assert_eq!(Column::record([], 3, None).check().unwrap().len(), 3);
    let inner = Column::record([("x", Column::utf8(&[0, 1], b"\xff", None))], 1, None);
    let nested = Column::record([("y", Column::from(&[1u8])), ("z", inner)], 1, None);
    assert_eq!(fault(nested), ("NotUtf8", 3, 0));
}

#[test]
fn records_in_a_dictionary_are_found_by_their_row() {
    let records = Column::record([("a", Column::from(&[5i32, 6]))], 2, None);
    let column = Column::dictionary(Column::from(&[1u8, 1, 0]), records);
    let rows = column.check().unwrap();
    let a = rows.column("a").unwrap();
    let found: Vec<_> = (0..3)
        .map(|row| a.int_at(rows.record_at(row).unwrap()))
        .collect();
    assert_eq!(found, [Some(6), Some(6), Some(5)]);
}

#[test]
fn what_is_carried_tells_its_format() {
    let days = Column::from(&[19_000u32, 0]);
    let dates = Column::record([("\0tdD", days)], 2, bits(&[0b01], 2));
    let rows = dates.check().unwrap();
    let (format, values) = rows.carried().unwrap();
    assert_eq!(
        (format, values.int_at(rows.record_at(0).unwrap())),
        ("tdD", Some(19_000))
    );
    assert_eq!(format!("{rows:?}"), "tdD, 2 rows: [19000, null]");
    let extension = Column::record([("\0g\0mine\0{}", Column::from(&[1u64]))], 1, None);
    assert_eq!(extension.check().unwrap().carried().unwrap().0, "g");
    let texts = Column::utf8(&[0, 2], b"ab", None);
    let extension = Column::record([("\0\0mine", texts)], 1, None);
    let told = format!("{:?}", extension.check().unwrap());
    assert_eq!(told, r#"utf8, 1 rows: ["ab"]"#);
    let plain = Column::record([("tdD", Column::from(&[1u64]))], 1, None);
    assert!(plain.check().unwrap().carried().is_none());
    assert!(values.carried().is_none());
}

#[test]
fn a_row_of_another_kind_is_none() {
    let column = Column::from(&[1i32]);
    let rows = column.check().unwrap();
    assert_eq!(
        (rows.bool_at(0), rows.text_at(0), rows.bytes_at(0)),
        (None, None, None)
    );
    assert_eq!((rows.list_at(0), rows.record_at(0)), (None, None));
    assert!(rows.elements().is_none() && rows.columns().is_empty() && rows.dictionary().is_none());
}

#[test]
#[should_panic(expected = "row 1 of 1")]
fn a_row_past_the_end_panics() {
    Column::from(&[1i32]).check().unwrap().int_at(1);
}

#[test]
fn a_table_has_at_most_4096_arrays() {
    let none = || Column::from(&[0u8; 0]);
    let of = |count| Column::record((0..count).map(|_| ("x", none())), 0, None);
    assert!(of(4095).check().is_ok());
    assert_eq!(fault(of(4096)), ("TooManyNodes", 0, 0));
}

#[test]
fn a_nest_of_any_depth_is_checked_on_a_small_stack() {
    let check = || {
        for levels in [1, 64, 65, 256, 1000] {
            assert!(nest(levels).check().is_ok());
        }
        let columns = [("deep", nest(4094)), ("flat", Column::from(&[7u8]))];
        let column = Column::record(columns, 1, None);
        let rows = column.check().unwrap();
        assert!(format!("{rows:?}").contains(".."));
        let mut rows = rows.column("deep").unwrap();
        while let Some(elements) = rows.elements() {
            rows = elements;
        }
        assert_eq!(rows.int_at(0), Some(7));
    };
    let small = std::thread::Builder::new().stack_size(256 << 10);
    small.spawn(check).unwrap().join().unwrap();
}

#[test]
fn what_is_refused_says_so_in_words() {
    let refused = Column::list(Column::from(&[1i32]), &[0, -1, 0], NONE)
        .check()
        .unwrap_err();
    assert_eq!(
        refused.to_string(),
        "Negative (number 6) at node 0, row or position 0"
    );
    assert_eq!(
        (refused.number(), refused.format(), refused.column()),
        (6, None, None)
    );
    let error: Box<dyn std::error::Error + Send + Sync> = Box::new(refused);
    assert!(error.source().is_none());
}

#[test]
fn columns_show_their_type_length_and_first_rows() {
    let elements = [1i64, 2, 3, 4];
    let lists = Column::list_view(
        Column::from(&elements[..]),
        &[2i32, 0, 1],
        &[2i32, 1, 2],
        bits(&[0b101], 3),
    );
    assert_eq!(format!("{:?}", lists), "list, 3 rows, not checked");
    assert_eq!(
        format!("{:?}", lists.check().unwrap()),
        "list<i64>, 3 rows: [[3, 4], null, [2, 3]]"
    );
    let long = [9u8; 99];
    let column = Column::from(&long[..]);
    assert_eq!(
        format!("{:?}", column.check().unwrap()),
        "u8, 99 rows: [9, 9, 9, 9, 9, 9, 9, 9, 9, 9, ..]"
    );
    let text = "ü".repeat(99);
    let offsets = [0, text.len() as i32];
    let records = Column::record(
        [("a", Column::utf8(&offsets, text.as_bytes(), None))],
        1,
        None,
    );
    let told = format!("{{a: utf8}}, 1 rows: [{{a: {:?}..}}]", "ü".repeat(40));
    assert_eq!(format!("{:?}", records.check().unwrap()), told);
    let named = Column::dictionary(
        Column::from(&[0u8]),
        Column::binary(&[0, 2], b"\xff\n", None),
    );
    assert_eq!(
        format!("{:?}", named.check().unwrap()),
        "dictionary<u8, binary>, 1 rows: [b\"\\xff\\n\"]"
    );
}

#[test]
fn what_passed_may_be_sent_and_shared() {
    fn may<T: Send + Sync>(_: &T) {}
    let column = Column::from(&[1i32, 2]);
    let rows = column.check().unwrap();
    may(&column);
    may(&rows);
    let sum = std::thread::scope(|scope| {
        let thread = scope.spawn(|| (0..2).filter_map(|row| rows.int_at(row)).sum::<i128>());
        thread.join().unwrap()
    });
    assert_eq!(sum, 3);
}
