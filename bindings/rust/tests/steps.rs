//! Steps by hand: what docs/FROM_C.md and docs/SCRIPT.md tell of them.

use codrask::{run, Bits, Column, Kind, Owned, Part, Rebuild, Step, Stopped, Validity, Writing};

fn shown(owned: &Owned) -> String {
    format!("{owned:?}")
}

fn one(columns: &[Column<'_>], steps: &[Step<'_>]) -> String {
    let made = run(columns, steps, &[columns.len() + steps.len() - 1]).unwrap();
    assert_eq!(made.len(), 1);
    shown(&made[0])
}

fn stopped(columns: &[Column<'_>], steps: &[Step<'_>], wanted: &[usize]) -> Stopped {
    run(columns, steps, wanted).unwrap_err()
}

const ELEMENTS: [i64; 4] = [1, 2, 3, 4];

fn lists() -> Column<'static> {
    let (offsets, sizes): (&[i32], &[i32]) = (&[2, 0, 1], &[2, 1, 2]);
    Column::list_view(&ELEMENTS, offsets, sizes, None)
}

fn records() -> Column<'static> {
    let columns = [
        ("a", Column::from(&[1i32, 2])),
        ("b", Column::utf8(&[0, 1, 3], b"xyz", None)),
    ];
    Column::record(columns, 2, Some(Bits::new(&[0b10], 0, 2)))
}

fn slice(array: usize, start: usize, end: usize) -> Step<'static> {
    Step::Slice { array, start, end }
}

#[test]
fn steps_of_rows_give_their_rows() {
    let (mask, array) = ([0b101], 0);
    let mask = Column::bools(Bits::new(&mask, 0, 3), None);
    let columns = [
        Column::from(&[7u8, 8, 9]),
        mask,
        Column::from(&[2u32, 0, 2]),
    ];
    let of = |step| one(&columns, &[step]);
    assert_eq!(of(slice(0, 1, 3)), "u8, 2 rows: [8, 9]");
    assert_eq!(
        of(Step::Take { array, indices: 2 }),
        "u8, 3 rows: [9, 7, 9]"
    );
    assert_eq!(of(Step::Filter { array, mask: 1 }), "u8, 2 rows: [7, 9]");
    assert_eq!(
        of(Step::Mask { array, mask: 1 }),
        "u8, 3 rows: [7, null, 9]"
    );
    let arrays = &[0, 0];
    assert_eq!(
        of(Step::Concat { arrays }),
        "u8, 6 rows: [7, 8, 9, 7, 8, 9]"
    );
    assert_eq!(of(Step::Narrow { array: 2 }), "u8, 3 rows: [2, 0, 2]");
    let values = Column::utf8(&[0, 1, 2], b"xy", None);
    let named = Column::dictionary(&[1u8, 0], values);
    assert_eq!(
        one(&[named], &[Step::Canonical { array }]),
        "utf8, 2 rows: [\"y\", \"x\"]"
    );
}

#[test]
fn steps_of_lists_give_their_rows() {
    let mode = Rebuild::ZeroCopyToList;
    let cut = [slice(0, 1, 3), Step::Rebuild { array: 1, mode }];
    let made = run(&[lists()], &cut, &[2]).unwrap();
    assert_eq!(shown(&made[0]), "list<i64>, 2 rows: [[1], [2, 3]]");
    let rows = made[0].rows();
    assert_eq!(
        rows.elements().unwrap().numbers::<i64>(),
        Some(&[1, 2, 3][..])
    );
    assert_eq!((rows.list_at(0), rows.list_at(1)), (Some(0..1), Some(1..3)));
    let rebuilt = |mode| {
        run(
            &[lists()],
            &[slice(0, 1, 2), Step::Rebuild { array: 1, mode }],
            &[2],
        )
    };
    let elements = |mode| rebuilt(mode).unwrap()[0].rows().elements().unwrap().len();
    assert_eq!(elements(Rebuild::TrimElements), 1);
    assert_eq!(elements(Rebuild::MakeExact), 1);
    let refused = rebuilt(Rebuild::OverlapCompression).unwrap_err();
    assert_eq!(
        (refused.name(), refused.part()),
        ("NotImplemented", Part::Step(1))
    );
}

#[test]
fn steps_of_records_give_their_rows() {
    let columns = [records(), Column::from(&[5u8, 6])];
    let of = |step| one(&columns, &[step]);
    let array = 0;
    let names = &["b"];
    let told = "{b: utf8}, 2 rows: [null, {b: \"yz\"}]";
    assert_eq!(of(Step::Project { array, names }), told);
    let told = "{a: i32}, 2 rows: [null, {a: 2}]";
    assert_eq!(of(Step::RemoveColumn { array, name: "b" }), told);
    let (name, column) = ("c", 1);
    let told = "{a: i32, b: utf8, c: u8}, 2 rows: [null, {a: 2, b: \"yz\", c: 6}]";
    assert_eq!(
        of(Step::WithColumn {
            array,
            name,
            column
        }),
        told
    );
    let pushed = |remove| of(Step::PushValidity { array, remove });
    let told = "{a: i32, b: utf8}, 2 rows: [{a: null, b: null}, {a: 2, b: \"yz\"}]";
    assert_eq!(pushed(true), told);
    let told = "{a: i32, b: utf8}, 2 rows: [null, {a: 2, b: \"yz\"}]";
    assert_eq!(pushed(false), told);
}

#[test]
fn packed_columns_have_their_rows_and_no_others() {
    let packed = lists().pack().unwrap();
    assert_eq!(shown(&packed), "list<i64>, 3 rows: [[3, 4], [1], [2, 3]]");
    let (rows, again) = (packed.rows(), packed.as_column().pack().unwrap());
    assert_eq!(rows.list_at(2), Some(3..5));
    let elements = rows.elements().unwrap();
    assert_eq!(elements.numbers::<i64>(), Some(&[3, 4, 1, 2, 3][..]));
    assert_eq!(shown(&packed), shown(&again));
    let by_offsets = Writing {
        by_offsets: Some(true),
        ..Writing::default()
    };
    let refused = lists().check().unwrap().into_ffi(&by_offsets).unwrap_err();
    assert_eq!(refused.name(), "NotEndToEnd");
    assert!(packed.rows().into_ffi(&by_offsets).is_ok());

    let cut = run(&[lists()], &[slice(0, 1, 2), Step::Pack { array: 1 }], &[2]).unwrap();
    assert_eq!(cut[0].rows().elements().unwrap().len(), 1);
    let values = Column::utf8(&[0, 1, 2], b"xy", None);
    let named = Column::dictionary(&[1u8, 0], values).pack().unwrap();
    assert_eq!(named.rows().kind(), Kind::Utf8);
    let numbers = Column::numbers(&[7u8, 8], Some(Bits::new(&[0b10], 0, 2)));
    let numbers = numbers.pack().unwrap();
    assert_eq!(numbers.rows().numbers::<u8>(), Some(&[0, 8][..]));
}

#[test]
fn fields_of_records_are_null_where_the_records_are() {
    assert_eq!(
        shown(&records().field("b").unwrap()),
        "utf8, 2 rows: [null, \"yz\"]"
    );
    let column = Column::from(&[1i32, 2]);
    let whole = Column::record([("a", column)], 2, Validity::AllValid);
    let (array, name) = (0, "a");
    let made = run(&[whole], &[Step::Field { array, name }], &[1]).unwrap();
    assert_eq!(shown(&made[0]), "i32, 2 rows: [1, 2]");
    assert!(!made[0].rows().is_null(0));

    let unknown = records().field("c").unwrap_err();
    assert_eq!(
        (unknown.name(), unknown.part()),
        ("UnknownField", Part::Step(0))
    );
    assert_eq!(lists().field("a").unwrap_err().name(), "MismatchedTypes");
    let nowhere = stopped(&[lists()], &[Step::Pack { array: 7 }], &[0]);
    assert_eq!(
        (nowhere.name(), nowhere.part()),
        ("OutOfBounds", Part::Step(0))
    );
}

#[test]
fn what_a_run_gives_may_be_run_again_and_outlives_its_columns() {
    let made = {
        let numbers = [7u16, 8, 9];
        let column = Column::from(&numbers[..]);
        run(&[column], &[slice(0, 1, 3)], &[1, 0]).unwrap()
    };
    assert_eq!(
        (shown(&made[0]), shown(&made[1])),
        (
            "u16, 2 rows: [8, 9]".into(),
            "u16, 3 rows: [7, 8, 9]".into()
        )
    );
    let again = run(
        &[made[0].as_column(), made[1].as_column()],
        &[Step::Concat { arrays: &[0, 1] }],
        &[2],
    )
    .unwrap();
    drop(made);
    assert_eq!(shown(&again[0]), "u16, 5 rows: [8, 9, 7, 8, 9]");
    let kept = again[0].clone();
    drop(again);
    let there = std::thread::spawn(move || shown(&kept)).join().unwrap();
    assert_eq!(there, "u16, 5 rows: [8, 9, 7, 8, 9]");
}

#[test]
fn a_run_asks_for_nothing_or_for_one_array_twice() {
    assert!(run(&[], &[], &[]).unwrap().is_empty());
    let made = run(&[Column::from(&[1u8])], &[], &[0, 0]).unwrap();
    assert_eq!(
        (made.len(), shown(&made[0]), shown(&made[1])),
        (2, shown(&made[1]), "u8, 1 rows: [1]".into())
    );
}

#[test]
fn a_run_is_stopped_at_its_first_fault() {
    let past = stopped(
        &[lists()],
        &[Step::Canonical { array: 0 }, slice(1, 1, 4)],
        &[2],
    );
    assert_eq!(
        (past.name(), past.number(), past.part()),
        ("OutOfBounds", 5, Part::Step(1))
    );
    assert_eq!(past.row(), 4);
    assert_eq!(
        past.to_string(),
        "OutOfBounds (number 5) at step 1, row or position 4"
    );
    let bad = Column::utf8(&[0, 1, 2], b"x\xff", None);
    let bad = Column::record([("a", bad)], 2, None);
    let column = stopped(&[lists(), bad], &[], &[]);
    assert_eq!((column.name(), column.part()), ("NotUtf8", Part::Column(1)));
    assert_eq!((column.node(), column.row()), (1, 1));
    let error: Box<dyn std::error::Error + Send + Sync> = Box::new(past);
    assert!(error.source().is_none());
}

#[test]
fn steps_and_results_that_are_none_are_told() {
    let (array, name) = (0, "c");
    let unknown = stopped(&[records()], &[Step::RemoveColumn { array, name }], &[1]);
    assert_eq!(
        (unknown.name(), unknown.part()),
        ("UnknownField", Part::Step(0))
    );
    let nowhere = stopped(&[lists()], &[], &[0, 1]);
    assert_eq!(
        (nowhere.name(), nowhere.part()),
        ("OutOfBounds", Part::Result(1))
    );
    let many = vec![Step::Canonical { array }; 1025];
    assert_eq!(stopped(&[lists()], &many, &[]).name(), "TooManySteps");
}

#[test]
fn a_run_over_deep_nests_needs_no_large_stack() {
    let mut nest = Column::from(&[7u8]);
    for _ in 0..1300 {
        nest = Column::fixed_size_list(nest, 1, 1, None);
    }
    let small = std::thread::Builder::new().stack_size(256 << 10);
    std::thread::scope(|scope| {
        let cut = || {
            run(&[nest], &[slice(0, 0, 1)], &[1]).unwrap()[0]
                .rows()
                .len()
        };
        assert_eq!(small.spawn_scoped(scope, cut).unwrap().join().unwrap(), 1);
    });
}
