//! Arrow's C structures, handed over and back: read, refused, written, and released exactly once.

use std::ffi::{c_char, c_void, CStr};
use std::sync::atomic::{AtomicUsize, Ordering};
use std::{ptr, slice};

use codrask::{
    from_ffi, run, Bits, Checked, Column, FFI_ArrowArray, FFI_ArrowSchema, Foreign, Reading,
    Refused, Step, Writing,
};

/// Arrow's structs as another library has them.
#[repr(C)]
struct Schema {
    format: *const c_char,
    name: *const c_char,
    metadata: *const c_char,
    flags: i64,
    n_children: i64,
    children: *mut *mut Schema,
    dictionary: *mut Schema,
    release: Option<unsafe extern "C" fn(*mut Schema)>,
    private_data: *mut c_void,
}

#[repr(C)]
struct Array {
    length: i64,
    null_count: i64,
    offset: i64,
    n_buffers: i64,
    n_children: i64,
    buffers: *mut *const c_void,
    children: *mut *mut Array,
    dictionary: *mut Array,
    release: Option<unsafe extern "C" fn(*mut Array)>,
    private_data: *mut c_void,
}

unsafe extern "C" fn release_schema(schema: *mut Schema) {
    (*schema).release = None;
    (*(*schema).private_data.cast::<AtomicUsize>()).fetch_add(1, Ordering::Relaxed);
}

unsafe extern "C" fn release_array(array: *mut Array) {
    (*array).release = None;
    (*(*array).private_data.cast::<AtomicUsize>()).fetch_add(1, Ordering::Relaxed);
}

/// A column of another library, and how often it was released.
struct Theirs {
    buffers: Vec<*const c_void>,
    released: AtomicUsize,
    format: &'static CStr,
    flags: i64,
    length: i64,
}

impl Theirs {
    fn new(format: &'static CStr, flags: i64, length: i64, buffers: Vec<*const c_void>) -> Theirs {
        Theirs {
            buffers,
            released: AtomicUsize::new(0),
            format,
            flags,
            length,
        }
    }

    fn released(&self) -> usize {
        self.released.load(Ordering::Relaxed)
    }

    fn give(&mut self) -> (FFI_ArrowArray, FFI_ArrowSchema) {
        let counter: *mut c_void = ptr::from_mut(&mut self.released).cast();
        let mut schema = Schema {
            format: self.format.as_ptr(),
            name: c"theirs".as_ptr(),
            metadata: ptr::null(),
            flags: self.flags,
            n_children: 0,
            children: ptr::null_mut(),
            dictionary: ptr::null_mut(),
            release: Some(release_schema),
            private_data: counter,
        };
        let mut array = Array {
            length: self.length,
            null_count: -1,
            offset: 0,
            n_buffers: self.buffers.len() as i64,
            n_children: 0,
            buffers: self.buffers.as_mut_ptr(),
            children: ptr::null_mut(),
            dictionary: ptr::null_mut(),
            release: Some(release_array),
            private_data: counter,
        };
        let given = unsafe {
            (
                FFI_ArrowArray::from_raw(ptr::from_mut(&mut array).cast()),
                FFI_ArrowSchema::from_raw(ptr::from_mut(&mut schema).cast()),
            )
        };
        assert!(
            array.release.is_none() && schema.release.is_none(),
            "the structs were moved out"
        );
        given
    }
}

/// What crossed, as another library sees it.
fn seen(array: &FFI_ArrowArray, schema: &FFI_ArrowSchema) -> (String, String, i64, i64) {
    let (schema, array): (&Schema, &Array) = unsafe {
        (
            &*ptr::from_ref(schema).cast(),
            &*ptr::from_ref(array).cast(),
        )
    };
    let text = |text| {
        unsafe { CStr::from_ptr(text) }
            .to_str()
            .unwrap()
            .to_string()
    };
    (
        text(schema.format),
        text(schema.name),
        array.length,
        array.n_buffers,
    )
}

fn read(array: FFI_ArrowArray, schema: &FFI_ArrowSchema) -> Result<Foreign, Refused> {
    unsafe { from_ffi(array, schema, &Reading::default()) }
}

/// A column that goes out, comes in again, and is shown.
fn there_and_back(column: &Column<'_>, how: &Writing) -> ((String, String, i64, i64), String) {
    let (array, schema) = column.check().unwrap().into_ffi(how).unwrap();
    let written = seen(&array, &schema);
    let foreign = read(array, &schema).unwrap();
    let name = String::from_utf8(foreign.name().to_vec()).unwrap();
    assert_eq!(name, how.name);
    (written, format!("{:?}", foreign.check().unwrap()))
}

#[test]
fn an_array_is_read_where_it_lies_and_released_once() {
    let (offsets, bytes) = ([0i32, 3, 16], b"abca longer text");
    let mut theirs = Theirs::new(
        c"u",
        0,
        2,
        vec![ptr::null(), offsets.as_ptr().cast(), bytes.as_ptr().cast()],
    );
    let (array, schema) = theirs.give();
    assert!(!array.is_released());
    let foreign = read(array, &schema).unwrap();
    drop(schema);
    assert_eq!(theirs.released(), 1, "the schema alone");
    assert_eq!(foreign.name(), b"theirs");
    let column = foreign.as_column();
    let rows = column.check().unwrap();
    assert_eq!(
        (rows.text_at(0), rows.text_at(1)),
        (Some("abc"), Some("a longer text"))
    );
    assert_eq!(format!("{foreign:?}"), "utf8, 2 rows, not checked");
    assert_eq!(theirs.released(), 1);
    drop(foreign);
    assert_eq!(theirs.released(), 2);
}

#[test]
fn what_is_read_is_lent_and_not_copied() {
    let numbers = [1i64, 2, 3];
    let mut theirs = Theirs::new(c"l", 0, 3, vec![ptr::null(), numbers.as_ptr().cast()]);
    let (array, schema) = theirs.give();
    let foreign = read(array, &schema).unwrap();
    let rows = foreign.check().unwrap();
    assert_eq!(rows.numbers::<i64>().unwrap().as_ptr(), numbers.as_ptr());
}

#[test]
fn an_array_that_is_refused_is_released_at_once() {
    let numbers = [1i32, 2];
    let bits = [1u8];
    let mut runs = Theirs::new(c"+r", 0, 2, vec![]);
    let (array, schema) = runs.give();
    let refused = read(array, &schema).unwrap_err();
    assert_eq!(runs.released(), 1);
    assert_eq!(
        (refused.name(), refused.format(), refused.column()),
        ("BadArrow", Some("+r"), Some("theirs"))
    );
    let mut nulls = Theirs::new(
        c"i",
        0,
        2,
        vec![bits.as_ptr().cast(), numbers.as_ptr().cast()],
    );
    let (array, schema) = nulls.give();
    let refused = read(array, &schema).unwrap_err();
    assert_eq!(
        (refused.name(), refused.node(), refused.row()),
        ("UnexpectedNull", 0, 1)
    );
    assert_eq!(nulls.released(), 1);
    drop(schema);
    assert_eq!(nulls.released(), 2);
    let refused = read(FFI_ArrowArray::empty(), &FFI_ArrowSchema::empty()).unwrap_err();
    assert_eq!(refused.name(), "Released");
}

#[test]
fn an_array_that_is_no_column_is_refused_by_its_row() {
    let (offsets, bytes) = ([0i32, 3, 16], b"abc\xff longer text");
    let mut theirs = Theirs::new(
        c"u",
        0,
        2,
        vec![ptr::null(), offsets.as_ptr().cast(), bytes.as_ptr().cast()],
    );
    let (array, schema) = theirs.give();
    let foreign = read(array, &schema).unwrap();
    let refused = foreign.check().unwrap_err();
    assert_eq!(
        (refused.name(), refused.node(), refused.row()),
        ("NotUtf8", 0, 1)
    );
    drop((foreign, schema));
    assert_eq!(theirs.released(), 2);
}

#[test]
fn what_is_never_handed_over_is_released_too() {
    let mut theirs = Theirs::new(c"i", 0, 0, vec![ptr::null(), ptr::null()]);
    drop(theirs.give());
    assert_eq!(theirs.released(), 2);
}

#[test]
fn columns_go_out_and_come_in() {
    let elements = [1i64, 2, 3, 4];
    let lists = Column::list_view(
        Column::from(&elements[..]),
        &[2i32, 0, 1],
        &[2i32, 1, 2],
        Some(Bits::new(&[0b101], 0, 3)),
    );
    let how = Writing {
        name: "lists",
        ..Writing::default()
    };
    let (written, shown) = there_and_back(&lists, &how);
    assert_eq!(written, ("+vL".into(), "lists".into(), 3, 3));
    assert_eq!(shown, "list<i64>, 3 rows: [[3, 4], null, [2, 3]]");
    let texts = Column::utf8(&[0, 3, 16], b"abca longer text", None);
    let (written, shown) = there_and_back(&texts, &Writing::default());
    assert_eq!(written, ("vu".into(), "".into(), 2, 4));
    assert_eq!(shown, "utf8, 2 rows: [\"abc\", \"a longer text\"]");
    let by_offsets = Writing {
        by_offsets: Some(true),
        ..Writing::default()
    };
    let (written, shown) = there_and_back(&texts, &by_offsets);
    assert_eq!(written, ("u".into(), "".into(), 2, 3));
    assert_eq!(shown, "utf8, 2 rows: [\"abc\", \"a longer text\"]");
}

/// The format with which rows go out by default.
fn format_of(rows: &Checked<'_>) -> String {
    let (array, schema) = rows.clone().into_ffi(&Writing::default()).unwrap();
    seen(&array, &schema).0
}

/// The format of texts that came in by another one, of their slice, and of that packed.
fn formats_after_steps(format: &'static CStr, offsets: *const c_void) -> [String; 4] {
    let bytes = b"abca longer text";
    let buffers = vec![ptr::null(), offsets, bytes.as_ptr().cast()];
    let mut theirs = Theirs::new(format, 0, 2, buffers);
    let (array, schema) = theirs.give();
    let foreign = read(array, &schema).unwrap();
    let column = foreign.as_column();
    let (array, start, end) = (0, 1, 2);
    let steps = [Step::Slice { array, start, end }, Step::Pack { array: 1 }];
    let made = run(slice::from_ref(&column), &steps, &[1, 2]).unwrap();
    let again = made[1].as_column().pack().unwrap();
    [
        format_of(&column.check().unwrap()),
        format_of(&made[0].rows()),
        format_of(&made[1].rows()),
        format_of(&again.rows()),
    ]
}

#[test]
fn what_goes_out_has_the_format_that_came_in() {
    let (small, large) = ([0i32, 3, 16], [0i64, 3, 16]);
    assert_eq!(formats_after_steps(c"u", small.as_ptr().cast()), ["u"; 4]);
    assert_eq!(formats_after_steps(c"Z", large.as_ptr().cast()), ["Z"; 4]);
}

#[test]
fn parts_go_out_in_their_formats() {
    let lists = Column::list(&[1u8, 2, 3], &[0, 2, 3], None);
    let texts = Column::utf8(&[0, 3, 16], b"abca longer text", None);
    let records = Column::record([("lists", lists), ("texts", texts)], 2, None);
    let by_offsets = Writing {
        by_offsets: Some(true),
        ..Writing::default()
    };
    let (array, schema) = records.check().unwrap().into_ffi(&by_offsets).unwrap();
    let foreign = read(array, &schema).unwrap();
    let rows = foreign.check().unwrap();
    let formats = |rows: &Checked<'_>| {
        let columns = rows.columns();
        columns
            .iter()
            .map(|(_, of)| format_of(of))
            .collect::<Vec<_>>()
    };
    assert_eq!(formats(&rows), ["+l", "u"]);
    assert_eq!(formats(&records.check().unwrap()), ["+vL", "vu"]);
    assert_eq!(
        format_of(&foreign.as_column().field("texts").unwrap().rows()),
        "u"
    );
    let lists = rows.column("lists").unwrap();
    assert_eq!(format_of(&lists.as_column().check().unwrap()), "+l");
    let views = Writing {
        by_offsets: Some(false),
        ..Writing::default()
    };
    let (array, schema) = lists.into_ffi(&views).unwrap();
    assert_eq!(seen(&array, &schema).0, "+vL");
}

#[test]
fn lists_that_lie_apart_go_out_by_offsets_when_they_are_packed() {
    let (numbers, offsets) = ([1u8, 2, 3, 4], [0i32, 2, 3, 4]);
    let lists = Column::list(&numbers, &offsets, None);
    let by_offsets = Writing {
        by_offsets: Some(true),
        ..Writing::default()
    };
    let (array, schema) = lists.check().unwrap().into_ffi(&by_offsets).unwrap();
    let foreign = read(array, &schema).unwrap();
    let columns = [foreign.as_column(), Column::from(&[2u8, 0])];
    let made = run(
        &columns,
        &[Step::Take {
            array: 0,
            indices: 1,
        }],
        &[2],
    )
    .unwrap();
    let refused = made[0].rows().into_ffi(&Writing::default()).unwrap_err();
    assert_eq!(
        (refused.name(), refused.node(), refused.row()),
        ("NotEndToEnd", 0, 1)
    );
    assert_eq!(format_of(&made[0].as_column().pack().unwrap().rows()), "+l");
}

#[test]
fn a_part_of_a_column_goes_out_alone() {
    let records = Column::record(
        [
            ("a", Column::from(&[1u8, 2])),
            ("b", Column::from(&[3i8, 4])),
        ],
        2,
        None,
    );
    let rows = records.check().unwrap();
    let (array, schema) = rows
        .column("b")
        .unwrap()
        .into_ffi(&Writing::default())
        .unwrap();
    assert_eq!(seen(&array, &schema).0, "c");
    assert_eq!(
        format!("{:?}", read(array, &schema).unwrap().check().unwrap()),
        "i8, 2 rows: [3, 4]"
    );
}

#[test]
fn what_arrow_cannot_say_is_refused() {
    let refused = |column: &Column<'_>, how: &Writing| {
        let refused = column.check().unwrap().into_ffi(how).unwrap_err();
        (refused.name(), refused.node(), refused.row())
    };
    let by_offsets = Writing {
        by_offsets: Some(true),
        ..Writing::default()
    };
    let (offsets, sizes) = ([2i32, 0], [1i32, 1]);
    let lists = Column::list_view(&[1i64, 2, 3], &offsets, &sizes, None);
    assert_eq!(refused(&lists, &by_offsets), ("NotEndToEnd", 0, 1));
    let numbers = Column::from(&[1i64, 2]);
    let named = Writing {
        name: "a\0b",
        ..Writing::default()
    };
    assert_eq!(refused(&numbers, &named), ("BadArrow", 0, 0));
    let few = Writing {
        most_bytes: Some(15),
        ..Writing::default()
    };
    assert_eq!(refused(&numbers, &few), ("TooManyBytes", 0, 0));
}

#[test]
fn a_nest_of_any_depth_goes_out_on_a_small_stack() {
    let mut nest = Column::from(&[7u8]);
    for _ in 0..4095 {
        nest = Column::fixed_size_list(nest, 1, 1, None);
    }
    let small = std::thread::Builder::new().stack_size(256 << 10);
    std::thread::scope(|scope| {
        let write = || {
            let (array, schema) = nest.check().unwrap().into_ffi(&Writing::default()).unwrap();
            let refused = read(array, &schema).unwrap_err();
            assert_eq!((refused.name(), refused.node()), ("TooDeep", 65));
        };
        small.spawn_scoped(scope, write).unwrap().join().unwrap();
    });
}
