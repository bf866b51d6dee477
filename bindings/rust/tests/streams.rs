//! Streams of Arrow arrays, a batch at a time: what goes out, what comes in, what fails, and that
//! all is released exactly once.

use std::ffi::{c_char, c_int, c_void, CStr};
use std::sync::atomic::{AtomicUsize, Ordering};
use std::{ptr, slice};

use codrask::{
    from_stream, into_stream, Checked, Column, FFI_ArrowArray, FFI_ArrowArrayStream,
    FFI_ArrowSchema, Part, Reading, Writing,
};

/// Arrow's struct as another library has it.
#[repr(C)]
struct Stream {
    get_schema: unsafe extern "C" fn(*mut Stream, *mut FFI_ArrowSchema) -> c_int,
    get_next: unsafe extern "C" fn(*mut Stream, *mut FFI_ArrowArray) -> c_int,
    get_last_error: unsafe extern "C" fn(*mut Stream) -> *const c_char,
    release: Option<unsafe extern "C" fn(*mut Stream)>,
    private_data: *mut c_void,
}

/// A stream of another library: it hands on another one, counts what is asked of it, and fails at
/// one of its batches.
struct Theirs {
    inner: FFI_ArrowArrayStream,
    fails_at: Option<usize>,
    batches: usize,
    released: AtomicUsize,
}

unsafe fn theirs<'a>(stream: *mut Stream) -> &'a mut Theirs {
    &mut *(*stream).private_data.cast()
}

unsafe extern "C" fn get_schema(stream: *mut Stream, out: *mut FFI_ArrowSchema) -> c_int {
    let inner: *mut Stream = ptr::from_mut(&mut theirs(stream).inner).cast();
    ((*inner).get_schema)(inner, out)
}

unsafe extern "C" fn get_next(stream: *mut Stream, out: *mut FFI_ArrowArray) -> c_int {
    let own = theirs(stream);
    if own.fails_at == Some(own.batches) {
        return 5;
    }
    own.batches += 1;
    let inner: *mut Stream = ptr::from_mut(&mut own.inner).cast();
    ((*inner).get_next)(inner, out)
}

unsafe extern "C" fn get_last_error(_stream: *mut Stream) -> *const c_char {
    c"the tape is torn".as_ptr()
}

unsafe extern "C" fn release(stream: *mut Stream) {
    theirs(stream).released.fetch_add(1, Ordering::Relaxed);
    (*stream).release = None;
}

impl Theirs {
    fn new(inner: FFI_ArrowArrayStream, fails_at: Option<usize>) -> Theirs {
        let (batches, released) = (0, AtomicUsize::new(0));
        Theirs {
            inner,
            fails_at,
            batches,
            released,
        }
    }

    fn give(&mut self) -> FFI_ArrowArrayStream {
        let mut stream = Stream {
            get_schema,
            get_next,
            get_last_error,
            release: Some(release),
            private_data: ptr::from_mut(self).cast(),
        };
        let given = unsafe { FFI_ArrowArrayStream::from_raw(ptr::from_mut(&mut stream).cast()) };
        assert!(stream.release.is_none(), "the struct was moved out");
        given
    }

    fn released(&self) -> usize {
        self.released.load(Ordering::Relaxed)
    }
}

fn stream_of(columns: &[Checked<'_>]) -> FFI_ArrowArrayStream {
    into_stream(columns, &Writing::default()).unwrap()
}

#[test]
fn columns_go_out_and_come_in_a_batch_at_a_time() {
    let texts = Column::utf8(&[0, 3, 16], b"abca longer text", None);
    let none = Column::utf8(&[0], b"", None);
    let columns = [texts.check().unwrap(), none.check().unwrap()];
    let how = Writing {
        name: "texts",
        by_offsets: Some(true),
        ..Writing::default()
    };
    let stream = into_stream(&columns, &how).unwrap();
    let mut batches = unsafe { from_stream(stream, &Reading::default()) };
    let first = batches.next().unwrap().unwrap();
    let second = batches.next().unwrap().unwrap();
    assert!(batches.next().is_none() && batches.next().is_none() && batches.error().is_none());
    drop(batches);
    assert_eq!(first.name(), b"texts");
    let shown = [&first, &second].map(|batch| format!("{:?}", batch.check().unwrap()));
    assert_eq!(
        shown,
        [
            r#"utf8, 2 rows: ["abc", "a longer text"]"#,
            "utf8, 0 rows: []"
        ]
    );
    let (_array, schema) = first
        .check()
        .unwrap()
        .into_ffi(&Writing::default())
        .unwrap();
    let format: *const *const c_char = ptr::from_ref(&schema).cast();
    assert_eq!(unsafe { CStr::from_ptr(*format) }, c"u");
}

#[test]
fn a_stream_is_released_once_however_much_is_taken() {
    let numbers = Column::from(&[7i32, 8]);
    let rows = numbers.check().unwrap();
    for taken in 0..4 {
        let mut own = Theirs::new(stream_of(&[rows.clone(), rows.clone()]), None);
        let mut batches = unsafe { from_stream(own.give(), &Reading::default()) };
        let kept: Vec<_> = batches.by_ref().take(taken).map(Result::unwrap).collect();
        assert_eq!(kept.len(), taken.min(2));
        drop(batches);
        assert_eq!((own.released(), own.batches), (1, taken.min(3)));
        assert!(kept
            .iter()
            .all(|batch| batch.check().unwrap().int_at(1) == Some(8)));
    }
    let mut own = Theirs::new(stream_of(slice::from_ref(&rows)), None);
    drop(own.give());
    assert_eq!(own.released(), 1);
}

#[test]
fn a_stream_that_fails_says_why_and_is_asked_no_more() {
    let numbers = Column::from(&[7i32, 8]);
    let rows = numbers.check().unwrap();
    let mut own = Theirs::new(stream_of(&[rows.clone(), rows]), Some(1));
    let mut batches = unsafe { from_stream(own.give(), &Reading::default()) };
    assert!(batches.next().unwrap().is_ok());
    let refused = batches.next().unwrap().err().unwrap();
    assert_eq!((refused.name(), refused.number()), ("StreamFailed", 80));
    let told = batches.error();
    assert_eq!(told, Some((5, "the tape is torn".to_string())));
    assert!(batches.next().is_none());
    drop(batches);
    assert_eq!((own.released(), own.batches), (1, 1));
}

#[test]
fn a_stream_that_was_released_is_refused() {
    let stream = FFI_ArrowArrayStream::empty();
    assert!(stream.is_released() && format!("{stream:?}").contains("is_released: true"));
    let mut batches = unsafe { from_stream(stream, &Reading::default()) };
    assert_eq!(batches.next().unwrap().err().unwrap().name(), "Released");
    assert!(batches.next().is_none());
}

#[test]
fn a_batch_that_is_not_read_tells_its_column_and_others_are_taken_by_name() {
    let (numbers, texts) = ([1u8, 2], Column::utf8(&[0, 1, 2], b"ab", None));
    let records = Column::record([("n", Column::from(&numbers)), ("t", texts)], 2, None);
    let rows = records.check().unwrap();
    let some = Reading {
        columns: Some(&["t"]),
        ..Reading::default()
    };
    let mut batches = unsafe { from_stream(stream_of(slice::from_ref(&rows)), &some) };
    let batch = batches.next().unwrap().unwrap();
    assert_eq!(batch.check().unwrap().columns().len(), 1);
    for (name, fault) in [("x", "UnknownField"), ("n\0", "UnknownField")] {
        let none = Reading {
            columns: Some(&[name]),
            ..Reading::default()
        };
        let mut batches = unsafe { from_stream(stream_of(slice::from_ref(&rows)), &none) };
        assert_eq!(batches.next().unwrap().err().unwrap().name(), fault);
        assert!(batches.next().is_none());
    }
}

#[test]
fn columns_of_two_schemas_are_no_stream() {
    let (narrow, wide) = (Column::from(&[1u8]), Column::from(&[1u16]));
    let (narrow, wide) = (narrow.check().unwrap(), wide.check().unwrap());
    let stopped = |columns: &[Checked<'_>], how: &Writing| {
        let stopped = into_stream(columns, how).unwrap_err();
        (stopped.name(), stopped.part(), stopped.node())
    };
    let plain = Writing::default();
    assert_eq!(
        stopped(&[narrow.clone(), narrow.clone(), wide], &plain),
        ("DifferingSchemas", Part::Column(2), 0)
    );
    assert_eq!(stopped(&[], &plain), ("EmptyInput", Part::Nothing, 0));
    let few = Writing {
        most_bytes: Some(1),
        ..plain
    };
    let texts = Column::utf8(&[0, 3], b"abc", None);
    let texts = texts.check().unwrap();
    assert_eq!(
        stopped(&[texts.clone(), texts], &few),
        ("TooManyBytes", Part::Column(0), 0)
    );
}
