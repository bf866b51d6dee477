//! Rows that are joined, or written out in plain layout.

use super::{
    AT_RANDOM, Bench, Bits, Buffer, Built, EMPTY, ListViewArray, MAX_INLINED_SIZE, Operation,
    Refusal, Result, View, list_view, number_array, parts, random_bits, random_numbers,
    take_numbers, text_array,
};
use std::sync::Arc;

// ---- joining ----

#[inline(never)]
pub fn concat_numbers(arrays: &[&[u32]]) -> Vec<u32> {
    arrays.concat()
}

/// The values that the codes of each array name.
#[inline(never)]
fn concat_dictionaries(arrays: &[(Vec<u32>, Arc<Vec<u32>>)]) -> Vec<u32> {
    let mut joined = Vec::with_capacity(arrays.iter().map(|(codes, _)| codes.len()).sum());
    for (codes, values) in arrays {
        joined.extend(codes.iter().map(|code| values[*code as usize]));
    }
    joined
}

/// Each number as often as it stands.
#[inline(never)]
fn concat_constants(arrays: &[(u32, usize)]) -> Vec<u32> {
    let mut joined = Vec::with_capacity(arrays.iter().map(|(_, rows)| rows).sum());
    for (number, rows) in arrays {
        joined.resize(joined.len() + rows, *number);
    }
    joined
}

/// Bits, a word at a time, each word cut where the bits before it end within a word.
#[inline(never)]
pub fn concat_bits(arrays: &[&Bits]) -> Bits {
    let len = arrays.iter().map(|bits| bits.len).sum();
    let mut words: Vec<u64> = Vec::with_capacity(usize::div_ceil(len, 64) + 1);
    let mut filled = 0;
    for bits in arrays {
        let shift = filled % 64;
        if shift == 0 {
            words.extend_from_slice(bits.words.as_slice());
        } else {
            let mut last = words.pop().unwrap_or(0);
            for word in bits.words.as_slice() {
                words.push(last | word << shift);
                last = word >> (64 - shift);
            }
            words.push(last);
        }
        filled += bits.len;
        words.truncate(filled.div_ceil(64));
    }
    Bits { words: Buffer::new(words), len }
}

/// Views, which name the buffers of all arrays, one array after another.
#[inline(never)]
fn concat_views(arrays: &[Built]) -> (Vec<View>, Vec<Buffer<u8>>) {
    let mut views = Vec::with_capacity(arrays.iter().map(|array| array.1.len).sum());
    let mut buffers = Vec::new();
    for (held, array) in arrays {
        let base = (buffers.len() as u128) << 64;
        views.extend(array.as_slice().iter().map(|view| {
            if view.size() <= MAX_INLINED_SIZE { *view } else { View(view.0 + base) }
        }));
        buffers.extend(held.iter().cloned());
    }
    (views, buffers)
}

/// Lists with offsets and sizes of 64 bits.
#[allow(dead_code)]
struct WideLists {
    elements: Arc<Vec<u32>>,
    offsets: Vec<u64>,
    sizes: Vec<u64>,
}

#[inline(never)]
fn concat_lists(arrays: &[Arc<ListViewArray>]) -> WideLists {
    let rows = arrays.iter().map(|lists| lists.offsets.len()).sum();
    let (mut offsets, mut sizes) = (Vec::with_capacity(rows), Vec::with_capacity(rows));
    let mut base = 0;
    for lists in arrays {
        offsets.extend(lists.offsets.numbers().iter().map(|offset| base + *offset as u64));
        sizes.extend(lists.sizes.numbers().iter().map(|size| *size as u64));
        base += lists.elements.len() as u64;
    }
    let elements: Vec<&[u32]> = arrays.iter().map(|lists| lists.elements.numbers()).collect();
    WideLists { elements: Arc::new(concat_numbers(&elements)), offsets, sizes }
}

/// What becomes of arrays that are joined or written out.
#[allow(dead_code)]
enum Plain {
    Numbers(Vec<u32>),
    Bools(Bits),
    Records(Vec<u32>, Bits),
    Views(Vec<View>, Vec<Buffer<u8>>),
    Wide(WideLists),
    Lists(Arc<ListViewArray>),
}

impl Plain {
    fn checksum(&self) -> u64 {
        match self {
            Plain::Numbers(numbers) => EMPTY.with_numbers(numbers).0,
            Plain::Bools(bits) => EMPTY.with_bits(bits).0,
            Plain::Records(numbers, bits) => EMPTY.with_numbers(numbers).with_bits(bits).0,
            Plain::Views(views, _) => EMPTY.with_views(views).0,
            Plain::Wide(lists) => {
                let places = EMPTY.with_words(lists.offsets.iter().copied());
                places.with_words(lists.sizes.iter().copied()).with_numbers(&lists.elements).0
            }
            Plain::Lists(lists) => EMPTY.with_list_view(lists).0,
        }
    }
}

/// Arrays of one layout that are joined.
enum Concat {
    Numbers(Vec<Vec<u32>>),
    Bools(Vec<Bits>),
    Records(Vec<Vec<u32>>, Vec<Bits>),
    Views(Vec<Built>),
    Lists(Vec<Arc<ListViewArray>>),
    Dictionaries(Vec<(Vec<u32>, Arc<Vec<u32>>)>),
    Constants(Vec<(u32, usize)>),
}

fn slices(arrays: &[Vec<u32>]) -> Vec<&[u32]> {
    arrays.iter().map(Vec::as_slice).collect()
}

fn references(arrays: &[Bits]) -> Vec<&Bits> {
    arrays.iter().collect()
}

impl Operation for Concat {
    type Made = Plain;

    fn run(&mut self) -> Result<Plain> {
        Ok(match self {
            Concat::Numbers(arrays) => Plain::Numbers(concat_numbers(&slices(arrays))),
            Concat::Bools(arrays) => Plain::Bools(concat_bits(&references(arrays))),
            Concat::Records(numbers, truths) => {
                let numbers = concat_numbers(&slices(numbers));
                Plain::Records(numbers, concat_bits(&references(truths)))
            }
            Concat::Views(arrays) => {
                let (views, buffers) = concat_views(arrays);
                Plain::Views(views, buffers)
            }
            Concat::Lists(arrays) => Plain::Wide(concat_lists(arrays)),
            Concat::Dictionaries(arrays) => Plain::Numbers(concat_dictionaries(arrays)),
            Concat::Constants(arrays) => Plain::Numbers(concat_constants(arrays)),
        })
    }

    fn checksum(&self, made: Plain) -> u64 {
        made.checksum()
    }
}

// ---- plain layout ----

/// Rows that are not in plain layout.
enum Canonical {
    Constant { number: u32, rows: usize },
    Text { text: Buffer<u8>, rows: usize },
    List { elements: Arc<Vec<u32>>, rows: usize },
    Dictionary { codes: Vec<u32>, values: Vec<u32> },
    /// Codes of a dictionary whose values are codes of another.
    Nested { outer: Vec<u32>, inner: Vec<u32>, values: Vec<u32> },
    Lists { lists: Arc<ListViewArray>, size: u32 },
}

impl Operation for Canonical {
    type Made = Plain;

    fn run(&mut self) -> Result<Plain> {
        Ok(match self {
            Canonical::Constant { number, rows } => Plain::Numbers(vec![*number; *rows]),
            Canonical::Text { text, rows } => {
                let view = View::new(text.as_slice(), 0, 0);
                Plain::Views(vec![view; *rows], vec![text.clone()])
            }
            Canonical::List { elements, rows } => {
                let (offsets, sizes) = (vec![0; *rows], vec![elements.len() as u64; *rows]);
                Plain::Wide(WideLists { elements: elements.clone(), offsets, sizes })
            }
            Canonical::Dictionary { codes, values } => Plain::Numbers(take_numbers(values, codes)),
            Canonical::Nested { outer, inner, values } => {
                Plain::Numbers(take_numbers(&take_numbers(values, inner), outer))
            }
            Canonical::Lists { lists, size } => Plain::Lists(Arc::new(ListViewArray {
                dtype: lists.dtype.clone(),
                elements: lists.elements.clone(),
                offsets: lists.offsets.clone(),
                sizes: number_array(vec![*size; lists.offsets.len()]),
                validity: None,
                zero_copy_to_list: lists.zero_copy_to_list,
            })),
        })
    }

    fn checksum(&self, made: Plain) -> u64 {
        made.checksum()
    }
}

// ---- the operations by name ----

/// Four arrays of a quarter of the rows.
pub fn measure_concat(bench: &Bench, layout: &str) -> Result<()> {
    let rows = bench.rows / 4;
    let numbers = || vec![random_numbers(rows, u32::MAX, 6); 4];
    let truths = || vec![random_bits(rows, 2, 7); 4];
    bench.measure(match layout {
        "numbers" => Concat::Numbers(numbers()),
        "bools" => Concat::Bools(truths()),
        "records" => Concat::Records(numbers(), truths()),
        "fixed_lists" => Concat::Numbers(vec![random_numbers(4 * rows, u32::MAX, 1); 4]),
        "views" => Concat::Views(vec![text_array(rows)?; 4]),
        "list_view" => Concat::Lists(vec![list_view(rows, AT_RANDOM)?; 4]),
        "dictionaries" => {
            let values = Arc::new(random_numbers(1000, u32::MAX, 6));
            Concat::Dictionaries(vec![(random_numbers(rows, 1000, 9), values); 4])
        }
        "constants" => Concat::Constants(vec![(1_000_003, rows); 4]),
        _ => return Err(Refusal::Usage),
    })
}

pub fn measure_canonical(bench: &Bench, layout: &str) -> Result<()> {
    let rows = bench.rows;
    bench.measure(match layout {
        "constant" => Canonical::Constant { number: 1_000_003, rows },
        "constant_text" => {
            let text = Buffer::new(b"the same text everywhere".to_vec());
            Canonical::Text { text, rows }
        }
        "constant_list" => {
            Canonical::List { elements: Arc::new(random_numbers(100, u32::MAX, 6)), rows }
        }
        "dictionary" => {
            let codes = random_numbers(rows, 1000, 9);
            Canonical::Dictionary { codes, values: random_numbers(1000, u32::MAX, 6) }
        }
        "nested_dictionary" => Canonical::Nested {
            outer: random_numbers(rows, 1000, 9),
            inner: random_numbers(1000, 100, 11),
            values: random_numbers(100, u32::MAX, 6),
        },
        "list_view" => Canonical::Lists { lists: list_view(rows, AT_RANDOM)?, size: 4 },
        _ => return parts::measure_canonical(bench, layout),
    })
}
