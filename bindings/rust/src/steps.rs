//! Steps on columns, and what they give.

use std::slice;
use std::sync::Arc;

use crate::checked::{levels, Checked};
use crate::column::Column;
use crate::faults::Stopped;
use crate::raw::{Bytes, Lent, Made, RawStep};

/// How lists are laid out anew.
#[derive(Clone, Copy, Debug, PartialEq, Eq)]
pub enum Rebuild {
    /// One after another, from the first element on.
    ZeroCopyToList = 0,
    /// As they lie, without the elements before the first list and after the last.
    TrimElements = 1,
    /// Trimmed where they are known to lie one after another, else laid so.
    MakeExact = 2,
    /// Refused as `NotImplemented`.
    OverlapCompression = 3,
}

/// A step, which appends an array to a list: first the columns of the run, then what each step
/// gives. Steps name arrays by their positions in it.
#[derive(Clone, Copy, Debug, PartialEq, Eq)]
#[non_exhaustive]
#[allow(missing_docs)]
pub enum Step<'s> {
    /// The rows from `start` up to `end`.
    Slice {
        array: usize,
        start: usize,
        end: usize,
    },
    /// The rows at the indices that another array holds.
    Take { array: usize, indices: usize },
    /// The rows at which another array is true.
    Filter { array: usize, mask: usize },
    /// The rows, null where another array is false.
    Mask { array: usize, mask: usize },
    /// The rows of several arrays.
    Concat { arrays: &'s [usize] },
    /// The rows in plain layout.
    Canonical { array: usize },
    /// Lists, laid out anew.
    Rebuild { array: usize, mode: Rebuild },
    /// Numbers in the narrowest type that has them.
    Narrow { array: usize },
    /// The columns of these names.
    Project { array: usize, names: &'s [&'s str] },
    /// Records with one column more.
    WithColumn {
        array: usize,
        name: &'s str,
        column: usize,
    },
    /// Records without a column.
    RemoveColumn { array: usize, name: &'s str },
    /// The nulls of records in their columns; with `remove` no record is null any more.
    PushValidity { array: usize, remove: bool },
    /// The rows in packed form: nothing is in it but them.
    Pack { array: usize },
    /// The first column of a name in records, null also where the record is.
    Field { array: usize, name: &'s str },
}

impl<'s> Step<'s> {
    /// The names that the step has, as C takes them.
    fn names(&self) -> Vec<Bytes<'s>> {
        match self {
            Step::Project { names, .. } => names
                .iter()
                .map(|name| Lent::new(name.as_bytes()))
                .collect(),
            _ => Vec::new(),
        }
    }

    /// The number of the kind, and the arrays that the step takes.
    fn kind(&self) -> (u32, usize, usize) {
        match *self {
            Step::Slice { array, .. } => (0, array, 0),
            Step::Take { array, indices } => (1, array, indices),
            Step::Filter { array, mask } => (2, array, mask),
            Step::Mask { array, mask } => (3, array, mask),
            Step::Concat { .. } => (4, 0, 0),
            Step::Canonical { array } => (5, array, 0),
            Step::Rebuild { array, .. } => (6, array, 0),
            Step::Narrow { array } => (7, array, 0),
            Step::Project { array, .. } => (8, array, 0),
            Step::WithColumn { array, column, .. } => (9, array, column),
            Step::RemoveColumn { array, .. } => (10, array, 0),
            Step::PushValidity { array, .. } => (11, array, 0),
            Step::Pack { array } => (12, array, 0),
            Step::Field { array, .. } => (13, array, 0),
        }
    }

    /// The step as C takes it, with its names.
    fn raw<'r>(&self, names: &'r [Bytes<'s>]) -> RawStep<'r>
    where
        's: 'r,
    {
        let (kind, array, other) = self.kind();
        let mut raw = RawStep {
            kind,
            mode: 0,
            array,
            other,
            start: 0,
            end: 0,
            arrays: Lent::new(&[]),
            names: Lent::new(names),
            name: Lent::new(&[]),
        };
        match *self {
            Step::Slice { start, end, .. } => (raw.start, raw.end) = (start, end),
            Step::Concat { arrays } => raw.arrays = Lent::new(arrays),
            Step::Rebuild { mode, .. } => raw.mode = mode as u32,
            Step::PushValidity { remove, .. } => raw.mode = remove.into(),
            Step::WithColumn { name, .. }
            | Step::RemoveColumn { name, .. }
            | Step::Field { name, .. } => raw.name = Lent::new(name.as_bytes()),
            _ => {}
        }
        raw
    }
}

/// A column that a run gave: it has passed, and lies in memory of the library, which is given back
/// when all that the run gave is dropped.
#[derive(Clone)]
pub struct Owned {
    made: Arc<Made>,
    place: usize,
}

impl Owned {
    /// The rows.
    pub fn rows(&self) -> Checked<'_> {
        let formats = self.made.formats(self.place).to_vec();
        Checked::passed(self.made.nodes(self.place).to_vec(), formats)
    }

    /// The same rows as a column, to run steps on.
    pub fn as_column(&self) -> Column<'_> {
        Column::of_nodes(self.made.nodes(self.place), self.made.formats(self.place))
    }
}

impl Column<'_> {
    /// The rows in packed form, which is made of the type and the rows alone: of the same rows, the
    /// same bytes. What was cut away before is no part of it; dictionaries become plain, and lists
    /// lie end to end. Refused as `Overflow` is what has more elements or buffers than can be
    /// counted.
    ///
    /// ```
    /// use codrask::{run, Column, Step};
    ///
    /// let lists = Column::list(&[1u8, 2, 3, 4], &[0, 2, 3, 4], None);
    /// let cut = run(&[lists], &[Step::Slice { array: 0, start: 1, end: 2 }], &[1])?;
    /// let packed = cut[0].as_column().pack()?;
    /// assert_eq!(packed.rows().elements().unwrap().numbers::<u8>(), Some(&[3][..]));
    /// # Ok::<(), codrask::Stopped>(())
    /// ```
    pub fn pack(&self) -> Result<Owned, Stopped> {
        self.ran(Step::Pack { array: 0 })
    }

    /// The first column of a name in records, null also where the record is. Refused is a name that
    /// no column has, as `UnknownField`, and what is no records, as `MismatchedTypes`.
    pub fn field(&self, name: &str) -> Result<Owned, Stopped> {
        self.ran(Step::Field { array: 0, name })
    }

    /// What a step makes of this column.
    fn ran(&self, step: Step<'_>) -> Result<Owned, Stopped> {
        let mut made = run(slice::from_ref(self), &[step], &[1])?;
        Ok(made.remove(0))
    }
}

/// Runs steps on columns, and gives the arrays at the positions that are wanted, in plain layouts:
/// neither a dictionary nor a constant is left. Which rows they have is proved. Else the first
/// fault: of the columns in order, then of the steps, then of what is wanted; nothing is made then.
///
/// ```
/// use codrask::{run, Column, Step};
///
/// let cut = Step::Slice { array: 0, start: 1, end: 3 };
/// let made = run(&[Column::from(&[7, 8, 9])], &[cut], &[1])?;
/// assert_eq!(made[0].rows().numbers::<i32>(), Some(&[8, 9][..]));
/// # Ok::<(), codrask::Stopped>(())
/// ```
pub fn run(
    columns: &[Column<'_>],
    steps: &[Step<'_>],
    wanted: &[usize],
) -> Result<Vec<Owned>, Stopped> {
    let nodes: Vec<_> = columns.iter().map(Column::nodes).collect();
    let tables: Vec<_> = nodes.iter().map(|nodes| Lent::new(nodes)).collect();
    let formats: Vec<_> = columns.iter().map(Column::formats).collect();
    let names: Vec<_> = steps.iter().map(Step::names).collect();
    let raw: Vec<_> = steps
        .iter()
        .zip(&names)
        .map(|(step, names)| step.raw(names))
        .collect();
    let deepest = nodes.iter().map(|nodes| levels(nodes)).max().unwrap_or(0);
    let levels = deepest + steps.len();
    let made = Arc::new(Made::run((&tables, &formats), &raw, wanted, levels)?);
    let owned = |place| Owned {
        made: Arc::clone(&made),
        place,
    };
    Ok((0..made.count()).map(owned).collect())
}
