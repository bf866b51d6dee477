//! Why a column or a run is refused.

use std::error::Error;
use std::ffi::CStr;
use std::fmt;

use crate::raw;

/// The part of a run that a column is.
pub(crate) const IN_COLUMN: u32 = 1;

pub(crate) const MEMORY: u32 = 1;
pub(crate) const OVERFLOW: u32 = 7;
pub(crate) const UNKNOWN_FIELD: u32 = 10;
pub(crate) const BAD_ARROW: u32 = 64;
pub(crate) const TOO_MANY_BYTES: u32 = 66;

/// Why a column is none: its first fault.
#[derive(Clone, Debug, PartialEq, Eq)]
pub struct Refused {
    number: u32,
    node: usize,
    row: usize,
    field: Option<Box<Field>>,
}

#[derive(Clone, Debug, PartialEq, Eq)]
struct Field {
    format: String,
    name: String,
}

impl Refused {
    pub(crate) fn new(number: u32, node: usize, row: usize) -> Refused {
        Refused {
            number,
            node,
            row,
            field: None,
        }
    }

    /// The same fault, of an array of this format and name where they are told.
    pub(crate) fn of_field(mut self, format: Option<&CStr>, name: Option<&CStr>) -> Refused {
        let text = |text: &CStr| text.to_string_lossy().into_owned();
        self.field = format.map(|format| {
            Box::new(Field {
                format: text(format),
                name: name.map(text).unwrap_or_default(),
            })
        });
        self
    }

    /// The same fault, of a part of a run.
    pub(crate) fn in_part(&self, part: (u32, usize)) -> Stopped {
        match self.number {
            MEMORY => Stopped::new(MEMORY, (0, 0), 0, 0),
            number => Stopped::new(number, part, self.node, self.row),
        }
    }

    /// The number of the fault: 1 where memory was refused.
    pub fn number(&self) -> u32 {
        self.number
    }

    /// The name of the fault, as `OutOfBounds`.
    pub fn name(&self) -> &'static str {
        raw::fault_name(self.number)
    }

    /// The node that has it: the array itself is 0, its parts follow in order.
    pub fn node(&self) -> usize {
        self.node
    }

    /// The row that has it, the position that lies past a length, or which name of a record is no
    /// text; else 0.
    pub fn row(&self) -> usize {
        self.row
    }

    /// Arrow's format of the array that has it, where an Arrow array is refused for it.
    pub fn format(&self) -> Option<&str> {
        self.field.as_ref().map(|field| field.format.as_str())
    }

    /// The name of the column that has it, where an Arrow array is refused for it.
    pub fn column(&self) -> Option<&str> {
        self.field.as_ref().map(|field| field.name.as_str())
    }
}

impl fmt::Display for Refused {
    fn fmt(&self, f: &mut fmt::Formatter<'_>) -> fmt::Result {
        let (name, number, node) = (self.name(), self.number, self.node);
        write!(
            f,
            "{name} (number {number}) at node {node}, row or position {}",
            self.row
        )?;
        match &self.field {
            Some(field) => write!(
                f,
                ", in column {:?} of format {:?}",
                field.name, field.format
            ),
            None => Ok(()),
        }
    }
}

impl Error for Refused {}

/// Which part of a run is refused, counted from 0.
#[derive(Clone, Copy, Debug, PartialEq, Eq)]
pub enum Part {
    /// None that could be told: memory was refused.
    Nothing,
    /// A column that is none.
    Column(usize),
    /// A step.
    Step(usize),
    /// An array that is asked for.
    Result(usize),
}

/// Why a run is refused: its first fault, and the part that has it.
#[derive(Clone, Debug, PartialEq, Eq)]
pub struct Stopped {
    number: u32,
    part: Part,
    node: usize,
    row: usize,
}

impl Stopped {
    pub(crate) fn new(number: u32, part: (u32, usize), node: usize, row: usize) -> Stopped {
        let part = match part {
            (IN_COLUMN, which) => Part::Column(which),
            (2, which) => Part::Step(which),
            (3, which) => Part::Result(which),
            _ => Part::Nothing,
        };
        Stopped {
            number,
            part,
            node,
            row,
        }
    }

    /// The number of the fault: 1 where memory was refused.
    pub fn number(&self) -> u32 {
        self.number
    }

    /// The name of the fault, as `OutOfBounds`.
    pub fn name(&self) -> &'static str {
        raw::fault_name(self.number)
    }

    /// The part of the run that has it.
    pub fn part(&self) -> Part {
        self.part
    }

    /// The node of the column that has it, else 0.
    pub fn node(&self) -> usize {
        self.node
    }

    /// The row that has it, the position that lies past a length, or which name of a record, or
    /// of those that a step chooses, is no text; else 0.
    pub fn row(&self) -> usize {
        self.row
    }
}

impl fmt::Display for Stopped {
    fn fmt(&self, f: &mut fmt::Formatter<'_>) -> fmt::Result {
        write!(f, "{} (number {}) at ", self.name(), self.number)?;
        match self.part {
            Part::Nothing => write!(f, "no part")?,
            Part::Column(which) => write!(f, "column {which}, node {}", self.node)?,
            Part::Step(which) => write!(f, "step {which}")?,
            Part::Result(which) => write!(f, "result {which}")?,
        }
        write!(f, ", row or position {}", self.row)
    }
}

impl Error for Stopped {}
