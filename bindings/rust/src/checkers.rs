//! The checkers, over histories of one's own.
use crate::foreign::{self, EntryRow, IdRow, PointRow, expected_by};
use crate::{Entry, OpId, Point};
use std::fmt;

/// Why an order isn't what it was asked for. A place is an index of the list, from 0: the first such one.
#[derive(Clone, Copy, Debug, PartialEq, Eq)]
pub enum Fault {
    /// An operation is neither finished nor a called update.
    Unknown,
    /// An operation stands twice.
    Twice,
    /// A finished operation isn't there.
    Missing,
    /// A process's operations are out of their order.
    OwnOrder,
    /// The operation has another answer than one memory gives.
    Answer { place: usize },
    /// The point is before the call or after the answer.
    Outside { place: usize },
    /// The point is below the one before it.
    Falling { place: usize },
    /// Memory was refused.
    OutOfMemory,
    /// Not 1 to 64 processes, or not 1 to 4,096 registers.
    NoShape,
    /// The entry can't come at its place of the history.
    OutOfPlace { place: usize },
}

impl fmt::Display for Fault {
    fn fmt(&self, f: &mut fmt::Formatter<'_>) -> fmt::Result {
        match *self {
            Self::Unknown => write!(f, "an operation that may not stand in an order"),
            Self::Twice => write!(f, "an operation stands twice"),
            Self::Missing => write!(f, "a finished operation is missing"),
            Self::OwnOrder => write!(f, "a process's operations are out of their order"),
            Self::Answer { place } => write!(f, "another answer than that of one memory at {place}"),
            Self::Outside { place } => write!(f, "a point outside its operation at {place}"),
            Self::Falling { place } => write!(f, "a point below the one before it at {place}"),
            Self::OutOfMemory => write!(f, "out of memory"),
            Self::NoShape => write!(f, "no such number of processes or registers"),
            Self::OutOfPlace { place } => write!(f, "an entry out of place at {place}"),
        }
    }
}

impl std::error::Error for Fault {}

fn told(code: u32, place: usize) -> Result<(), Fault> {
    Err(match code {
        0 => return Ok(()),
        1 => Fault::Unknown,
        2 => Fault::Twice,
        3 => Fault::Missing,
        4 => Fault::OwnOrder,
        5 => Fault::Answer { place },
        6 => Fault::Outside { place },
        7 => Fault::Falling { place },
        9 => Fault::NoShape,
        10 => Fault::OutOfPlace { place },
        _ => Fault::OutOfMemory,
    })
}

/// The rows of a history, and what each expects.
fn rows(history: &[Entry]) -> (Vec<EntryRow>, Vec<u64>) {
    (history.iter().map(EntryRow::from).collect(), history.iter().map(expected_by).collect())
}

/// Whether these operations, one after another, are a serial order of the history: sequential
/// consistency (Lamport 1979).
///
/// ```
/// use tellwydar::{Answer, Entry, Op, OpId, check_serial};
///
/// let id = OpId { process: 0, number: 0 };
/// let history = [
///     Entry::Called { at: 0, id, op: Op::Read { register: 0 } },
///     Entry::Answered { at: 3, id, answer: Answer::Value(0) },
/// ];
/// assert_eq!(check_serial(1, 1, &history, &[id]), Ok(()));
/// ```
pub fn check_serial(processes: u32, registers: u32, history: &[Entry], order: &[OpId]) -> Result<(), Fault> {
    let (entries, expected) = rows(history);
    let ids: Vec<IdRow> = order.iter().map(IdRow::from).collect();
    let mut place = 0;
    // SAFETY: each pointer and length are those of one list, and none is null.
    let code = unsafe {
        foreign::tellwydar_check_serial_expecting(
            processes,
            registers,
            entries.as_ptr(),
            entries.len(),
            expected.as_ptr(),
            expected.len(),
            ids.as_ptr(),
            ids.len(),
            &mut place,
        )
    };
    told(code, place)
}

/// Whether these points are a point order of the history: linearizability (Herlihy and Wing 1990).
pub fn check_points(processes: u32, registers: u32, history: &[Entry], points: &[Point]) -> Result<(), Fault> {
    let (entries, expected) = rows(history);
    let points: Vec<PointRow> = points.iter().map(PointRow::from).collect();
    let mut place = 0;
    // SAFETY: each pointer and length are those of one list, and none is null.
    let code = unsafe {
        foreign::tellwydar_check_points_expecting(
            processes,
            registers,
            entries.as_ptr(),
            entries.len(),
            expected.as_ptr(),
            expected.len(),
            points.as_ptr(),
            points.len(),
            &mut place,
        )
    };
    told(code, place)
}
