//! The room in a chapter of a cluster that doesn't end.
use crate::foreign::{self, RoomRow};

/// What ends a chapter, so that it comes to rest within the limits of a run.
#[derive(Clone, Copy, Debug, PartialEq, Eq)]
pub struct Room {
    /// Once a process has called so many, the chapter ends.
    pub operations: u64,
    /// Once the logs of all could have so many entries together, too.
    pub total: u64,
    /// That is once its own log has so many.
    pub entries: u64,
    /// While so many of its casts aren't delivered at itself, it calls nothing that is cast.
    pub ahead: u64,
}

/// Why there is no room, with the least and the greatest number that there can be.
#[derive(Clone, Copy, Debug, PartialEq, Eq)]
pub enum NoRoom {
    /// Not 1 to 64 processes, or not 1 to 4,096 registers.
    NoShape,
    /// A chapter needs the least number of entries to begin, and has the greatest.
    NoBeginning {
        least: u64,
        most: u64,
    },
    BadOperations {
        least: u64,
        most: u64,
    },
    BadEntries {
        least: u64,
        most: u64,
    },
}

/// The room in chapters that end at so many operations of a process, or at so many entries of all logs together, or
/// else at the usual numbers.
///
/// # Errors
///
/// Where there is none.
pub fn room(processes: u32, registers: u32, operations: Option<u64>, entries: Option<u64>) -> Result<Room, NoRoom> {
    let (operations, entries) = (operations.unwrap_or(u64::MAX), entries.unwrap_or(u64::MAX));
    let mut row = RoomRow::default();
    // SAFETY: the row is one value.
    let code = unsafe { foreign::tellwydar_room(processes, registers, operations, entries, &mut row) };
    let RoomRow { operations, total, entries, ahead, least, most } = row;
    match code {
        0 => Ok(Room { operations, total, entries, ahead }),
        81 => Err(NoRoom::NoBeginning { least, most }),
        82 => Err(NoRoom::BadOperations { least, most }),
        83 => Err(NoRoom::BadEntries { least, most }),
        _ => Err(NoRoom::NoShape),
    }
}
