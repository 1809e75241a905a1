//! The logs of all processes of a chapter, merged.
use crate::Refused;
use crate::foreign::{self, MergedRow};
use crate::nodes::{LogFault, log_fault};
use std::fmt;

/// What all logs of a chapter have in common, in the order in which it is compared.
#[derive(Clone, Copy, Debug, PartialEq, Eq, Hash)]
pub enum HeadPart {
    Cluster,
    Chapter,
    Front,
    /// How many processes there are.
    Processes,
    /// The names of the registers.
    Registers,
}

/// Why there is no record of logs. Logs are told by their places, from 0, and so are entries.
#[derive(Clone, Copy, Debug, PartialEq, Eq)]
pub enum LogsFault {
    /// There is no text.
    NoLog,
    /// This text is no log. `Damaged` says that a line ends behind the last one that stands
    /// whole, which no crash leaves.
    Unread { log: usize, fault: LogFault },
    /// This log is the first that isn't of the first one's chapter. They differ in this part, and in none before it.
    Other { log: usize, part: HeadPart },
    /// This log is of the process of the one at `before`.
    Twice { log: usize, before: usize },
    /// No log is of this process.
    Missing { process: u8 },
    /// There are more entries in all logs together than a record may have steps.
    TooMany,
    /// This entry of this log is in no run of first entries of the logs.
    Unfaithful { log: usize, entry: u64 },
    /// There was no memory.
    OutOfMemory,
}

impl fmt::Display for LogsFault {
    fn fmt(&self, f: &mut fmt::Formatter<'_>) -> fmt::Result {
        match self {
            Self::NoLog => write!(f, "no log"),
            Self::Unread { log, fault } => write!(f, "log {log}: {fault}"),
            Self::Other { log, part } => write!(f, "log {log}: another {}", format!("{part:?}").to_lowercase()),
            Self::Twice { log, before } => write!(f, "log {log}: of the process of log {before}"),
            Self::Missing { process } => write!(f, "no log of process {process}"),
            Self::TooMany => write!(f, "too many entries"),
            Self::Unfaithful { log, entry } => write!(f, "log {log}: entry {entry}: unfaithful"),
            Self::OutOfMemory => write!(f, "out of memory"),
        }
    }
}

impl std::error::Error for LogsFault {}

/// The fault that these numbers tell.
fn fault_of(code: u32, log: usize, place: u64) -> LogsFault {
    const PARTS: [HeadPart; 4] = [HeadPart::Cluster, HeadPart::Chapter, HeadPart::Front, HeadPart::Processes];
    match code {
        96 => LogsFault::NoLog,
        97 => LogsFault::Other { log, part: PARTS.get(place as usize).copied().unwrap_or(HeadPart::Registers) },
        98 => LogsFault::Twice { log, before: place as usize },
        99 => LogsFault::Missing { process: place as u8 },
        100 => LogsFault::TooMany,
        101 => LogsFault::Unfaithful { log, entry: place },
        code => match log_fault(code, place) {
            LogFault::Refused(Refused::OutOfMemory) => LogsFault::OutOfMemory,
            fault => LogsFault::Unread { log, fault },
        },
    }
}

/// The head of the log that the text begins with, and its first entries, so many, where it has as many.
pub fn first_entries(log: &[u8], count: u64) -> &[u8] {
    // SAFETY: the pointer and the length are those of one slice.
    let length = unsafe { foreign::tellwydar_log_part(log.as_ptr(), log.len(), count) };
    &log[..length]
}

/// The text of the record that has the steps of these logs in an order that is a run: [`verify`](crate::verify) takes
/// it. They are the logs of all processes of one chapter, in any order.
///
/// # Errors
///
/// Why there is no such record.
pub fn merge_logs(logs: &[&[u8]]) -> Result<Vec<u8>, LogsFault> {
    let (texts, lengths) = (logs.concat(), logs.iter().map(|it| it.len() as u64).collect::<Vec<_>>());
    let mut room = vec![0; texts.len()];
    loop {
        let mut told = MergedRow::default();
        // SAFETY: each pointer and length are those of one slice, the rooms are apart, and no pointer is null.
        let code = unsafe {
            let (output, size) = (room.as_mut_ptr(), room.len());
            foreign::tellwydar_merge_logs(
                texts.as_ptr(),
                texts.len(),
                lengths.as_ptr(),
                lengths.len(),
                output,
                size,
                &mut told,
            )
        };
        if code != 0 {
            return Err(fault_of(code, told.log as usize, told.place));
        }
        let enough = told.length <= room.len();
        room.resize(told.length, 0);
        if enough {
            return Ok(room);
        }
    }
}
