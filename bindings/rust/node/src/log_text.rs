//! The text of a log, and whose it is, as the library tells it.
use crate::fault::{Fault, at_path, say};
use std::fs;
use std::path::Path;
use tellwydar::{LogFault, LogHead, LoggedNode};

/// The lines of a log's head: an entry stands on a line behind them.
const HEAD: u64 = 9;

/// What the head of the log at a path says.
pub fn head(path: &Path, text: &[u8]) -> Result<LogHead, Fault> {
    LoggedNode::head(text)?.ok_or_else(|| Fault::of_log(path, "no head of a log"))
}

/// The text of a file, without the zeros at its end: those are room that was made.
pub fn read(path: &Path) -> Result<Vec<u8>, Fault> {
    Ok(without_room(fs::read(path).map_err(|why| at_path(path, why))?))
}

pub fn without_room(mut text: Vec<u8>) -> Vec<u8> {
    text.truncate(text.iter().rposition(|&it| it != 0).map_or(0, |at| at + 1));
    text
}

/// Says how many bytes behind a log are none of it, if there are some.
pub fn say_cut(path: &Path, count: usize) {
    if count > 0 {
        say(format_args!("{}: the last {count} bytes are no whole entries; dropped", path.display()));
    }
}

/// How many entries the lines of a log are.
pub fn entries(text: &[u8]) -> u64 {
    (text.iter().filter(|&&it| it == b'\n').count() as u64).saturating_sub(HEAD)
}

/// A node that goes on after the log at a path, of which so many entries are not to be lost.
pub fn open(path: &Path, text: &[u8], durable: u64) -> Result<LoggedNode, Fault> {
    LoggedNode::open(text, durable).map_err(|why| fault(path, why))
}

/// A fault of an entry, by its line.
pub fn at_entry(path: &Path, entry: u64, why: &str) -> Fault {
    Fault::of_log(path, format!("line {}: {why}", HEAD + entry + 1))
}

/// Why the text at a path is no log, by its lines.
pub fn fault(path: &Path, why: LogFault) -> Fault {
    match why {
        LogFault::NotALog { line } => Fault::of_log(path, format!("line {line}: no line of a log")),
        LogFault::NotAStep { entry } => at_entry(path, entry, "no step of its process"),
        LogFault::Foreign { entry } => at_entry(path, entry, "of another process"),
        LogFault::Damaged { entry } => at_entry(path, entry, "changed, or a line before it is missing"),
        LogFault::Refused(why) => Fault::of_log(path, why),
    }
}

/// The first of what two heads say that differs, but for what was drawn, in the words of their lines.
pub fn differs(found: &LogHead, wanted: &LogHead) -> Option<(String, String)> {
    let words = |it: &LogHead| {
        [
            format!("cluster {}", it.cluster),
            format!("process {}", it.process),
            format!("chapter {}", it.chapter),
            format!("front {}", it.front),
            format!("processes {}", it.processes),
            format!("registers {}", it.names.join(" ")),
        ]
    };
    words(found).into_iter().zip(words(wanted)).find(|(found, wanted)| found != wanted)
}

#[cfg(test)]
#[path = "log_tests.rs"]
pub mod tests;
