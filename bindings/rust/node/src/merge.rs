//! The run that logs are. That the library finds: it puts all entries into one order, and judges that.
use crate::fault::{Fault, say};
use crate::log_text::{self, at_entry};
use std::path::{Path, PathBuf};
use tellwydar::{LogHead, LogsFault, first_entries, merge_logs, verify};

/// A log, each entry of which is a step of its process.
struct Log<'a> {
    path: &'a Path,
    head: LogHead,
    text: Vec<u8>,
    /// So many bytes at its end don't stand whole.
    dropped: usize,
}

impl<'a> Log<'a> {
    fn read(path: &'a PathBuf) -> Result<Self, Fault> {
        let text = log_text::read(path)?;
        let dropped = text.len() - log_text::open(path, &text, 0)?.whole();
        Ok(Self { path, head: log_text::head(path, &text)?, text, dropped })
    }
}

/// Why there is no record of these logs, by their paths and lines.
fn told(logs: &[Log<'_>], fault: LogsFault) -> Fault {
    let path = |at: usize| logs[at].path.display();
    Fault::OtherLog(match fault {
        LogsFault::Unread { log, fault } => return log_text::fault(logs[log].path, fault),
        LogsFault::Unfaithful { log, entry } => return at_entry(logs[log].path, entry, "unfaithful"),
        LogsFault::Other { log, .. } => {
            let first = &logs[0].head;
            // (each is of a process of its own)
            let head = LogHead { process: first.process, ..logs[log].head.clone() };
            let (other, of_first) = log_text::differs(&head, first).unwrap_or_default();
            format!("{} is of {other}, and {} of {of_first}", path(log), path(0))
        }
        LogsFault::Twice { log, before } => {
            format!("{} and {} are both of process {}", path(log), path(before), logs[log].head.process)
        }
        fault => fault.to_string(),
    })
}

/// The record of these logs in an order that is a run. With `cut` what is in none is left out.
fn record(paths: &[PathBuf], cut: bool) -> Result<Vec<u8>, Fault> {
    let mut logs = paths.iter().map(Log::read).collect::<Result<Vec<_>, _>>()?;
    loop {
        let texts: Vec<&[u8]> = logs.iter().map(|it| it.text.as_slice()).collect();
        match merge_logs(&texts) {
            Ok(record) => {
                logs.iter().for_each(|it| log_text::say_cut(it.path, it.dropped));
                return Ok(record);
            }
            Err(LogsFault::Unfaithful { log, entry }) if cut => {
                say(format_args!("cut: {}", told(&logs, LogsFault::Unfaithful { log, entry })));
                let length = first_entries(&logs[log].text, entry).len();
                logs[log].text.truncate(length);
            }
            Err(fault) => return Err(told(&logs, fault)),
        }
    }
}

/// The report of the run that these logs are.
///
/// With `cut` what is in no run of first entries of the logs is left out, with a word on the error stream.
///
/// # Errors
///
/// The first place at which they are none.
pub fn merge(paths: &[PathBuf], cut: bool) -> Result<Vec<u8>, Fault> {
    let report = verify(&record(paths, cut)?);
    let line = String::from_utf8_lossy(&report.line).trim_end().to_string();
    if report.status == 0 { Ok(report.answer) } else { Err(Fault::OtherLog(line)) }
}

#[cfg(test)]
#[path = "merge_tests.rs"]
mod tests;
