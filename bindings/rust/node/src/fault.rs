//! Why a node refuses a call, doesn't start, or stopped.
use std::fmt;
use std::io::{self, Write};
use std::os::fd::AsRawFd;
use std::path::{Path, PathBuf};
use tellwydar::Refused;
use zmq::{POLLOUT, PollItem};

/// Why a call isn't answered, why there is no node, or why logs have no report. Only after `Stopped` and what comes
/// after it in this list a node has stopped.
#[derive(Debug)]
pub enum Fault {
    /// An operation goes on, or its answer wasn't fetched.
    Busy,
    /// No answer yet. The operation goes on, and [`crate::Node::wait`] gives its answer.
    TimedOut,
    /// Nothing was called in time: a chapter ended meanwhile, or not all others were heard yet, or they were too far
    /// behind with what this node cast, or the disk had to do with what came before.
    Paused,
    /// The bell rang first. As after `TimedOut` and `Paused`, what was called goes on.
    Rung,
    /// The process refuses the call, and nothing has changed.
    Refused(Refused),
    /// No operation goes on for which one could wait.
    Nothing,
    /// The node has stopped before.
    Stopped,
    /// The process stopped for good.
    Failed(Refused),
    /// The log lost entries: another process accepted more bodies than it has. This is the line that says so.
    LogLost(String),
    /// A log is there where none may be, or isn't one of this process, or a file is no log, or logs aren't of one run.
    OtherLog(String),
    /// The configuration, a script or an option says something else than it should.
    Config(String),
    /// There is no road to the others: an address or a key is refused.
    Road(String),
    Io(io::Error),
}

impl Fault {
    /// Whether the node goes on after this fault.
    pub(crate) fn is_of_a_call(&self) -> bool {
        matches!(self, Self::Busy | Self::TimedOut | Self::Paused | Self::Rung | Self::Refused(_) | Self::Nothing)
    }

    /// A fault about the log at a path.
    pub(crate) fn of_log(path: &Path, why: impl fmt::Display) -> Self {
        Self::OtherLog(format!("{}: {why}", path.display()))
    }
}

/// Says a line on the error stream, if anybody reads that: where it is full nothing waits for it.
pub fn say(line: impl fmt::Display) {
    let mut stream = io::stderr();
    if zmq::poll(&mut [PollItem::from_fd(stream.as_raw_fd(), POLLOUT)], 0).is_ok_and(|it| it > 0) {
        let _ = stream.write_all(format!("{line}\n").as_bytes());
    }
}

/// A fault, and the path at which it came up.
#[derive(Debug)]
struct AtPath(PathBuf, io::Error);

impl fmt::Display for AtPath {
    fn fmt(&self, f: &mut fmt::Formatter<'_>) -> fmt::Result {
        write!(f, "{}: {}", self.0.display(), self.1)
    }
}

impl std::error::Error for AtPath {}

/// The same fault, with the path at which it came up.
pub fn at_path(path: &Path, why: io::Error) -> io::Error {
    io::Error::new(why.kind(), AtPath(path.to_path_buf(), why))
}

/// Whether no file can be opened since there are too many.
pub fn is_of_too_many(why: &io::Error) -> bool {
    const ENFILE: i32 = 23;
    const EMFILE: i32 = 24;
    let at_path = why.get_ref().and_then(|it| it.downcast_ref::<AtPath>());
    matches!(at_path.map_or(why, |it| &it.1).raw_os_error(), Some(ENFILE | EMFILE))
}

impl fmt::Display for Fault {
    fn fmt(&self, f: &mut fmt::Formatter<'_>) -> fmt::Result {
        match self {
            Self::Busy => f.write_str("an operation goes on"),
            Self::TimedOut => f.write_str("no answer in time"),
            Self::Paused => f.write_str(
                "nothing was called in time: a chapter ended, others are unheard or far behind, or the disk hangs",
            ),
            Self::Rung => f.write_str("the bell rang"),
            Self::Refused(why) => write!(f, "refused: {why}"),
            Self::Nothing => f.write_str("no operation goes on"),
            Self::Stopped => f.write_str("the node has stopped"),
            Self::Failed(why) => write!(f, "the process stopped: {why}"),
            Self::LogLost(why) | Self::OtherLog(why) | Self::Config(why) | Self::Road(why) => f.write_str(why),
            Self::Io(why) => why.fmt(f),
        }
    }
}

impl std::error::Error for Fault {}

impl From<Refused> for Fault {
    /// Behind some refusals the process has stopped for good.
    fn from(why: Refused) -> Self {
        match why {
            Refused::Failed
            | Refused::OutOfMemory
            | Refused::ClockFull
            | Refused::Stopped
            | Refused::Unspelled
            | Refused::LogLost
            | Refused::LogFull => Self::Failed(why),
            _ => Self::Refused(why),
        }
    }
}

impl From<zmq::Error> for Fault {
    fn from(why: zmq::Error) -> Self {
        Self::Road(why.to_string())
    }
}

impl From<io::Error> for Fault {
    fn from(why: io::Error) -> Self {
        Self::Io(why)
    }
}

#[cfg(test)]
mod tests {
    use super::*;

    #[test]
    fn a_node_stops_behind_the_refusals_behind_which_one_in_python_does() {
        // (core.STOPS of the package)
        for why in [
            Refused::Failed,
            Refused::OutOfMemory,
            Refused::ClockFull,
            Refused::Stopped,
            Refused::Unspelled,
            Refused::LogLost,
            Refused::LogFull,
        ] {
            assert!(!Fault::from(why).is_of_a_call(), "{why}");
        }
        for why in [Refused::Busy, Refused::NoRegister, Refused::Unheard, Refused::Ahead] {
            assert!(Fault::from(why).is_of_a_call(), "{why}");
        }
    }
}
