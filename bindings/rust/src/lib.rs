//! Shared registers over totally ordered broadcast, from a library that is proved.
//!
//! Each process of a [`World`] keeps a copy of all registers, and keeps it in step by Lamport's totally ordered
//! multicast. One steps a world by events: calls of operations, takes of frames, ticks. A [`History`](Entry) of one's
//! own is judged by [`check_serial`] and [`check_points`]. The commands of the program `awreg` are [`replay`],
//! [`check`], [`play`] and [`play_fair`]. A [`Process`] is one process alone, whose frames one carries oneself; what
//! such processes did is put into one order by [`merge`] and judged by [`verify`]. A [`LoggedNode`] is a process that
//! outlives crashes by its log. What any system answered its clients is judged by [`judge`] and [`judge_rows`].
//!
//! ```
//! use tellwydar::{Answer, Event, Linear, Op, World};
//!
//! let mut world = World::<Linear>::new(2, 1)?;
//! world.step(Event::Call { process: 0, op: Op::Write { register: 0, value: 5 } })?;
//! world.step(Event::Take { from: 0, to: 1, number: 0 })?;
//! let reply = world.step(Event::Take { from: 1, to: 0, number: 1 })?;
//! assert_eq!(reply.map(|it| it.answer), Some(Answer::Done));
//! assert_eq!(world.points()?.len(), 1);
//! # Ok::<(), tellwydar::Refused>(())
//! ```
//!
//! What the library does is proved (docs/LIBRARY.md of the repository). Trusted beside it are this crate, its
//! declarations of the library's functions, and the compilers.

mod checkers;
mod foreign;
mod fronts;
mod handles;
mod histories;
mod logs;
mod messages;
mod nodes;
mod processes;
mod rooms;
mod texts;
mod worlds;

pub use checkers::{Fault, check_points, check_serial};
pub use fronts::{FrontEnd, NoFrontEnd};
pub use histories::{Call, End, Judgement, Judging, Row, Word, judge, judge_report, judge_rows, judge_with};
pub use logs::{HeadPart, LogsFault, first_entries, merge_logs};
pub use messages::{Brings, Greeting, MESSAGE_START, Meeting, Meets, Met, message_start};
pub use nodes::{LogFault, LogHead, LoggedNode, Look, Output};
pub use processes::{Frames, Known, Process};
pub use rooms::{NoRoom, Room, room};
pub use texts::{Told, check, merge, play, play_fair, replay, story, verify};
pub use worlds::{Event, Front, Linear, LocalRead, LocalWrite, RealTime, Refused, Reply, World};

/// What a process calls.
#[derive(Clone, Copy, Debug, PartialEq, Eq, Hash)]
pub enum Op {
    Read {
        register: u16,
    },
    Write {
        register: u16,
        value: u64,
    },
    /// Writes, and answers what was there.
    Swap {
        register: u16,
        value: u64,
    },
    /// Writes where the expected value is there, and answers whether it was.
    CompareAndSwap {
        register: u16,
        expected: u64,
        value: u64,
    },
}

/// What a process is answered.
#[derive(Clone, Copy, Debug, PartialEq, Eq, Hash)]
pub enum Answer {
    Done,
    Value(u64),
    /// Of a compare-and-swap: another value was there than the expected one, and nothing has changed.
    Unequal,
}

/// An operation: the process that called it, and its number there, from 0.
#[derive(Clone, Copy, Debug, PartialEq, Eq, PartialOrd, Ord, Hash)]
pub struct OpId {
    pub process: u8,
    pub number: u32,
}

/// A call or an answer, by the event of this number.
#[derive(Clone, Copy, Debug, PartialEq, Eq, Hash)]
pub enum Entry {
    Called { at: u32, id: OpId, op: Op },
    Answered { at: u32, id: OpId, answer: Answer },
}

/// An operation's point: an event between its call and its answer.
#[derive(Clone, Copy, Debug, PartialEq, Eq, Hash)]
pub struct Point {
    pub id: OpId,
    pub at: u32,
}
