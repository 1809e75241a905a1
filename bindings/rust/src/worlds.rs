//! Worlds: all processes of a run, stepped event by event.
use crate::foreign;
use crate::handles::Handle;
use crate::processes::{reply_of, with_numbers};
use crate::{Answer, Entry, Op, OpId, Point};
use std::fmt;
use std::marker::PhantomData;

/// How operations start: one of the three front ends.
pub trait Front: sealed::Numbered {
    /// Its name in texts.
    const NAME: &'static str;
}

/// A front end whose runs have points: they are linearizable.
pub trait RealTime: Front {}

pub(crate) mod sealed {
    pub trait Numbered {
        const NUMBER: u32;
    }
}

/// Casts every operation and waits for its delivery.
#[derive(Clone, Copy, Debug)]
pub enum Linear {}
/// Casts updates, and reads its own copy.
#[derive(Clone, Copy, Debug)]
pub enum LocalRead {}
/// Answers writes at once; a read waits for the process's own writes.
#[derive(Clone, Copy, Debug)]
pub enum LocalWrite {}

impl sealed::Numbered for Linear {
    const NUMBER: u32 = 0;
}
impl sealed::Numbered for LocalRead {
    const NUMBER: u32 = 1;
}
impl sealed::Numbered for LocalWrite {
    const NUMBER: u32 = 2;
}
impl Front for Linear {
    const NAME: &'static str = "linear";
}
impl Front for LocalRead {
    const NAME: &'static str = "local-read";
}
impl Front for LocalWrite {
    const NAME: &'static str = "local-write";
}
impl RealTime for Linear {}

/// What happens at one process.
#[derive(Clone, Copy, Debug, PartialEq, Eq, Hash)]
pub enum Event {
    /// A process calls an operation.
    Call { process: u8, op: Op },
    /// A process takes a frame by its place on the wire, as often and in whatever order.
    Take { from: u8, to: u8, number: u32 },
    /// A process puts its first unacknowledged frames again.
    Tick { process: u8 },
}

/// An answer, and how many casts it counts with.
#[derive(Clone, Copy, Debug, PartialEq, Eq)]
pub struct Reply {
    pub answer: Answer,
    pub place: u64,
}

/// Why an event, a world, a process or a node is refused. Nothing has changed, but after `OutOfMemory` and `ClockFull`
/// the world or the process has stopped, and answers `Failed`.
#[derive(Clone, Copy, Debug, PartialEq, Eq)]
pub enum Refused {
    Failed,
    TooManyEvents,
    NoProcess,
    Busy,
    NoRegister,
    TooManyOperations,
    NoFrame,
    OutOfMemory,
    /// Of a process: a count is above the number of the next body.
    Ahead,
    /// Of a process: the time of an expected body isn't above that of the last one from its sender.
    Stale,
    /// Of a process: its clock would pass its last time.
    ClockFull,
    /// Of a process: these bytes spell no frame.
    NotAFrame,
    /// Not 1 to 64 processes, or not 1 to 4,096 registers.
    NoShape,
    /// Of a node: it stopped before, since there was no memory for the text of an entry.
    Stopped,
    /// Of a node: it made a step and stops here, since there was no memory for the text of its entry.
    Unspelled,
    /// Of a node, which has stopped: another process accepted more than was ever queued for it.
    LogLost,
    /// Of a node: the operation would be cast, and it hasn't heard from all others yet.
    Unheard,
    /// Of a node: its log has 1,048,576 entries.
    LogFull,
    /// Of a node: there was no memory before the step.
    NoRoom,
    /// Of a node: its log has fewer entries.
    NotLogged,
    /// These aren't 1 to 4,096 names of 1 to 16 letters a to z, which differ.
    BadNames,
    /// Of a node: these bytes are no state of a process of its cluster.
    NoState,
    /// The number of the chapter is too great for a message.
    NoChapter,
}

impl fmt::Display for Refused {
    fn fmt(&self, f: &mut fmt::Formatter<'_>) -> fmt::Result {
        f.write_str(match self {
            Self::Failed => "failed",
            Self::TooManyEvents => "too many events",
            Self::NoProcess => "no process",
            Self::Busy => "busy",
            Self::NoRegister => "no register",
            Self::TooManyOperations => "too many operations",
            Self::NoFrame => "no frame",
            Self::OutOfMemory => "out of memory",
            Self::Ahead => "ahead",
            Self::Stale => "stale",
            Self::ClockFull => "clock full",
            Self::NotAFrame => "not a frame",
            Self::NoShape => "no shape",
            Self::Stopped => "stopped",
            Self::Unspelled => "unspelled",
            Self::LogLost => "log lost",
            Self::Unheard => "unheard",
            Self::LogFull => "log full",
            Self::NoRoom => "no room",
            Self::NotLogged => "not logged",
            Self::BadNames => "bad names",
            Self::NoState => "no state",
            Self::NoChapter => "no chapter",
        })
    }
}

impl std::error::Error for Refused {}

pub(crate) fn refused(code: u32) -> Refused {
    match code {
        16 => Refused::Failed,
        17 => Refused::TooManyEvents,
        18 => Refused::NoProcess,
        19 => Refused::Busy,
        20 => Refused::NoRegister,
        21 => Refused::TooManyOperations,
        22 => Refused::NoFrame,
        24 => Refused::Ahead,
        25 => Refused::Stale,
        26 => Refused::ClockFull,
        48 => Refused::NotAFrame,
        34 => Refused::NoShape,
        64 => Refused::Stopped,
        65 => Refused::Unspelled,
        66 => Refused::LogLost,
        67 => Refused::Unheard,
        68 => Refused::LogFull,
        69 => Refused::NoRoom,
        70 => Refused::NotLogged,
        76 => Refused::BadNames,
        80 => Refused::NoState,
        84 => Refused::NoChapter,
        _ => Refused::OutOfMemory,
    }
}

/// All processes of a run with their wires. It stays on its thread.
#[derive(Debug)]
pub struct World<F: Front> {
    handle: Handle,
    front: PhantomData<F>,
}

impl<F: Front> World<F> {
    /// A world in which nothing happened yet.
    ///
    /// # Errors
    ///
    /// `NoShape` for other than 1 to 64 processes and 1 to 4,096 registers, and `OutOfMemory`.
    pub fn new(processes: u32, registers: u32) -> Result<Self, Refused> {
        // SAFETY: the pointer is written where the result is 0.
        let make = |at: &mut _| unsafe { foreign::tellwydar_world_new(F::NUMBER, processes, registers, at) };
        Ok(Self { handle: Handle::new(make, foreign::tellwydar_world_close)?, front: PhantomData })
    }

    /// Makes an event. The reply is the one that it gives.
    ///
    /// # Errors
    ///
    /// The first fault that applies; the world is as before, but after `OutOfMemory`.
    #[inline]
    pub fn step(&mut self, event: Event) -> Result<Option<Reply>, Refused> {
        let handle = self.handle.as_ptr();
        // SAFETY: the handle is of `tellwydar_world_new`, and `&mut self` lends it to one call.
        let step = |kind, process, number, from, value| unsafe {
            foreign::tellwydar_world_step(handle, kind, process, number, from, value)
        };
        let code = match event {
            Event::Call { process, op } => with_numbers(
                op,
                |kind, register, value| step(kind, process, register, 0, value),
                // SAFETY: as above.
                |register, expected, value| unsafe {
                    foreign::tellwydar_world_compare_and_swap(handle, process, register, expected, value)
                },
            ),
            Event::Take { from, to, number } => step(3, to, number, from, 0),
            Event::Tick { process } => step(4, process, 0, 0, 0),
        };
        // (a world tells the value and the place of a reply behind two numbers more than a process)
        reply_of(code, |what| self.look(what + 2, 0))
    }

    /// How many events were accepted.
    #[inline]
    pub fn events(&mut self) -> u32 {
        self.look(0, 0) as u32
    }

    /// The calls and answers so far.
    pub fn history(&mut self) -> Vec<Entry> {
        (0..self.look(1, 0) as u32).map(|at| self.entry(at)).collect()
    }

    /// A serial order of the history: every finished operation once, each process's own in their order, each
    /// answered as one memory does.
    pub fn serial_order(&mut self) -> Result<Vec<OpId>, Refused> {
        self.arrange()?;
        Ok((0..self.look(10, 0) as u32)
            .map(|at| OpId { process: self.look(11, at) as u8, number: self.look(12, at) as u32 })
            .collect())
    }

    fn entry(&mut self, place: u32) -> Entry {
        let at = self.look(2, place) as u32;
        let id = OpId { process: self.look(3, place) as u8, number: self.look(4, place) as u32 };
        let (register, value) = (self.look(6, place) as u16, self.look(7, place));
        match self.look(5, place) {
            0 => Entry::Called { at, id, op: Op::Read { register } },
            1 => Entry::Called { at, id, op: Op::Write { register, value } },
            2 => Entry::Called { at, id, op: Op::Swap { register, value } },
            3 => Entry::Answered { at, id, answer: Answer::Done },
            4 => Entry::Answered { at, id, answer: Answer::Value(value) },
            5 => Entry::Called { at, id, op: Op::CompareAndSwap { register, expected: self.look(17, place), value } },
            _ => Entry::Answered { at, id, answer: Answer::Unequal },
        }
    }

    fn arrange(&mut self) -> Result<(), Refused> {
        // SAFETY: as in `step`.
        match unsafe { foreign::tellwydar_world_arrange(self.handle.as_ptr()) } {
            0 => Ok(()),
            code => Err(refused(code)),
        }
    }

    #[inline]
    fn look(&self, what: u32, at: u32) -> u64 {
        // SAFETY: as in `step`: the type stays on its thread, so no other call goes on.
        unsafe { foreign::tellwydar_world_look(self.handle.as_ptr(), what, at) }
    }
}

impl<F: RealTime> World<F> {
    /// A linearization of the history: each operation with a point between its call and its answer.
    pub fn points(&mut self) -> Result<Vec<Point>, Refused> {
        self.arrange()?;
        Ok((0..self.look(13, 0) as u32)
            .map(|at| Point {
                id: OpId { process: self.look(14, at) as u8, number: self.look(15, at) as u32 },
                at: self.look(16, at) as u32,
            })
            .collect())
    }
}
