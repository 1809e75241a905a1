//! Nodes: one process that outlives crashes by its log, which its owner writes down.
use crate::foreign::{self, LogRow};
use crate::handles::Handle;
use crate::processes::{Frames, Known, ROOM, reply_of, with_numbers};
use crate::worlds::refused;
use crate::{FrontEnd, Op, Refused, Reply, Room};
use std::fmt;

/// An entry's line has at most 151 bytes.
const LINE: usize = 160;
/// The lines of a log's head have less than that beside the names.
const HEAD: usize = 512;
const NO_PROCESS: u32 = 18;
const NOTHING_DUE: u32 = 71;
const NOT_A_LOG: u32 = 72;

/// Which log it is, and what its cluster is like.
#[derive(Clone, Debug, PartialEq, Eq)]
pub struct LogHead {
    /// The same in all logs of a cluster, and in no other's.
    pub cluster: u64,
    /// From 0.
    pub chapter: u64,
    /// Drawn anew for each log that is begun, so that a process that lost its log isn't taken for the same one.
    pub begun: u64,
    pub front: FrontEnd,
    pub processes: u8,
    pub process: u8,
    /// Of the registers: 1 to 4,096 names of 1 to 16 letters a to z, which differ.
    pub names: Vec<String>,
}

/// Why a text isn't opened as a log. Lines are counted from 1, entries from 0.
#[derive(Clone, Copy, Debug, PartialEq, Eq)]
pub enum LogFault {
    /// The reader stopped at this line, of those that stand whole behind their seals.
    NotALog { line: u64 },
    /// This entry was told durable, and doesn't stand whole.
    Damaged { entry: u64 },
    /// This entry is no step of the process.
    NotAStep { entry: u64 },
    /// This entry is of another process.
    Foreign { entry: u64 },
    /// `NoProcess`, `LogFull` or `OutOfMemory`.
    Refused(Refused),
}

impl fmt::Display for LogFault {
    fn fmt(&self, f: &mut fmt::Formatter<'_>) -> fmt::Result {
        match self {
            Self::NotALog { line } => write!(f, "line {line}: not a log"),
            Self::Damaged { entry } => write!(f, "entry {entry}: damaged"),
            Self::NotAStep { entry } => write!(f, "entry {entry}: no step"),
            Self::Foreign { entry } => write!(f, "entry {entry}: of another process"),
            Self::Refused(why) => why.fmt(f),
        }
    }
}

impl std::error::Error for LogFault {}

impl From<&LogHead> for LogRow {
    fn from(head: &LogHead) -> Self {
        Self {
            cluster: head.cluster,
            chapter: head.chapter,
            begun: head.begun,
            front: head.front.number().into(),
            processes: head.processes.into(),
            process: head.process,
        }
    }
}

impl LogHead {
    /// The head that these numbers and names say.
    fn of(row: &LogRow, names: &[u8]) -> Option<Self> {
        let names = String::from_utf8_lossy(names);
        Some(Self {
            cluster: row.cluster,
            chapter: row.chapter,
            begun: row.begun,
            front: FrontEnd::of_number(row.front.try_into().ok()?)?,
            processes: row.processes.try_into().ok()?,
            process: row.process,
            names: names.split(' ').map(str::to_string).collect(),
        })
    }
}

/// The fault that these numbers tell.
pub(crate) fn log_fault(code: u32, place: u64) -> LogFault {
    match code {
        NOT_A_LOG => LogFault::NotALog { line: place },
        73 => LogFault::Damaged { entry: place },
        74 => LogFault::NotAStep { entry: place },
        75 => LogFault::Foreign { entry: place },
        code => LogFault::Refused(refused(code)),
    }
}

/// What is due at a look at another process.
#[derive(Clone, Copy, Debug, PartialEq, Eq)]
pub struct Look {
    /// That one is to be greeted.
    pub greets: bool,
    /// This node is to tick.
    pub ticks: bool,
}

/// What goes out of one step.
#[derive(Clone, Debug)]
pub struct Output<'a> {
    pub frames: Frames<'a>,
    /// To the caller of an operation, if there is one.
    pub reply: Option<Reply>,
}

/// A process that outlives crashes by its log. Its owner writes the bytes that each step gives behind the log, in their
/// order; says how many entries are durable once they are; and carries what is handed out. The frames and the reply of
/// a step are handed out once its entry is durable, and no sooner. It stays on its thread.
///
/// ```
/// use tellwydar::{FrontEnd, LogHead, LoggedNode, Op};
///
/// let (names, front) = (vec!["x".to_string()], FrontEnd::Linear);
/// let head = LogHead { cluster: 7, chapter: 0, begun: 12, front, processes: 2, process: 0, names };
/// let mut log = LoggedNode::begin(&head)?;
/// let mut node = LoggedNode::open(&log, 0)?;
/// node.hear(1, 0)?; // process 1 says that it accepted nothing from this one: its `known(0).expected`
/// log.extend_from_slice(node.call(Op::Write { register: 0, value: 5 })?);
/// node.mark_durable(node.logged())?; // a log is a file: write, then sync
/// let output = node.hand_out()?.expect("what goes out of the call");
/// assert_eq!((output.frames.count(), output.reply), (1, None));
/// # Ok::<(), Box<dyn std::error::Error>>(())
/// ```
#[derive(Debug)]
pub struct LoggedNode {
    handle: Handle,
    line: [u8; LINE],
    room: Vec<u8>,
}

impl LoggedNode {
    /// The log of a process that did nothing yet.
    ///
    /// # Errors
    ///
    /// `NoShape`, `NoProcess`, `BadNames` and `OutOfMemory`.
    pub fn begin(head: &LogHead) -> Result<Vec<u8>, Refused> {
        // (the library takes one text, with a space between two names)
        if head.names.iter().any(|it| it.contains(' ')) {
            return Err(Refused::BadNames);
        }
        let (row, names) = (LogRow::from(head), head.names.join(" "));
        let (mut room, mut length) = (vec![0; HEAD + names.len()], 0);
        // SAFETY: each pointer and length are those of one value, which are apart.
        let code = unsafe {
            foreign::tellwydar_node_begin(&row, names.as_ptr(), names.len(), room.as_mut_ptr(), room.len(), &mut length)
        };
        room.truncate(length);
        if code == 0 { Ok(room) } else { Err(refused(code)) }
    }

    /// Whether the text has a part of this log's first four lines and zeros, or these lines and fewer than five line
    /// feeds behind them. All that a crash can leave before the head is whole is so, and no log is: it can be begun
    /// anew. The cluster, the chapter and the process are looked at.
    ///
    /// # Errors
    ///
    /// `OutOfMemory`.
    pub fn is_headless(text: &[u8], head: &LogHead) -> Result<bool, Refused> {
        let (row, mut headless) = (LogRow::from(head), 0);
        // SAFETY: each pointer and length are those of one value, which are apart.
        let code = unsafe { foreign::tellwydar_node_is_headless(&row, text.as_ptr(), text.len(), &mut headless) };
        if code == 0 { Ok(headless == 1) } else { Err(refused(code)) }
    }

    /// What the head of the log says that the text begins with, whatever stands behind it. None where it begins with no
    /// head.
    ///
    /// # Errors
    ///
    /// `OutOfMemory`.
    pub fn head(text: &[u8]) -> Result<Option<LogHead>, Refused> {
        let (mut row, mut room, mut length) = (LogRow::default(), vec![0; HEAD], 0);
        loop {
            // SAFETY: each pointer and length are those of one value, which are apart.
            let code = unsafe {
                let (output, size) = (room.as_mut_ptr(), room.len());
                foreign::tellwydar_log_head(text.as_ptr(), text.len(), &mut row, output, size, &mut length)
            };
            match code {
                0 if length <= room.len() => return Ok(LogHead::of(&row, &room[..length])),
                0 => room.resize(length, 0),
                NOT_A_LOG | NO_PROCESS => return Ok(None),
                code => return Err(refused(code)),
            }
        }
    }

    /// A node that goes on after its log, and hasn't heard from any other process. All entries count as durable, so see
    /// that they are; `durable` is how many of them were told so before. What a crash left behind the first
    /// [`whole`](Self::whole) bytes of the text is to be cut off before more is written.
    ///
    /// # Errors
    ///
    /// Where the text is no log of one process, or has fewer entries than were told durable.
    pub fn open(text: &[u8], durable: u64) -> Result<Self, LogFault> {
        // SAFETY: the pointer is written where the result is 0.
        let make = |at: &mut _| unsafe { foreign::tellwydar_node_new(at) };
        let handle = Handle::new(make, foreign::tellwydar_node_close).map_err(LogFault::Refused)?;
        let node = Self { handle, line: [0; LINE], room: vec![0; ROOM] };
        // SAFETY: the handle is of `tellwydar_node_new`; the pointer and the length are those of one slice.
        let code = unsafe { foreign::tellwydar_node_open(node.handle.as_ptr(), text.as_ptr(), text.len(), durable) };
        let place = node.look(14, 0);
        if code == 0 { Ok(node) } else { Err(log_fault(code, place)) }
    }

    /// Calls an operation, and gives the bytes by which the log grows.
    ///
    /// # Errors
    ///
    /// `Unheard` where the operation would be cast, and not all others were heard; `LogLost` and `Stopped` where the
    /// node has stopped; and what a process refuses. As of every step, there is no entry then.
    pub fn call(&mut self, op: Op) -> Result<&[u8], Refused> {
        let handle = self.handle.as_ptr();
        // SAFETY: `&mut self` lends the handle to one call.
        let call = |kind, register, value| unsafe { foreign::tellwydar_node_call(handle, kind, register, value) };
        // SAFETY: as above.
        let compare_and_swap = |register, expected, value| unsafe {
            foreign::tellwydar_node_compare_and_swap(handle, register, expected, value)
        };
        self.stepped(with_numbers(op, call, compare_and_swap))
    }

    /// Takes a frame that the process `from` put for this one, as often and in whatever order, and gives the bytes by
    /// which the log grows.
    ///
    /// # Errors
    ///
    /// `NotAFrame` where the bytes spell none.
    pub fn take(&mut self, from: u8, frame: &[u8]) -> Result<&[u8], Refused> {
        // SAFETY: as in `call`; the pointer and the length are those of one slice.
        let code = unsafe { foreign::tellwydar_node_take(self.handle.as_ptr(), from, frame.as_ptr(), frame.len()) };
        self.stepped(code)
    }

    /// Puts the first unacknowledged frames of every link again, and gives the bytes by which the log grows.
    pub fn tick(&mut self) -> Result<&[u8], Refused> {
        // SAFETY: as in `call`.
        let code = unsafe { foreign::tellwydar_node_tick(self.handle.as_ptr()) };
        self.stepped(code)
    }

    /// Notes that so many entries of the log are durable, those that it was opened with among them.
    ///
    /// # Errors
    ///
    /// `NotLogged` where there are fewer.
    pub fn mark_durable(&mut self, count: u64) -> Result<(), Refused> {
        // SAFETY: as in `call`.
        told(unsafe { foreign::tellwydar_node_mark_durable(self.handle.as_ptr(), count) })
    }

    /// What goes out of the first step for which that was not handed out yet, if its entry is durable.
    ///
    /// # Errors
    ///
    /// `OutOfMemory`: what was handed out is lost then, as if the node had crashed behind it.
    pub fn hand_out(&mut self) -> Result<Option<Output<'_>>, Refused> {
        // SAFETY: as in `call`.
        let code = unsafe { foreign::tellwydar_node_hand_out(self.handle.as_ptr()) };
        if code == NOTHING_DUE {
            return Ok(None);
        }
        let reply = reply_of(code, |what| self.look(what, 0))?;
        let (room, mut length) = (&mut self.room, 0);
        // SAFETY: as in `call`; the pointer and the length are those of one slice.
        told(unsafe {
            foreign::tellwydar_node_frames(self.handle.as_ptr(), room.as_mut_ptr(), room.len(), &mut length)
        })?;
        Ok(Some(Output { frames: Frames(&self.room[..length]), reply }))
    }

    /// Hears that another process accepted so many bodies from this one: its `known(..).expected` of this one, which
    /// processes tell each other when they meet.
    ///
    /// # Errors
    ///
    /// `LogLost` where that is more than were ever queued for it: then this node's log was lost, and it stops for good.
    /// `NoProcess` where there is no other one of this number.
    pub fn hear(&mut self, other: u8, count: u64) -> Result<(), Refused> {
        // SAFETY: as in `call`.
        told(unsafe { foreign::tellwydar_node_hear(self.handle.as_ptr(), other, count) })
    }

    /// The bytes that tell the others how far it has come in its chapter; it is quiet where it calls nothing more and
    /// no operation goes on. The node keeps that it told this.
    ///
    /// # Errors
    ///
    /// `OutOfMemory`.
    pub fn tell_state(&mut self, is_quiet: bool) -> Result<&[u8], Refused> {
        let (handle, room, mut length) = (self.handle.as_ptr(), &mut self.room, 0);
        // SAFETY: as in `call`; the pointer and the length are those of one slice.
        told(unsafe {
            foreign::tellwydar_node_tell_state(handle, is_quiet.into(), room.as_mut_ptr(), room.len(), &mut length)
        })?;
        Ok(&self.room[..length])
    }

    /// Hears such bytes of a node of the same chapter, in whatever order they come: the latest are kept.
    ///
    /// # Errors
    ///
    /// `NoProcess`, `NoState` where they are no state of a process of this cluster, and `OutOfMemory`.
    pub fn hear_state(&mut self, sender: u8, bytes: &[u8]) -> Result<(), Refused> {
        // SAFETY: as in `call`; the pointer and the length are those of one slice.
        told(unsafe { foreign::tellwydar_node_hear_state(self.handle.as_ptr(), sender, bytes.as_ptr(), bytes.len()) })
    }

    /// Whether the chapter is over, by what it told and heard: then everybody has accepted all that anybody put.
    pub fn is_over(&self) -> bool {
        // SAFETY: as in `look`.
        unsafe { foreign::tellwydar_node_is_over(self.handle.as_ptr()) != 0 }
    }

    /// Sets the room of its chapter, and tells with which values of the registers, in their order, the one before
    /// ended: none for the first one. Those that aren't 0 are what process 0 writes first, and nothing else is called
    /// until they are delivered.
    ///
    /// # Errors
    ///
    /// `NoShape` where there are more than 4,096 values, and `OutOfMemory`.
    pub fn follow(&mut self, room: Room, values: &[u64]) -> Result<(), Refused> {
        let (handle, Room { operations, entries, ahead, .. }) = (self.handle.as_ptr(), room);
        // SAFETY: as in `call`.
        told(unsafe { foreign::tellwydar_node_set_room(handle, operations, entries, ahead) })?;
        // SAFETY: as in `call`; the pointer and the length are those of one slice.
        told(unsafe { foreign::tellwydar_node_follow(handle, values.as_ptr(), values.len()) })
    }

    /// Asks for the end of its chapter, as is due where another node tells how far it has come.
    pub fn end(&mut self) {
        // SAFETY: as in `call`. (A chapter without a room has no end.)
        unsafe { foreign::tellwydar_node_end(self.handle.as_ptr()) };
    }

    /// Whether its chapter is to end, since there is little room left or somebody has asked for it: then it calls
    /// nothing more.
    pub fn is_ending(&self) -> bool {
        self.course(0, false) != 0
    }

    /// Whether so many of its casts are on their way that no other is made.
    pub fn is_far_ahead(&self) -> bool {
        self.course(1, false) != 0
    }

    /// Whether the values that the chapter before ended with aren't all delivered here, or the write of one goes on:
    /// then nothing else is called. (`is_running`: an operation runs, or its reply isn't handed out.)
    pub fn is_opening(&self, is_running: bool) -> bool {
        self.course(2, is_running) != 0
    }

    /// Whether it calls nothing more in its chapter, and no operation goes on.
    pub fn is_quiet(&self, is_running: bool) -> bool {
        self.course(3, is_running) != 0
    }

    /// How many of its calls weren't made to write what the chapter before ended with.
    pub fn own_calls(&self) -> u64 {
        self.course(4, false)
    }

    /// What it writes next of what the chapter before ended with: only process 0 does.
    pub fn next_opening(&self) -> Option<Op> {
        let next = |what| self.course(what, false);
        (next(5) != 0).then(|| Op::Write { register: next(6) as u16, value: next(7) })
    }

    /// How many entries its log has.
    pub fn logged(&self) -> u64 {
        self.look(8, 0)
    }

    /// How many of them are calls.
    pub fn calls(&self) -> u64 {
        self.look(15, 0)
    }

    /// How many of them it was told are durable.
    pub fn durable(&self) -> u64 {
        self.look(9, 0)
    }

    /// How many bytes of the text that it was opened with are the log.
    pub fn whole(&self) -> usize {
        self.look(13, 0) as usize
    }

    /// Whether it has stopped for good: its log was lost, or an entry had no text.
    pub fn is_stopped(&self) -> bool {
        self.look(10, 0) + self.look(11, 0) > 0
    }

    /// Whether it has heard from all others, and so may cast.
    pub fn has_heard_all(&self) -> bool {
        self.look(12, 0) != 0
    }

    /// How many casts it has delivered.
    pub fn delivered(&self) -> u64 {
        self.look(1, 0)
    }

    /// How many of its own casts are not delivered here.
    pub fn unsettled(&self) -> u64 {
        self.look(2, 0)
    }

    /// How many data frames are not acknowledged, over all links.
    pub fn pending(&self) -> u64 {
        self.look(3, 0)
    }

    /// Whether an operation runs.
    pub fn busy(&self) -> bool {
        self.look(4, 0) != 0
    }

    /// The value of a register in its copy, 0 where there is none.
    pub fn register(&self, register: u16) -> u64 {
        self.look(5, register)
    }

    /// What its process knows of another one: all 0 where there is no other of this number.
    pub fn known(&self, peer: u8) -> Known {
        let known = |what| self.number_of(peer, what);
        Known { first: known(0), next: known(1), expected: known(2), seen: known(3) }
    }

    /// Whether it has heard from a process.
    pub fn has_heard(&self, peer: u8) -> bool {
        self.number_of(peer, 4) != 0
    }

    /// Whether another process is silent for so long, 127 looks or more, that it is only greeted.
    pub fn is_long_silent(&self, peer: u8) -> bool {
        self.number_of(peer, 5) != 0
    }

    /// Looks at another process, as is to be done every few milliseconds. Where it wasn't heard, or doesn't acknowledge
    /// a frame, something is due after 1, 2, 4, .. 64 looks, and from there on after each 100.
    pub fn watch(&mut self, peer: u8) -> Look {
        // SAFETY: as in `call`.
        let code = unsafe { foreign::tellwydar_node_watch(self.handle.as_ptr(), peer) };
        Look { greets: code & 1 != 0, ticks: code & 2 != 0 }
    }

    /// Notes that it took what came from another process: where that was silent for long, looks are counted anew.
    ///
    /// Tells whether to tick at once: where the last tick that was due for that process put frames again, and it has
    /// acknowledged just these, though it hasn't acknowledged more.
    pub fn came(&mut self, peer: u8) -> bool {
        // SAFETY: as in `call`.
        unsafe { foreign::tellwydar_node_came(self.handle.as_ptr(), peer) != 0 }
    }

    fn stepped(&mut self, code: u32) -> Result<&[u8], Refused> {
        told(code)?;
        // SAFETY: as in `call`; the pointer and the length are those of one array.
        let count = unsafe { foreign::tellwydar_node_bytes(self.handle.as_ptr(), self.line.as_mut_ptr(), LINE) };
        Ok(&self.line[..count])
    }

    fn number_of(&self, peer: u8, what: u32) -> u64 {
        // SAFETY: as in `look`.
        unsafe { foreign::tellwydar_node_known(self.handle.as_ptr(), what, peer) }
    }

    fn course(&self, what: u32, is_running: bool) -> u64 {
        // SAFETY: as in `look`.
        unsafe { foreign::tellwydar_node_course(self.handle.as_ptr(), what, is_running.into()) }
    }

    fn look(&self, what: u32, register: u16) -> u64 {
        // SAFETY: the type stays on its thread, so no other call goes on.
        unsafe { foreign::tellwydar_node_look(self.handle.as_ptr(), what, register) }
    }
}

fn told(code: u32) -> Result<(), Refused> {
    if code == 0 { Ok(()) } else { Err(refused(code)) }
}
