//! Messages between nodes: how they begin, who they are from, and what they bring.
use crate::foreign::{self, GreetingRow, HeardRow, LogRow, MetRow};
use crate::worlds::refused;
use crate::{LogHead, Refused};

/// How long the start of a message is: all before the byte that says what it brings.
pub const MESSAGE_START: usize = 33;

/// What a message brings, by its byte behind the start.
#[derive(Clone, Copy, Debug, PartialEq, Eq, Hash)]
pub enum Brings {
    /// Frames, one after the other.
    Frames,
    /// How far its sender has come in a chapter that ends.
    State,
    /// What its sender says where it meets the receiver.
    Greeting,
}

/// What a message is to the process that it came to: the first of these that applies.
#[derive(Clone, Copy, Debug, PartialEq, Eq, Hash)]
pub enum Met {
    /// Its bytes are none of a message.
    NoMessage,
    /// Of a cluster with another front end.
    OtherFront,
    /// Of a cluster with another number of processes.
    OtherProcesses,
    /// Of a cluster with other registers.
    OtherRegisters,
    OtherCluster,
    /// For another process.
    OtherReceiver,
    /// From no other process of the cluster, or not from the one by whose key it came.
    OtherSender,
    /// From a process that doesn't know yet that its chapter, the one before, is over.
    Late,
    /// From a process in some other chapter.
    Elsewhere,
    /// From a log that was begun anew: another one of its process was heard first.
    BegunAnew,
    /// From the process that it says, but nothing is known that it could bring.
    Unknown,
    /// From the process that it says, with what it brings.
    Peer(Brings),
}

/// What a message is, and what it says at its start: zeros where it is none.
#[derive(Clone, Copy, Debug, PartialEq, Eq)]
pub struct Meets {
    pub met: Met,
    pub sender: u8,
    pub receiver: u8,
    /// The number of the front end.
    pub front: u8,
    pub processes: u8,
    pub registers: u16,
    pub cluster: u64,
    pub chapter: u32,
    /// Of the sender's log.
    pub begun: u64,
}

impl From<MetRow> for Meets {
    fn from(row: MetRow) -> Self {
        let MetRow { sender, receiver, front, processes, registers, cluster, chapter, begun, .. } = row;
        let met = match (row.met, row.brings) {
            (0, 0) => Met::Peer(Brings::Frames),
            (0, 1) => Met::Peer(Brings::State),
            (0, _) => Met::Peer(Brings::Greeting),
            (1, _) => Met::Late,
            (2, _) => Met::Elsewhere,
            (3, _) => Met::OtherFront,
            (4, _) => Met::OtherProcesses,
            (5, _) => Met::OtherRegisters,
            (6, _) => Met::OtherCluster,
            (7, _) => Met::OtherReceiver,
            (8, _) => Met::OtherSender,
            (9, _) => Met::BegunAnew,
            (10, _) => Met::Unknown,
            _ => Met::NoMessage,
        };
        Self { met, sender, receiver, front, processes, registers, cluster, chapter, begun }
    }
}

/// How a message of the process of this log to another one begins.
///
/// # Errors
///
/// `NoShape`, `NoProcess`, `BadNames`, `NoChapter` and `OutOfMemory`.
pub fn message_start(head: &LogHead, to: u8) -> Result<[u8; MESSAGE_START], Refused> {
    // (the library takes one text, with a space between two names)
    if head.names.iter().any(|it| it.contains(' ')) {
        return Err(Refused::BadNames);
    }
    let (row, names, mut start) = (LogRow::from(head), head.names.join(" "), [0; MESSAGE_START]);
    // SAFETY: each pointer and length are those of one value, which are apart.
    let code = unsafe {
        foreign::tellwydar_message_start(&row, names.as_ptr(), names.len(), to, start.as_mut_ptr(), start.len())
    };
    if code == 0 { Ok(start) } else { Err(refused(code)) }
}

/// Who was heard in a chapter: of each process the log that was heard first.
#[derive(Clone, Debug)]
pub struct Meeting {
    own: [u8; MESSAGE_START],
    heard: Vec<HeardRow>,
}

impl Meeting {
    /// Nobody was heard yet by the process of this log.
    ///
    /// # Errors
    ///
    /// As of [`message_start`].
    pub fn new(head: &LogHead) -> Result<Self, Refused> {
        let heard = vec![HeardRow::default(); head.processes.into()];
        Ok(Self { own: message_start(head, head.process)?, heard })
    }

    /// What a message is that came by the key of this process, where there are keys. If it is from the process that it
    /// says, the log of that one is heard.
    pub fn meet(&mut self, key: Option<u8>, message: &[u8]) -> Meets {
        let mut row = MetRow::default();
        // SAFETY: each pointer and length are those of one value, which are apart.
        let code = unsafe {
            foreign::tellwydar_message_met(
                self.own.as_ptr(),
                self.own.len(),
                key.map_or(256, u32::from),
                message.as_ptr(),
                message.len(),
                self.heard.as_mut_ptr(),
                self.heard.len(),
                &mut row,
            )
        };
        assert_eq!(code, 0, "a start with a row for each process");
        row.into()
    }
}

/// What two processes tell each other when they meet.
#[derive(Clone, Copy, Debug, PartialEq, Eq)]
pub struct Greeting {
    /// Whether its sender hasn't heard from the receiver, or not for long, and so wants a greeting back.
    pub is_wanting: bool,
    /// How many bodies it accepted from the receiver.
    pub accepted: u64,
}

impl Greeting {
    pub fn bytes(self) -> [u8; 9] {
        let mut bytes = [0; 9];
        // SAFETY: the pointer and the length are those of one value.
        unsafe {
            foreign::tellwydar_message_greet(self.is_wanting.into(), self.accepted, bytes.as_mut_ptr(), bytes.len());
        }
        bytes
    }

    /// The greeting that these bytes tell.
    pub fn of(bytes: &[u8]) -> Option<Self> {
        let mut row = GreetingRow::default();
        // SAFETY: each pointer and length are those of one value, which are apart.
        let code = unsafe { foreign::tellwydar_message_greeting(bytes.as_ptr(), bytes.len(), &mut row) };
        (code == 0).then_some(Self { is_wanting: row.is_wanting == 1, accepted: row.accepted })
    }
}
