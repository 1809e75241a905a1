//! Messages: how they begin, who they are from, and what they bring, as the library tells it; and what is said of those
//! that aren't of this cluster. Their form is told in docs/FORMATS.md.
use crate::fault::say;
use std::collections::HashMap;
use tellwydar::{Brings, FrontEnd, LogHead, MESSAGE_START, Meets, Met, Refused, message_start};

pub type Start = [u8; MESSAGE_START];

/// How long the start of a message is, with the byte for what it brings.
pub const WIDTH: usize = MESSAGE_START + 1;

/// A message that begins so.
pub fn message(start: &Start, brings: Brings, rest: &[u8]) -> Vec<u8> {
    [&start[..], &[brings as u8], rest].concat()
}

/// Who was heard in a chapter, and how one's own messages begin.
#[derive(Debug)]
pub struct Meeting {
    head: LogHead,
    /// To each process.
    starts: Vec<Start>,
    heard: tellwydar::Meeting,
}

impl Meeting {
    /// Nobody was heard yet in this chapter.
    pub fn new(head: &LogHead) -> Result<Self, Refused> {
        let starts = (0..head.processes).map(|to| message_start(head, to)).collect::<Result<_, _>>()?;
        Ok(Self { head: head.clone(), starts, heard: tellwydar::Meeting::new(head)? })
    }

    /// A message of this process to another one.
    pub fn message(&self, to: u8, brings: Brings, rest: &[u8]) -> Vec<u8> {
        message(&self.starts[usize::from(to)], brings, rest)
    }

    /// Who it is that this message is from, where a key says it or none does; or a complaint, where it is dropped.
    pub fn met(&mut self, key: Option<u8>, message: &[u8]) -> Result<Meets, Complaint> {
        let it = self.heard.meet(key, message);
        if matches!(it.met, Met::Peer(_) | Met::Late | Met::Elsewhere) {
            return Ok(it);
        }
        let who = key.map_or("somebody".to_string(), |it| format!("process {it}"));
        Err(Complaint { kind: Kind::Message(it.met), text: format!("{who}: {}; dropped", self.said_of(&it)) })
    }

    /// What is said of a message that is dropped.
    fn said_of(&self, it: &Meets) -> String {
        let Meets { sender, receiver, front, processes, registers, cluster, .. } = *it;
        let (head, other) = (&self.head, FrontEnd::of_number(front).map_or("unknown", FrontEnd::name));
        match it.met {
            Met::OtherFront => format!("has the front end {other}, not {}", head.front),
            Met::OtherProcesses => format!("is of {processes} processes, not of {}", head.processes),
            Met::OtherRegisters => format!("has {registers} registers, or other names for them"),
            Met::OtherCluster => format!("is of cluster {cluster}, not of {}", head.cluster),
            Met::OtherReceiver => format!("a message for process {receiver}"),
            Met::OtherSender => format!("says that it is process {sender}"),
            Met::BegunAnew => {
                let only = "only the one that was heard first is in this cluster";
                format!("process {sender} was begun anew, without its log; {only}")
            }
            _ => "no message of a node".to_string(),
        }
    }
}

/// What is odd about messages. There are only so many kinds, so that no flood of messages makes new ones.
#[derive(Clone, Copy, Debug, PartialEq, Eq, Hash)]
pub enum Kind {
    /// Who wants to come in has no known key.
    Key,
    /// A message has several parts.
    Parts,
    /// A message isn't of a node of this cluster.
    Message(Met),
    /// A frame of this process is refused.
    Frame(u8),
    /// What this process told of itself is no state.
    State(u8),
    /// What this process says where it meets this one is no greeting.
    Greeting(u8),
}

/// A kind and a line about it.
#[derive(Clone, Debug, PartialEq, Eq)]
pub struct Complaint {
    pub kind: Kind,
    pub text: String,
}

/// Says each kind of complaint the 1st, 2nd, 4th, 8th, .. time, so that no flood fills a disk.
#[derive(Debug, Default)]
pub struct Complaints(HashMap<Kind, u64>);

impl Complaints {
    /// Says this complaint on the error stream, or counts it alone.
    pub fn say(&mut self, it: Complaint) {
        if let Some(line) = self.line(it) {
            say(line);
        }
    }

    /// The line that is said, or none.
    fn line(&mut self, Complaint { kind, text }: Complaint) -> Option<String> {
        let count = self.0.entry(kind).or_default();
        *count += 1;
        match *count {
            1 => Some(text),
            count => count.is_power_of_two().then(|| format!("{text} ({count} of this kind)")),
        }
    }
}

#[cfg(test)]
mod tests {
    use super::*;
    use tellwydar::Greeting;

    fn head(process: u8, begun: u64, chapter: u64) -> LogHead {
        let (front, names) = (FrontEnd::Linear, vec!["x".into(), "y".into()]);
        LogHead { cluster: 0x0102030405060708, chapter, begun, front, processes: 3, process, names }
    }

    fn message(from: &LogHead, to: u8) -> Vec<u8> {
        super::message(&message_start(from, to).unwrap(), Brings::Frames, &[1, 2, 3])
    }

    #[test]
    fn the_form_is_that_of_the_python_package() {
        // (four bytes of it are Python's zlib.crc32(b"x y"))
        let wanted = [
            b"TW\x03\0\x03\0\x02".as_slice(),
            &0x19fe0dc0u32.to_be_bytes(),
            &[1, 2, 3, 4, 5, 6, 7, 8],
            &[1, 2],
            &7u64.to_be_bytes(),
            &4u32.to_be_bytes(),
            &[0, 1, 2, 3],
        ]
        .concat();
        assert_eq!(message(&head(1, 7, 4), 2), wanted);
    }

    #[test]
    fn who_was_heard_first_is_the_process() {
        let mut meeting = Meeting::new(&head(0, 1, 4)).unwrap();
        let mut met = |key, from: &LogHead| {
            let it = meeting.met(key, &message(from, 0)).expect("a message");
            (it.met, it.sender)
        };
        let peer = Met::Peer(Brings::Frames);
        assert_eq!(met(None, &head(1, 7, 4)), (peer, 1));
        assert_eq!(met(Some(2), &head(2, 7, 4)), (peer, 2));
        assert_eq!(met(Some(1), &head(1, 7, 4)), (peer, 1));
        assert_eq!(met(None, &head(1, 7, 3)), (Met::Late, 1));
        assert_eq!(met(None, &head(1, 7, 5)), (Met::Elsewhere, 1));
        assert_eq!(met(None, &head(1, 7, 2)), (Met::Elsewhere, 1));
        let mut kind_of = |key, message: &[u8]| match meeting.met(key, message).expect_err("no message").kind {
            Kind::Message(met) => met,
            other => panic!("{other:?}"),
        };
        // (there is no process 9)
        let mut of_nine = message(&head(1, 1, 4), 0);
        of_nine[19] = 9;
        assert_eq!(kind_of(None, &of_nine), Met::OtherSender);
        let mut kind = |key, from: &LogHead, to| kind_of(key, &message(from, to));
        assert_eq!(kind(None, &head(1, 8, 4), 0), Met::BegunAnew);
        assert_eq!(kind(Some(2), &head(1, 7, 4), 0), Met::OtherSender);
        assert_eq!(kind(None, &head(0, 1, 4), 0), Met::OtherSender);
        assert_eq!(kind(None, &head(1, 7, 4), 2), Met::OtherReceiver);
        assert_eq!(kind(None, &LogHead { cluster: 8, ..head(1, 7, 4) }, 0), Met::OtherCluster);
        assert_eq!(kind(None, &LogHead { front: FrontEnd::LocalRead, ..head(1, 7, 4) }, 0), Met::OtherFront);
        assert_eq!(kind(None, &LogHead { processes: 4, ..head(1, 7, 4) }, 0), Met::OtherProcesses);
        assert_eq!(kind(None, &LogHead { names: vec!["x".into()], ..head(1, 7, 4) }, 0), Met::OtherRegisters);
        assert_eq!(
            kind(None, &LogHead { names: vec!["x".into(), "z".into()], ..head(1, 7, 4) }, 0),
            Met::OtherRegisters
        );
    }

    #[test]
    fn other_bytes_are_no_message() {
        let mut meeting = Meeting::new(&head(0, 1, 4)).unwrap();
        let good = message(&head(1, 7, 4), 0);
        let mut other = good.clone();
        other[MESSAGE_START] = 3;
        for bytes in [&good[..0], &good[..MESSAGE_START - 1], &good[..MESSAGE_START], &other] {
            let told = meeting.met(None, bytes).expect_err("no message");
            assert_eq!(told.text, "somebody: no message of a node; dropped");
        }
        let met = meeting.met(None, &good[..WIDTH]).expect("a message").met;
        assert_eq!(met, Met::Peer(Brings::Frames));
    }

    #[test]
    fn greetings_are_read_as_they_were_told() {
        let greeting = Greeting { is_wanting: true, accepted: 0x0102030405060708 };
        assert_eq!(greeting.bytes(), [1, 1, 2, 3, 4, 5, 6, 7, 8]);
        for it in [greeting, Greeting { is_wanting: false, accepted: 1 }] {
            assert_eq!(Greeting::of(&it.bytes()), Some(it));
        }
        for bytes in [&[][..], &[1; 8], &[1; 10], &[2, 0, 0, 0, 0, 0, 0, 0, 0]] {
            assert_eq!(Greeting::of(bytes), None);
        }
    }

    #[test]
    fn ever_fewer_are_said() {
        let mut complaints = Complaints::default();
        let it = Complaint { kind: Kind::Message(Met::NoMessage), text: "odd".to_string() };
        let said: Vec<String> = (0..9).filter_map(|_| complaints.line(it.clone())).collect();
        assert_eq!(said, ["odd", "odd (2 of this kind)", "odd (4 of this kind)", "odd (8 of this kind)"]);
        assert_eq!(
            complaints.line(Complaint { kind: Kind::Frame(1), text: "other".to_string() }).as_deref(),
            Some("other")
        );
    }
}
