//! Frames that wait until the entries of their steps are written.
use crate::message::{Meeting, WIDTH};
use crate::road::Road;
use tellwydar::Brings;

/// The bytes of a frame that counts accepted ones.
const COUNT: usize = 12;
const KIND: usize = 3;

/// Whether a frame carries a body, and no count of accepted ones alone.
fn is_data(frame: &[u8]) -> bool {
    frame.get(KIND) == Some(&1)
}

/// The frames to one process.
#[derive(Clone, Debug, Default)]
struct Parcel {
    /// What each message brings; the last one has room.
    messages: Vec<Vec<u8>>,
    /// Of several counts the last says all.
    count: Vec<u8>,
}

/// The frames to all others.
#[derive(Debug)]
pub struct Parcels {
    parcels: Vec<Parcel>,
    most_bytes: usize,
}

impl Parcels {
    /// No frames to so many processes, by messages of at most so many bytes.
    pub fn new(processes: u8, most_bytes: usize) -> Self {
        Self { parcels: vec![Parcel::default(); processes.into()], most_bytes }
    }

    pub fn add(&mut self, to: u8, frame: &[u8]) {
        let Parcel { messages, count } = &mut self.parcels[usize::from(to)];
        if !is_data(frame) {
            count.clear();
            count.extend_from_slice(frame);
            return;
        }
        match messages.last_mut() {
            Some(last) if WIDTH + last.len() + frame.len() + COUNT <= self.most_bytes => last.extend_from_slice(frame),
            _ => messages.push(frame.to_vec()),
        }
    }

    /// Sends all of it.
    pub fn send(&mut self, meeting: &Meeting, road: &mut dyn Road) {
        for (to, Parcel { messages, count }) in (0..).zip(&mut self.parcels) {
            if messages.is_empty() && !count.is_empty() {
                messages.push(Vec::new());
            }
            if let Some(last) = messages.last_mut() {
                last.append(count);
            }
            for frames in messages.drain(..) {
                road.send(to, &meeting.message(to, Brings::Frames, &frames));
            }
        }
    }

    /// Forgets all of it.
    pub fn clear(&mut self) {
        self.parcels.fill(Parcel::default());
    }
}

#[cfg(test)]
mod tests {
    use super::*;
    use crate::fault::Fault;
    use crate::road::Arrived;
    use std::time::Duration;
    use tellwydar::{FrontEnd, LogHead};

    /// Keeps what is sent.
    #[derive(Default)]
    struct Kept(Vec<(u8, Vec<u8>)>);

    impl Road for Kept {
        fn most_bytes(&self) -> usize {
            108
        }

        fn send(&mut self, to: u8, message: &[u8]) {
            self.0.push((to, message[WIDTH..].to_vec()));
        }

        fn receive(&mut self, _: Option<Duration>, _: &mut Vec<Arrived>) -> Result<bool, Fault> {
            Ok(false)
        }
    }

    #[test]
    fn the_last_count_stands_behind_the_bodies_of_its_receiver() {
        let (front, names) = (FrontEnd::Linear, vec!["x".into()]);
        let head = LogHead { cluster: 7, chapter: 0, begun: 1, front, processes: 3, process: 0, names };
        let (mut parcels, mut road) = (Parcels::new(3, 108), Kept::default());
        let count = |number: u8| [0, 10, 1, 2, 0, 0, 0, 0, 0, 0, 0, number];
        let body = |number: u8| [&[0, 30, 1, 1, 0, 0, 0, 0, 0, 0, 0, number], [7; 20].as_slice()].concat();
        let meeting = Meeting::new(&head).unwrap();
        parcels.send(&meeting, &mut road);
        assert!(road.0.is_empty());
        parcels.add(1, &count(1));
        for (to, frame) in [(1, body(0)), (1, count(2).to_vec()), (2, count(5).to_vec()), (1, body(1)), (1, body(2))] {
            parcels.add(to, &frame);
        }
        parcels.send(&meeting, &mut road);
        let first = [body(0)].concat();
        // (with a start of 34 bytes two bodies of 32 and a count of 12 are more than 108)
        let wanted = [(1, first), (1, body(1)), (1, [body(2), count(2).to_vec()].concat()), (2, count(5).to_vec())];
        assert_eq!(road.0, wanted);
        parcels.send(&meeting, &mut road);
        assert_eq!(road.0.len(), wanted.len());
    }
}
