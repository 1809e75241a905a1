//! The other processes: how they are met, and what is seen of them and of the links to them.
use super::Node;
use crate::fault::Fault;
use crate::message::Kind;
use crate::status::{PeerStatus, Status};
use std::time::Instant;
use tellwydar::{Brings, Front, Greeting, LoggedNode, Refused};

impl<F: Front> Node<F> {
    pub(super) fn others(&self) -> impl Iterator<Item = u8> + use<F> {
        let me = self.story.chapter.head.process;
        (0..self.story.chapter.head.processes).filter(move |it| *it != me)
    }

    /// A chapter begins or goes on: nobody was heard yet, and all others are greeted.
    pub(super) fn meet_all(&mut self) {
        self.came_at = vec![None; self.story.chapter.head.processes.into()];
        for to in self.others() {
            self.greet(to);
        }
    }

    /// Tells another process how many bodies this one accepted from it, so that one whose log was lost finds that out.
    fn greet(&mut self, to: u8) {
        let node = &self.story.chapter.node;
        let is_wanting = !node.has_heard(to) || node.is_long_silent(to);
        let greeting = Greeting { is_wanting, accepted: node.known(to).expected };
        self.road.send(to, &self.meeting.message(to, Brings::Greeting, &greeting.bytes()));
    }

    /// Another process told this one how many of its bodies it accepted.
    pub(super) fn greeted(&mut self, from: u8, told: &[u8]) -> Result<(), Fault> {
        let Some(Greeting { is_wanting, accepted }) = Greeting::of(told) else {
            self.complain(Kind::Greeting(from), format!("process {from}: no greeting of a node"));
            return Ok(());
        };
        let node = &mut self.story.chapter.node;
        match node.hear(from, accepted) {
            Err(Refused::LogLost) => {
                let why = format!("process {from} accepted {accepted} bodies, and it has {}", node.known(from).next);
                return Err(Fault::LogLost(format!("the log was lost: {why}")));
            }
            heard => heard?,
        }
        if is_wanting {
            self.greet(from);
        }
        Ok(())
    }

    /// A tick where a link goes without an answer, and a greeting where a process isn't heard, or not for long, with
    /// growing pauses.
    pub(super) fn look(&mut self) -> Result<(), Fault> {
        let mut is_tick_due = false;
        for peer in self.others() {
            let look = self.story.chapter.node.watch(peer);
            is_tick_due |= look.ticks;
            if look.greets {
                self.greet(peer);
            }
        }
        self.tick_where(is_tick_due)?;
        // (that this chapter ends is told again)
        self.told = None;
        Ok(())
    }

    /// Puts frames again, where that is due.
    pub(super) fn tick_where(&mut self, is_due: bool) -> Result<(), Fault> {
        if is_due {
            self.story.step(LoggedNode::tick)?;
            self.data_due = true;
        }
        Ok(())
    }

    /// How far it has come, and what it knows of the others.
    pub fn status(&self) -> Status {
        let (chapter, now) = (&self.story.chapter, Instant::now());
        let peer_status = |process: u8| {
            let known = chapter.node.known(process);
            PeerStatus {
                process,
                is_heard: chapter.node.has_heard(process),
                silent: self.came_at[usize::from(process)].map(|it| now.saturating_duration_since(it)),
                unacknowledged: known.next - known.first,
                is_missing: chapter.node.is_long_silent(process),
            }
        };
        Status {
            process: chapter.head.process,
            front: chapter.head.front,
            chapter: chapter.head.chapter,
            operations: self.story.called(),
            entries: chapter.node.logged(),
            is_running: chapter.is_running,
            peers: self.others().map(peer_status).collect(),
        }
    }
}
