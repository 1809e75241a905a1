//! How a chapter ends, and the next one begins.
use super::Node;
use crate::disk::Wait;
use crate::fault::Fault;
use crate::message::{Meeting, message};
use crate::story::Ended;
use tellwydar::{Brings, Front, Refused, message_start};

impl<F: Front> Node<F> {
    /// Tells the others at once that this chapter ends, and that this node is at rest: what it tells, it knows too when
    /// it is resumed.
    pub(super) fn tell_end(&mut self) -> Result<(), Fault> {
        if !self.story.chapter.node.is_ending() || !self.story.chapter.is_handed_out() {
            return Ok(());
        }
        self.commit()?;
        // (the next chapter may have begun)
        if !self.story.chapter.node.is_ending() || !self.story.is_done() {
            return Ok(());
        }
        let chapter = &mut self.story.chapter;
        let state = chapter.tell_state()?;
        let is_end = chapter.is_quiet() && chapter.node.pending() == 0;
        let is_new = self.told.is_none() || is_end && self.told.as_ref() != Some(&state);
        if is_new { self.tell_state(state) } else { Ok(()) }
    }

    /// Tells all others how far this node has come, once the disk has what is kept of that.
    fn tell_state(&mut self, state: Vec<u8>) -> Result<(), Fault> {
        if self.story.chapter.is_quiet() && self.story.begin_quiet()? && !self.settle(Wait::Briefly)? {
            return Ok(());
        }
        for to in self.others() {
            self.road.send(to, &self.meeting.message(to, Brings::State, &state));
        }
        self.told = Some(state);
        Ok(())
    }

    /// Tells one that is still in the last chapter how far this node came there.
    pub(super) fn tell_last(&mut self, to: u8) -> Result<(), Fault> {
        if let Some(Ended { head, state }) = &self.story.before.ended {
            self.road.send(to, &message(&message_start(head, to)?, Brings::State, state));
        }
        Ok(())
    }

    /// Where the chapter is over, the next one begins, and process 0 writes what this one ended with.
    pub(super) fn turn(&mut self) -> Result<(), Fault> {
        while self.story.is_done() && self.story.begin_turn()? && self.settle(Wait::Briefly)? {}
        if self.story.is_writing() {
            return Ok(());
        }
        while let Some(op) = self.story.chapter.node.next_opening().filter(|_| !self.story.chapter.is_running) {
            match self.call(op) {
                Err(Fault::Refused(Refused::Unheard)) => break,
                called => called?,
            }
        }
        Ok(())
    }

    /// The next chapter has begun.
    pub(super) fn turned(&mut self) -> Result<(), Fault> {
        self.meeting = Meeting::new(&self.story.chapter.head)?;
        // (a count that was held is of the last chapter)
        self.parcels.clear();
        self.held_till = None;
        self.told = None;
        self.meet_all();
        Ok(())
    }
}
