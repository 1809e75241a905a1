//! How entries are written, and what waits for that goes out.
use super::Node;
use crate::disk::Wait;
use crate::fault::Fault;
use crate::story::{Chapter, Done};
use std::time::{Duration, Instant};
use tellwydar::{Front, Output};

/// How long counts wait for the disk, where each entry is on it before its frames go out.
const HOLD: Duration = Duration::from_millis(2);

impl<F: Front> Node<F> {
    /// Has the entries written down; once they are durable, what they put goes out, and an answer is told. With `sync`
    /// that is on the disk. Counts alone are no reason to wait for it: they are held until there is one, or for a short
    /// time.
    pub(super) fn commit(&mut self) -> Result<(), Fault> {
        self.settle(self.brief())?;
        if self.story.is_busy() || self.story.is_done() && !self.data_due {
            return Ok(());
        }
        let chapter = &self.story.chapter;
        let is_held = self.sync && !self.data_due && !chapter.is_answered();
        if is_held && !chapter.is_handed_out() {
            self.held_till.get_or_insert_with(|| Instant::now() + HOLD);
        }
        if is_held && chapter.is_written() {
            return Ok(());
        }
        if !is_held {
            self.data_due = false;
            self.held_till = None;
        }
        self.story.begin_write(self.sync && !is_held)?;
        self.settle(self.brief()).map(drop)
    }

    /// Nothing waits for the disk where only reads are written that were answered at once.
    fn brief(&self) -> Wait {
        let chapter = &self.story.chapter;
        if chapter.is_owing() || chapter.node.is_ending() { Wait::Briefly } else { Wait::Not }
    }

    /// Goes on with what waited for the disk, if it is done within this time, and tells whether it is.
    pub(super) fn settle(&mut self, wait: Wait) -> Result<bool, Fault> {
        match self.story.done(wait)? {
            None => return Ok(false),
            Some(Done::Kept) => {
                self.hand_out()?;
                self.parcels.send(&self.meeting, &mut *self.road);
            }
            Some(Done::Turned) => self.turned()?,
        }
        self.is_settled = true;
        Ok(true)
    }

    /// Gathers what the steps put whose entries are durable, and tells an answer.
    pub(super) fn hand_out(&mut self) -> Result<(), Fault> {
        let chapter = &mut self.story.chapter;
        chapter.let_out()?;
        let is_own = chapter.node.own_calls() > 0;
        while let Some(Output { frames, reply }) = chapter.hand_out()? {
            for (to, frame) in frames {
                self.parcels.add(to, frame);
            }
            if let Some(reply) = reply.filter(|_| is_own) {
                self.answer = Some(reply.answer);
            }
        }
        Ok(())
    }

    /// Has entries written until this is so, however long that takes.
    pub(super) fn write_until(&mut self, is_so: impl Fn(&Chapter) -> bool) -> Result<(), Fault> {
        self.is_up()?;
        while !is_so(&self.story.chapter) {
            self.commit()?;
            self.settle(Wait::Long)?;
        }
        Ok(())
    }
}
