//! Where one node is: its chapter with its log, and the chapters before. All that a chapter is, is in its log, so a
//! node that was killed is made again. It needs the logs of its last two chapters, and no others.
use crate::config::Options;
use crate::disk::{Disk, Job, Wait};
use crate::fault::{Fault, at_path, is_of_too_many, say};
use crate::log_file::{LogFile, called_up_to, is_there, last_chapter, log_of, quiet_of};
use crate::log_text;
use std::fs::{self, File};
use std::io::{self, Read};
use std::path::{Path, PathBuf};
use tellwydar::{LogHead, LoggedNode, Op, Output, Refused, Room};

/// So many entries may be unwritten while the disk writes, of reads that were answered at once.
const MOST_UNWRITTEN: u64 = 128;

/// How a node's last chapter ended, for those who don't know it yet.
#[derive(Debug)]
pub struct Ended {
    pub head: LogHead,
    /// The bytes that tell how far it came.
    pub state: Vec<u8>,
}

/// A chapter up to some entry of its log.
pub struct Chapter {
    pub head: LogHead,
    pub node: LoggedNode,
    /// How many entries there are, how many of them are written, and of how many what went out is handed out.
    entries: u64,
    written: u64,
    handed: u64,
    /// How many are durable: with `sync` those that are on the disk, else all that are written.
    durable: u64,
    /// So many have to be, before anything else goes out: behind these are only reads that were answered at once.
    owed: u64,
    /// Whether an operation goes on, or its reply isn't handed out yet.
    pub is_running: bool,
    is_said_quiet: bool,
}

/// The chapters of a node up to the one that goes on.
pub struct Story {
    path: PathBuf,
    room: Room,
    pub chapter: Chapter,
    sync: bool,
    /// Entries that weren't given to the disk yet.
    lines: Vec<u8>,
    disk: Disk,
    /// The chapter whose log is begun.
    next: Option<LogHead>,
    pub before: Before,
}

/// What the disk has done.
#[derive(Clone, Copy, Debug, PartialEq, Eq)]
pub enum Done {
    Kept,
    /// The next chapter has begun.
    Turned,
}

/// What the chapters before have left.
#[derive(Default)]
pub struct Before {
    /// How many operations their callers called.
    called: u64,
    /// The values that the last one ended with.
    values: Vec<u64>,
    pub ended: Option<Ended>,
}

impl Chapter {
    /// The chapter of the log at this path, whose text this is. Its head is as this one, but for what was drawn.
    /// So many entries are not to be lost.
    fn of(head: &LogHead, path: &Path, text: &[u8], durable: u64) -> Result<Self, Fault> {
        let node = log_text::open(path, text, durable)?;
        let found = log_text::head(path, text)?;
        if let Some((found, wanted)) = log_text::differs(&found, head) {
            return Err(Fault::OtherLog(format!("{} is of {found}, and this node of {wanted}", path.display())));
        }
        let (entries, is_running) = (node.logged(), node.busy());
        let (written, handed, durable, owed) = (entries, entries, entries, entries);
        Ok(Self { head: found, node, entries, written, handed, durable, owed, is_running, is_said_quiet: false })
    }

    /// Whether the operation that goes on has a reply, which isn't handed out yet.
    pub fn is_answered(&self) -> bool {
        self.is_running && !self.node.busy()
    }

    /// Whether all entries are written.
    pub fn is_written(&self) -> bool {
        self.written == self.entries
    }

    /// Whether what went out of all entries is handed out.
    pub fn is_handed_out(&self) -> bool {
        self.handed == self.entries
    }

    /// Whether all entries are written whose frames and answers were handed out.
    pub fn is_kept(&self) -> bool {
        self.handed <= self.written
    }

    /// Whether something has to be durable before anything else goes out.
    pub fn is_owing(&self) -> bool {
        self.durable < self.owed
    }

    /// Whether this node calls nothing more in this chapter, and no operation goes on.
    pub fn is_quiet(&self) -> bool {
        self.node.is_quiet(self.is_running)
    }

    /// Whether the values that the last chapter ended with aren't all written here: then nothing else is called.
    pub fn is_opening(&self) -> bool {
        self.node.is_opening(self.is_running)
    }

    /// The bytes that tell the others how far this node has come.
    pub fn tell_state(&mut self) -> Result<Vec<u8>, Refused> {
        let is_quiet = self.is_quiet();
        self.node.tell_state(is_quiet).map(<[u8]>::to_vec)
    }

    /// Another node told how far it has come: somebody has little room left.
    pub fn heard_state(&mut self, sender: u8, bytes: &[u8]) -> Result<(), Refused> {
        self.node.hear_state(sender, bytes)?;
        self.node.end();
        Ok(())
    }

    /// What goes out of the steps so far may be handed out, as far as they are durable.
    pub fn let_out(&mut self) -> Result<(), Refused> {
        self.node.mark_durable(if self.is_owing() { self.durable } else { self.entries })
    }

    /// What goes out of the next step, if there is one and it may.
    pub fn hand_out(&mut self) -> Result<Option<Output<'_>>, Refused> {
        if self.is_handed_out() {
            return Ok(None);
        }
        let output = self.node.hand_out()?;
        self.handed += u64::from(output.is_some());
        self.is_running &= output.as_ref().is_none_or(|it| it.reply.is_none());
        Ok(output)
    }
}

impl Story {
    /// A story that begins, or with `resume` the one whose logs are there. The disk is started by this function.
    pub fn open(
        head: LogHead,
        options: &Options,
        room: Room,
        sync: bool,
        start: impl FnOnce(LogFile) -> io::Result<Disk>,
    ) -> Result<Self, Fault> {
        let (path, mut before) = (options.log.as_path(), Before::default());
        let last = last_chapter(path)?;
        let (mut chapter, log) = if options.resume {
            if last > 0 {
                before = Before::of(&LogHead { chapter: last - 1, ..head.clone() }, &log_of(path, last - 1))?;
            }
            resumed(&LogHead { chapter: last, ..head }, &log_of(path, last))?
        } else if last > 0 {
            return Err(is_there(&log_of(path, last)));
        } else {
            let log = LogFile::create(path)?;
            // (it is begun whole, or not at all)
            begun(head, path, log).inspect_err(|_| drop(fs::remove_file(path)))?
        };
        chapter.node.follow(room, &before.values)?;
        if options.resume && quiet_of(&log_of(path, chapter.head.chapter)).exists() {
            chapter.node.end();
        }
        let (path, disk) = (path.to_path_buf(), start(log)?);
        Ok(Self { path, room, chapter, sync, lines: Vec::new(), disk, next: None, before })
    }

    /// Whether the disk has something to do.
    pub fn is_busy(&self) -> bool {
        self.disk.is_busy()
    }

    /// Whether the disk has something to do that is waited for. Until it ends no step is made.
    pub fn is_writing(&self) -> bool {
        let unwritten = self.chapter.entries - self.chapter.written;
        self.is_busy() && (self.chapter.is_owing() || unwritten >= MOST_UNWRITTEN || self.next.is_some())
    }

    /// Whether the disk has nothing to do, all entries are written, and what went out of them is handed out.
    pub fn is_done(&self) -> bool {
        !self.is_busy() && self.chapter.is_written() && self.chapter.is_handed_out()
    }

    /// Calls an operation. As of each step, its entry is to be written.
    pub fn call(&mut self, op: Op) -> Result<(), Refused> {
        let (owed, is_owing) = (self.chapter.owed, self.chapter.is_owing());
        self.step(|node| node.call(op))?;
        self.chapter.is_running = true;
        if matches!(op, Op::Read { .. }) && !self.chapter.node.busy() && !is_owing {
            // (it is answered at once and puts no frame, and what it read of is durable: nobody can miss its entry)
            self.chapter.owed = owed;
        }
        Ok(())
    }

    /// Makes a step.
    pub fn step(&mut self, step: impl FnOnce(&mut LoggedNode) -> Result<&[u8], Refused>) -> Result<(), Refused> {
        self.lines.extend_from_slice(step(&mut self.chapter.node)?);
        self.chapter.entries += 1;
        self.chapter.owed = self.chapter.entries;
        Ok(())
    }

    /// Has the disk, which has nothing to do, begin to write all entries, and with `force` have them on it.
    pub fn begin_write(&mut self, force: bool) -> io::Result<()> {
        let lines = std::mem::take(&mut self.lines);
        self.disk.begin(Job::Write { lines, entries: self.chapter.entries, force })
    }

    /// What the disk is done with, if it is within this time.
    pub fn done(&mut self, wait: Wait) -> Result<Option<Done>, Fault> {
        match self.disk.end(wait)? {
            None => return Ok(None),
            Some(Job::Write { entries, force, .. }) => {
                self.chapter.written = entries;
                if force || !self.sync {
                    self.chapter.durable = entries;
                }
            }
            Some(Job::Quiet { .. }) => self.chapter.is_said_quiet = true,
            Some(Job::Turn { path, text }) => return self.turned(&path, &text).map(|()| Some(Done::Turned)),
        }
        Ok(Some(Done::Kept))
    }

    /// How many operations its caller has called, in earlier runs too.
    pub fn called(&self) -> u64 {
        self.before.called + self.chapter.node.own_calls()
    }

    /// Before it is told that this node calls nothing more in this chapter, that is kept for when it is resumed, behind
    /// all entries. Has the disk begin with that, and tells whether it has to.
    pub fn begin_quiet(&mut self) -> io::Result<bool> {
        if self.chapter.is_said_quiet {
            return Ok(false);
        }
        let path = quiet_of(&log_of(&self.path, self.chapter.head.chapter));
        self.disk.begin(Job::Quiet { path, called: self.called() }).map(|()| true)
    }

    /// Where this chapter is over the disk begins with what is to be done before the next one begins. Tells whether it
    /// has begun.
    pub fn begin_turn(&mut self) -> Result<bool, Fault> {
        if !self.chapter.node.is_ending() {
            return Ok(false);
        }
        self.chapter.tell_state()?;
        if !self.chapter.node.is_over() {
            return Ok(false);
        }
        if self.begin_quiet()? {
            return Ok(true);
        }
        let begun = match drawn() {
            // (strangers who connect have too many files open: at a later look it is tried again)
            Err(why) if is_of_too_many(&why) => return Ok(false),
            begun => begun?,
        };
        let last = &self.chapter.head;
        let head = LogHead { chapter: last.chapter + 1, begun, ..last.clone() };
        let (path, text) = (log_of(&self.path, head.chapter), LoggedNode::begin(&head)?);
        self.next = Some(head);
        self.disk.begin(Job::Turn { path, text })?;
        Ok(true)
    }

    /// Goes on in the next chapter, whose log has begun.
    fn turned(&mut self, path: &Path, text: &[u8]) -> Result<(), Fault> {
        if let Some(head) = self.next.take() {
            self.before.end(&mut self.chapter)?;
            self.chapter = Chapter::of(&head, path, text, 0)?;
            self.chapter.node.follow(self.room, &self.before.values)?;
            say(format_args!("chapter {} begins, in {}", head.chapter, path.display()));
        }
        Ok(())
    }
}

impl Before {
    /// What the chapter of the log at this path has left, which was over before the node was killed.
    fn of(head: &LogHead, log: &Path) -> Result<Self, Fault> {
        let (mut before, text) = (Self::default(), log_text::read(log)?);
        // (no whole line of it may be lost)
        before.end(&mut Chapter::of(head, log, &text, log_text::entries(&text))?)?;
        before.called = called_up_to(log)?;
        Ok(before)
    }

    /// A chapter is over: what the next one begins with, and what is told to those who don't know it yet.
    fn end(&mut self, Chapter { head, node, .. }: &mut Chapter) -> Result<(), Refused> {
        self.called += node.own_calls();
        self.ended = Some(Ended { head: head.clone(), state: node.tell_state(true)?.to_vec() });
        self.values = (0..head.names.len() as u16).map(|it| node.register(it)).collect();
        Ok(())
    }
}

fn drawn() -> io::Result<u64> {
    let mut bytes = [0; 8];
    File::open("/dev/urandom")?.read_exact(&mut bytes)?;
    Ok(u64::from_be_bytes(bytes))
}

/// Begins a chapter in a file of its own.
fn begun(head: LogHead, path: &Path, mut log: LogFile) -> Result<(Chapter, LogFile), Fault> {
    let head = LogHead { begun: drawn()?, ..head };
    let text = LoggedNode::begin(&head)?;
    let chapter = Chapter::of(&head, path, &text, 0)?;
    log.begin(&text).map_err(|why| at_path(path, why))?;
    Ok((chapter, log))
}

/// Goes on with a chapter whose log is there; one whose log has no whole head never began.
fn resumed(head: &LogHead, path: &Path) -> Result<(Chapter, LogFile), Fault> {
    let (mut log, text) = LogFile::reopen(path)?;
    let text = log_text::without_room(text);
    if LoggedNode::is_headless(&text, head)? {
        return begun(head.clone(), path, log);
    }
    let chapter = Chapter::of(head, path, &text, 0)?;
    let whole = chapter.node.whole();
    log_text::say_cut(path, text.len() - whole);
    // (all its entries count as durable)
    log.go_on(whole as u64).and_then(|()| log.force_with_name()).map_err(|why| at_path(path, why))?;
    Ok((chapter, log))
}
