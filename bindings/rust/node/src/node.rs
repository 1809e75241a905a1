//! A node: one process with its log, and a road to the others.
//!
//! A step is made, its entry is written, and only then does the library hand out its frames and its answer; of what
//! comes in, some messages are taken with one write for all. A thread of its own has the files in hands (`Disk`). While
//! it writes what something waits for, the node makes no step: it waits on its road, until the disk is done or its
//! caller's time is up.
use crate::config::{Config, Options};
use crate::disk::{Disk, Gate, Wait};
use crate::fault::Fault;
use crate::message::{Complaint, Complaints, Kind, Meeting, WIDTH};
use crate::parcels::Parcels;
use crate::road::{Arrived, Bell, Road, road_of};
use crate::story::{Chapter, Story};
use std::io;
use std::marker::PhantomData;
use std::os::unix::net::UnixStream;
use std::time::{Duration, Instant};
use tellwydar::{Answer, Brings, Front, FrontEnd, LogHead, Meets, Met, Op, Refused};

#[cfg(test)]
mod disk_tests;
mod peers;
mod turns;
mod writes;

/// After so many calls that were answered at once, others are heard, and what was gathered is written.
const MOST_UNSERVED: u32 = 64;
/// So many messages are kept while the disk writes: others are dropped, as a road does where it has no room.
const MOST_KEPT: usize = 1024;
/// So long a caller gives the disk at least, where nothing else is between it and its call or its answer.
const MOMENT: Duration = Duration::from_millis(100);

/// When this time is up, if that ever is.
fn end_of(timeout: Option<Duration>) -> Option<Instant> {
    timeout.and_then(|it| Instant::now().checked_add(it))
}

/// One process of a cluster on a machine of its own. It is for one thread, and works while that is in one of its
/// functions.
pub struct Node<F: Front> {
    front: PhantomData<F>,
    story: Story,
    road: Box<dyn Road>,
    hand: UnixStream,
    complaints: Complaints,
    meeting: Meeting,
    parcels: Parcels,
    /// When something came from each process in this chapter.
    came_at: Vec<Option<Instant>>,
    sync: bool,
    look_every: Duration,
    look_at: Instant,
    /// Bodies wait for an entry to be written; counts wait until then.
    data_due: bool,
    held_till: Option<Instant>,
    /// One that waits to be fetched.
    answer: Option<Answer>,
    /// How far it came, as it told it last in this chapter.
    told: Option<Vec<u8>>,
    arrived: Vec<Arrived>,
    /// Something went on that had waited for the disk, and nothing else was waited for since.
    is_settled: bool,
    unserved: u32,
    rang: bool,
    is_stopped: bool,
}

impl<F: Front> Node<F> {
    /// Starts a node.
    ///
    /// # Errors
    ///
    /// Where the road or the log is refused. No log is begun where the road is refused.
    pub fn open(config: &Config, options: &Options) -> Result<Self, Fault> {
        Self::open_with(config, options, Box::new(|_| Ok(())))
    }

    /// A node whose disk goes through this gate.
    fn open_with(config: &Config, options: &Options, gate: Gate) -> Result<Self, Fault> {
        let (front, processes) = (config.front, config.nodes.len() as u8);
        if front.name() != F::NAME {
            return Err(Fault::Config(format!("the configuration has the front end {front}, not {}", F::NAME)));
        }
        if options.me >= processes {
            return Err(Fault::Config(format!("the configuration has no process {}", options.me)));
        }
        let room = config.room()?;
        let (bell, hand) = Bell::new()?;
        let ringer = bell.ringer(&hand)?;
        let road = road_of(config, options, bell)?;
        let names = config.registers.clone();
        let head =
            LogHead { cluster: config.cluster, chapter: 0, begun: 0, front, processes, process: options.me, names };
        let sync = config.sync || options.sync;
        let story = Story::open(head, options, room, sync, |log| Disk::start(log, ringer, gate))?;
        let mut node = Self {
            front: PhantomData,
            meeting: Meeting::new(&story.chapter.head)?,
            parcels: Parcels::new(processes, road.most_bytes()),
            story,
            road,
            hand,
            complaints: Complaints::default(),
            came_at: Vec::new(),
            sync,
            look_every: config.look,
            look_at: Instant::now() + config.look,
            data_due: false,
            held_till: None,
            answer: None,
            told: None,
            arrived: Vec::new(),
            is_settled: false,
            unserved: 0,
            rang: false,
            is_stopped: false,
        };
        node.meet_all();
        Ok(node)
    }

    /// What one writes a byte to, from any thread, for the node to end its wait.
    pub fn bell(&self) -> io::Result<UnixStream> {
        self.hand.try_clone()
    }

    /// Calls an operation and waits for its answer.
    ///
    /// # Errors
    ///
    /// `Busy` where another one goes on. `TimedOut` where the time is up: then it goes on, and [`Node::wait`] gives its
    /// answer. `Paused` where nothing was called in time: a chapter ended, or not all others were heard, or they were
    /// too far behind with what this node cast, or the disk had to do with what came before.
    ///
    /// The time-out holds whatever the disk does, but that is given a tenth of a second where nothing else is between
    /// the operation and its answer.
    pub fn perform(&mut self, op: Op, timeout: Option<Duration>) -> Result<Answer, Fault> {
        self.run(|it| it.performed(op, end_of(timeout)))
    }

    /// Waits for the answer of the operation that goes on.
    pub fn wait(&mut self, timeout: Option<Duration>) -> Result<Answer, Fault> {
        self.run(|it| it.waited(end_of(timeout)))
    }

    /// Hears the others until something came or the time is up, and tells whether the bell rang. A node that has
    /// nothing to call has to be in here: the others wait for it.
    pub fn serve(&mut self, until: Option<Instant>) -> Result<bool, Fault> {
        // (it may have rung in a call that was answered all the same)
        let until = if self.rang { Some(Instant::now()) } else { until };
        self.run(|it| it.served(until))
    }

    /// How many operations were called, in earlier runs too, and whether one of them goes on or has an answer to be
    /// fetched.
    pub fn so_far(&self) -> (u64, bool) {
        let chapter = &self.story.chapter;
        let is_own = chapter.is_running && chapter.node.own_calls() > 0;
        (self.story.called(), is_own || self.answer.is_some())
    }

    /// The names of the registers.
    pub fn registers(&self) -> &[String] {
        &self.story.chapter.head.names
    }

    /// Behind a fault that isn't of a call alone the node has stopped, and puts nothing more.
    fn run<T>(&mut self, act: impl FnOnce(&mut Self) -> Result<T, Fault>) -> Result<T, Fault> {
        let result = act(self);
        if result.as_ref().is_err_and(|it| !it.is_of_a_call()) {
            self.is_stopped = true;
            self.parcels.clear();
        }
        result
    }

    fn is_up(&self) -> Result<(), Fault> {
        if self.is_stopped { Err(Fault::Stopped) } else { Ok(()) }
    }

    fn performed(&mut self, op: Op, deadline: Option<Instant>) -> Result<Answer, Fault> {
        self.is_up()?;
        if self.unserved >= MOST_UNSERVED {
            self.rang |= self.served(Some(Instant::now()))?;
        }
        let due = self.patient(deadline);
        while !self.called(op)? {
            self.pass(due, Fault::Paused)?;
        }
        self.unserved += 1;
        self.waited(if self.story.chapter.node.busy() { deadline } else { self.patient(deadline) })
    }

    /// When this time is up, where the disk that writes is given a moment.
    fn patient(&self, deadline: Option<Instant>) -> Option<Instant> {
        deadline.map(|it| if self.story.is_writing() { it.max(Instant::now() + MOMENT) } else { it })
    }

    /// Calls an operation, unless a chapter ends or is opened, the disk writes, or the operation needs others that
    /// weren't heard or are far behind.
    fn called(&mut self, op: Op) -> Result<bool, Fault> {
        let (chapter, is_idle) = (&self.story.chapter, !self.story.chapter.is_running && self.answer.is_none());
        if chapter.is_opening() || is_idle && chapter.node.is_ending() {
            return Ok(false);
        }
        if !is_idle {
            return Err(Fault::Busy);
        }
        if self.story.is_writing() || !matches!(op, Op::Read { .. }) && chapter.node.is_far_ahead() {
            return Ok(false);
        }
        match self.call(op) {
            Err(Fault::Refused(Refused::Unheard)) => Ok(false),
            called => called.map(|()| true),
        }
    }

    fn waited(&mut self, deadline: Option<Instant>) -> Result<Answer, Fault> {
        loop {
            if let Some(answer) = self.answer.take() {
                return Ok(answer);
            }
            if !self.so_far().1 {
                return Err(Fault::Nothing);
            }
            self.pass(deadline, Fault::TimedOut)?;
        }
    }

    /// Serves once. It is a fault where the time is up, or the bell has rung.
    fn pass(&mut self, deadline: Option<Instant>, late: Fault) -> Result<(), Fault> {
        self.is_up()?;
        if std::mem::take(&mut self.rang) {
            return Err(Fault::Rung);
        }
        if deadline.is_some_and(|it| it <= Instant::now()) {
            return Err(late);
        }
        self.rang = self.served(deadline)?;
        Ok(())
    }

    /// Writes down the reads that were gathered: what was told so far is kept, also where this program is killed.
    ///
    /// A read that is answered at once and puts no frame is written with the next step that isn't one, or before the
    /// node waits, or where 64 were gathered, while which are written 64 more are told at most. So a program that is
    /// killed may lose the entries of up to 128 reads. This waits for the disk.
    pub fn keep(&mut self) -> Result<(), Fault> {
        self.run(|it| it.write_until(Chapter::is_kept))
    }

    /// Whether what was told so far is kept.
    pub(crate) fn is_kept(&self) -> bool {
        self.story.chapter.is_kept()
    }

    /// Makes a call, and all that it brings about at once.
    fn call(&mut self, op: Op) -> Result<(), Fault> {
        self.story.call(op)?;
        if self.story.chapter.is_owing() {
            self.data_due |= !matches!(op, Op::Read { .. }) || self.story.chapter.head.front == FrontEnd::Linear;
            self.commit()?;
        } else {
            self.hand_out()?;
        }
        self.tell_end()
    }

    fn served(&mut self, until: Option<Instant>) -> Result<bool, Fault> {
        self.is_up()?;
        self.unserved = 0;
        self.is_settled = false;
        self.commit()?;
        if until.is_none_or(|it| it > Instant::now()) {
            self.settle(Wait::Briefly)?;
        }
        let wait = self.next_due(until).map(|it| it.saturating_duration_since(Instant::now()));
        let mut arrived = std::mem::take(&mut self.arrived);
        let rang = self.road.receive(wait, &mut arrived)?;
        let now = Instant::now();
        if self.story.is_writing() {
            // (what came is taken the next time: a call comes before the disk writes again)
            arrived.truncate(MOST_KEPT);
            self.arrived = arrived;
            self.settle(Wait::Not)?;
        } else {
            for it in arrived.drain(..) {
                self.heard(it, now)?;
            }
            self.arrived = arrived;
            if now >= self.look_at {
                self.look()?;
                self.look_at = now + self.look_every;
            }
            self.data_due |= self.held_till.is_some_and(|it| now >= it);
            self.commit()?;
        }
        self.tell_end()?;
        self.turn()?;
        Ok(std::mem::take(&mut self.rang) || rang)
    }

    /// When something has to be done next, if nothing comes before.
    fn next_due(&mut self, until: Option<Instant>) -> Option<Instant> {
        let (now, is_writing) = (Instant::now(), self.story.is_writing());
        let late = self.road.pump(now);
        if self.is_settled || !is_writing && !self.arrived.is_empty() {
            return Some(now);
        }
        let Chapter { node, .. } = &self.story.chapter;
        let is_idle =
            node.pending() == 0 && node.has_heard_all() && !node.is_ending() && !self.story.chapter.is_opening();
        let look_at = (!is_idle).then_some(self.look_at);
        let own = if is_writing { [None; 2] } else { [look_at, self.held_till] };
        [until, late].into_iter().chain(own).flatten().min()
    }

    fn heard(&mut self, arrived: Arrived, now: Instant) -> Result<(), Fault> {
        let met = arrived.and_then(|it| Ok((self.meeting.met(it.key, &it.bytes)?, it.bytes)));
        let (Meets { met, sender, .. }, bytes) = match met {
            Ok(it) => it,
            Err(odd) => {
                self.complaints.say(odd);
                return Ok(());
            }
        };
        match met {
            Met::Peer(brings) => {
                self.came_at[usize::from(sender)] = Some(now);
                self.brought(sender, brings, &bytes[WIDTH..])?;
                let is_tick_due = self.story.chapter.node.came(sender);
                self.tick_where(is_tick_due)
            }
            Met::Late => self.tell_last(sender),
            _ => Ok(()),
        }
    }

    /// Takes what another process brings.
    fn brought(&mut self, sender: u8, brings: Brings, rest: &[u8]) -> Result<(), Fault> {
        match brings {
            Brings::Frames => self.take_all(sender, rest),
            Brings::Greeting => self.greeted(sender, rest),
            Brings::State => match self.story.chapter.heard_state(sender, rest) {
                Err(Refused::NoState) => {
                    self.complain(Kind::State(sender), format!("process {sender}: no state of a node"));
                    Ok(())
                }
                heard => Ok(heard?),
            },
        }
    }

    /// Takes the frames of a message, one after another.
    fn take_all(&mut self, from: u8, mut frames: &[u8]) -> Result<(), Fault> {
        while !frames.is_empty() {
            let length = frames.first_chunk().map_or(0, |it| 2 + usize::from(u16::from_be_bytes(*it)));
            // (bytes that end too early are no frame)
            let (frame, rest) = frames.split_at_checked(length.max(1)).unwrap_or((frames, &[]));
            frames = rest;
            let before = self.story.chapter.node.pending();
            match self.story.step(|node| node.take(from, frame)).map_err(Fault::from) {
                Ok(()) => self.data_due |= self.story.chapter.node.pending() > before,
                Err(Fault::Refused(why)) => {
                    self.complain(Kind::Frame(from), format!("process {from}: a frame is refused: {why}"));
                }
                Err(why) => return Err(why),
            }
        }
        Ok(())
    }

    fn complain(&mut self, kind: Kind, text: String) {
        self.complaints.say(Complaint { kind, text });
    }
}

impl<F: Front> Drop for Node<F> {
    /// Writes down all that was called, unless the node has stopped. (There is nobody whom one could tell that it can't
    /// be written.)
    fn drop(&mut self) {
        let _ = self.write_until(Chapter::is_written);
    }
}
