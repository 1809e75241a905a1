//! The disk of a node: one thread has all that is written in hands, so that the node's thread waits for the disk for no
//! longer than its caller wants to.
use crate::fault::{Fault, is_of_too_many};
use crate::log_file::{LogFile, keep};
use crate::road::Ringer;
use std::fs;
use std::io;
use std::path::PathBuf;
use std::sync::Arc;
use std::sync::atomic::{AtomicBool, Ordering, fence};
use std::sync::mpsc::{Receiver, SyncSender, TryRecvError, sync_channel};
use std::thread::{self, JoinHandle};
use std::time::Duration;

const BRIEF: Duration = Duration::from_millis(1);

/// What there is to do, which is given back when it is done.
#[derive(Debug)]
pub enum Job {
    /// These entries are added to the log, which has so many then; with `force` all of it is on the disk.
    Write { lines: Vec<u8>, entries: u64, force: bool },
    /// The log is on the disk, and so many operations were called up to the end of its chapter, says the file at this
    /// path.
    Quiet { path: PathBuf, called: u64 },
    /// The log is on the disk, and that of the next chapter, which is at this path, begins with this text.
    Turn { path: PathBuf, text: Vec<u8> },
}

/// What is just to be done to the disk.
#[derive(Clone, Copy, Debug, PartialEq, Eq)]
pub enum Act {
    /// Entries are written; whether they are forced to the disk then.
    Write(bool),
    Force,
    Quiet,
    /// The log of a chapter that is over is forced to the disk.
    End,
    Create,
    Begin,
}

/// For how long one waits until it is done.
#[derive(Clone, Copy, Debug, PartialEq, Eq)]
pub enum Wait {
    Not,
    /// Before one waits on a road too, which costs more.
    Briefly,
    Long,
}

/// What goes before each act, and may refuse it.
pub type Gate = Box<dyn FnMut(Act) -> io::Result<()> + Send>;

/// The thread, which has one job at a time.
pub struct Disk {
    /// It ends where there is nobody who could give it one.
    jobs: Option<SyncSender<Job>>,
    done: Receiver<Result<Option<Job>, Fault>>,
    thread: Option<JoinHandle<()>>,
    /// Whether it rings once it is done.
    rings: Arc<AtomicBool>,
    is_busy: bool,
    /// It was waited for briefly.
    is_slow: bool,
}

fn is_gone() -> io::Error {
    io::Error::other("the thread that writes the log is gone")
}

/// What is told of a job: none where no file can be opened now, since strangers who connect have too many. They lose
/// them soon, and it can be done again.
fn told(done: Result<Job, Fault>) -> Result<Option<Job>, Fault> {
    match done {
        Err(Fault::Io(why)) if is_of_too_many(&why) => Ok(None),
        Err(Fault::Io(why)) => Err(io::Error::new(why.kind(), format!("the log can't be written: {why}")).into()),
        done => done.map(Some),
    }
}

/// Does a job, and gives it back.
fn done(job: Job, log: &mut LogFile, gate: &mut Gate) -> Result<Job, Fault> {
    match &job {
        Job::Write { lines, force, .. } => {
            gate(Act::Write(*force))?;
            log.write(lines, *force)?;
            if *force {
                gate(Act::Force)?;
                log.force()?;
            }
        }
        Job::Quiet { path, called } => {
            gate(Act::Quiet)?;
            log.force()?;
            keep(path, format!("{called}\n").as_bytes())?;
        }
        Job::Turn { path, text } => {
            gate(Act::End)?;
            log.force()?;
            gate(Act::Create)?;
            let mut next = LogFile::create(path)?;
            gate(Act::Begin)?;
            if let Err(why) = next.begin(text) {
                // (it is begun whole, or not at all)
                let _ = fs::remove_file(path);
                return Err(why.into());
            }
            *log = next;
        }
    }
    Ok(job)
}

impl Disk {
    /// Starts the thread, which has this log in hands.
    pub fn start(mut log: LogFile, ringer: Ringer, mut gate: Gate) -> io::Result<Self> {
        let ((jobs, given), (tell, done_with)) = (sync_channel(1), sync_channel(1));
        let rings = Arc::new(AtomicBool::new(false));
        let is_awaited = Arc::clone(&rings);
        let serve = move || {
            for job in given {
                if tell.send(told(done(job, &mut log, &mut gate))).is_err() {
                    return;
                }
                // (either this is seen to be awaited, or what was told just now is seen)
                fence(Ordering::SeqCst);
                if is_awaited.swap(false, Ordering::Relaxed) {
                    ringer.ring();
                }
            }
        };
        let thread = thread::Builder::new().name("tellwydar-disk".to_string()).spawn(serve)?;
        Ok(Self { jobs: Some(jobs), done: done_with, thread: Some(thread), rings, is_busy: false, is_slow: false })
    }

    /// Whether it has a job, and isn't known to be done with it.
    pub fn is_busy(&self) -> bool {
        self.is_busy
    }

    /// Gives it a job, where it isn't busy: nothing is waited for.
    pub fn begin(&mut self, job: Job) -> io::Result<()> {
        (self.is_busy, self.is_slow) = (true, false);
        self.jobs.as_ref().and_then(|it| it.try_send(job).ok()).ok_or_else(is_gone)
    }

    /// The job that it has, if it is done with it within this time; where that was brief, it rings else once it is. For
    /// a job one waits briefly once. None too where no file could be opened: then it isn't busy, and nothing was done.
    pub fn end(&mut self, wait: Wait) -> Result<Option<Job>, Fault> {
        if !self.is_busy {
            return Ok(None);
        }
        let mut done = match wait {
            Wait::Briefly if !self.is_slow => self.done.recv_timeout(BRIEF).map_err(|_| TryRecvError::Empty),
            Wait::Not | Wait::Briefly => self.done.try_recv(),
            Wait::Long => self.done.recv().map_err(TryRecvError::from),
        };
        if done.is_err() && wait == Wait::Briefly {
            // (said each time: it may have rung for the last job only now)
            self.is_slow = true;
            self.rings.store(true, Ordering::Relaxed);
            fence(Ordering::SeqCst);
            done = self.done.try_recv();
        }
        match done {
            Ok(done) => {
                self.is_busy = false;
                done
            }
            Err(TryRecvError::Empty) => Ok(None),
            Err(TryRecvError::Disconnected) => Err(is_gone().into()),
        }
    }
}

impl Drop for Disk {
    /// Waits until the thread is done with its job and has let go of the log.
    fn drop(&mut self) {
        self.jobs = None;
        let _ = self.thread.take().map(JoinHandle::join);
    }
}
