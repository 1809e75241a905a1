//! A cluster whose process 0 has a disk that hangs.
use super::super::*;
use crate::disk::Act;
use std::fs;
use std::io::Write;
use std::net::TcpListener;
use std::path::{Path, PathBuf};
use std::sync::atomic::{AtomicU8, Ordering};
use std::sync::mpsc::{self, Sender};
use std::sync::{Arc, Mutex};
use std::thread::{self, JoinHandle};
use tellwydar::check;

pub const READ: Op = Op::Read { register: 0 };
pub const TIME: Option<Duration> = Some(Duration::from_secs(20));
pub const SHORT: Option<Duration> = Some(Duration::from_millis(200));
/// After this time a disk goes on in any case, so that who waits for it is late, and not there for ever.
pub const LONG: Duration = Duration::from_secs(6);
pub const SOON: Duration = Duration::from_secs(3);
pub const WRITES: u8 = 0;
pub const HANGS: u8 = 1;
pub const IS_FULL: u8 = 2;
/// It takes 5 ms for all that it has to do.
pub const IS_SLOW: u8 = 3;
/// It does one thing, and hangs then.
pub const DOES_ONE: u8 = 4;

pub type Acts = Box<dyn FnMut(Act) -> bool + Send>;

pub fn write(value: u64) -> Op {
    Op::Write { register: 0, value }
}

/// A folder of one test, with a cluster of processes on loopback, how the disk of process 0 is, and how often it hung.
/// That is so for these acts, at first for entries that are forced to it.
pub struct Room {
    pub path: PathBuf,
    pub config: Config,
    pub disk: Arc<AtomicU8>,
    pub hangs: Arc<AtomicU8>,
    pub acts: Arc<Mutex<Acts>>,
}

impl Room {
    pub fn new(name: &str, front: &str, count: usize) -> Self {
        let path = std::env::temp_dir().join(format!("tellwydar-disk-{name}-{}", std::process::id()));
        let _ = fs::remove_dir_all(&path);
        fs::create_dir_all(&path).expect("a folder");
        let held: Vec<_> = (0..count).map(|_| TcpListener::bind("127.0.0.1:0").expect("an address")).collect();
        let nodes: Vec<_> = held.iter().map(|it| it.local_addr().expect("an address")).collect();
        let nodes: String = nodes.iter().map(|it| format!("[[node]]\naddress = \"tcp://{it}\"\n")).collect();
        let text = format!("cluster = 7\nfront = \"{front}\"\nregisters = [\"x\"]\n{nodes}");
        let acts: Acts = Box::new(|it| it == Act::Write(true));
        let (config, disk) = (text.parse().expect("a configuration"), Arc::default());
        Self { path, config, disk, hangs: Arc::default(), acts: Arc::new(Mutex::new(acts)) }
    }

    pub fn log(&self, process: u8) -> PathBuf {
        self.path.join(format!("{process}.log"))
    }

    /// Process 0, with `sync`.
    pub fn open<F: Front>(&self) -> Node<F> {
        self.open_as(&Options { sync: true, ..Options::new(0, self.log(0)) })
    }

    pub fn open_as<F: Front>(&self, options: &Options) -> Node<F> {
        let (disk, hangs, acts) = (Arc::clone(&self.disk), Arc::clone(&self.hangs), Arc::clone(&self.acts));
        let gate = move |it| {
            if !acts.lock().expect("acts")(it) {
                return Ok(());
            }
            let is_hanging = || disk.load(Ordering::Relaxed) == HANGS;
            hangs.fetch_add(is_hanging().into(), Ordering::Relaxed);
            let end = Instant::now() + LONG;
            while is_hanging() && Instant::now() < end {
                thread::sleep(Duration::from_millis(1));
            }
            match disk.load(Ordering::Relaxed) {
                IS_FULL => return Err(io::Error::from_raw_os_error(28)),
                IS_SLOW => thread::sleep(Duration::from_millis(5)),
                DOES_ONE => disk.store(HANGS, Ordering::Relaxed),
                _ => {}
            }
            Ok(())
        };
        Node::open_with(&self.config, options, Box::new(gate)).expect("a node")
    }

    pub fn disk_is(&self, how: u8) {
        self.disk.store(how, Ordering::Relaxed);
    }

    pub fn disk_will_write(&self, after: Duration) -> JoinHandle<()> {
        let disk = Arc::clone(&self.disk);
        thread::spawn(move || {
            thread::sleep(after);
            disk.store(WRITES, Ordering::Relaxed);
        })
    }

    /// The calls in the log of process 0, without their answers.
    pub fn calls(&self) -> Vec<String> {
        let log = lines(&self.log(0));
        let calls = log.iter().filter_map(|it| it.split_once(" 0 call ").map(|it| it.1));
        calls.map(|it| it.split(" = ").next().unwrap_or(it).to_string()).collect()
    }

    pub fn is_in_order(&self) {
        let logs: Vec<_> = (0..self.config.nodes.len() as u8).map(|it| self.log(it)).collect();
        let report = crate::merge(&logs, false).expect("a report");
        assert!(String::from_utf8_lossy(&check(&report).answer).starts_with("serial yes\n"));
    }
}

impl Drop for Room {
    fn drop(&mut self) {
        let _ = fs::remove_dir_all(&self.path);
    }
}

pub fn lines(log: &Path) -> Vec<String> {
    fs::read_to_string(log).expect("a log").trim_end_matches('\0').lines().map(str::to_string).collect()
}

/// Process 1, without `sync`: it makes the calls that it is given, and answers process 0 until its bell rings.
pub struct Other {
    pub calls: Sender<Op>,
    pub bell: UnixStream,
    pub thread: JoinHandle<()>,
}

impl Other {
    pub fn start<F: Front>(room: &Room) -> Self {
        let (tell, told) = mpsc::channel();
        let (config, options) = (room.config.clone(), Options::new(1, room.log(1)));
        let (calls, called) = mpsc::channel();
        let thread = thread::spawn(move || {
            let mut node = Node::<F>::open(&config, &options).expect("a node");
            tell.send(node.bell().expect("a bell")).expect("a test");
            while !node.serve(Some(Instant::now() + Duration::from_millis(5))).expect("a node") {
                match called.try_recv().map(|op| node.perform(op, None)) {
                    Ok(Err(Fault::Rung)) => return,
                    Ok(answer) => assert_eq!(answer.expect("an answer"), Answer::Done),
                    Err(_) => {}
                }
            }
        });
        Self { calls, bell: told.recv().expect("a node"), thread }
    }

    pub fn end(mut self) {
        self.bell.write_all(&[0]).expect("a node");
        self.thread.join().expect("a node");
    }
}

pub fn serve<F: Front>(node: &mut Node<F>) {
    node.serve(Some(Instant::now() + Duration::from_millis(20))).expect("a node");
}

/// Serves until nothing is on its way, and the last counts are on the disk.
pub fn rest<F: Front>(node: &mut Node<F>) {
    let mut quiet = 0;
    while quiet < 5 {
        serve(node);
        let is_quiet = node.story.is_done() && node.story.chapter.node.pending() == 0;
        quiet = if is_quiet { quiet + 1 } else { 0 };
    }
}

/// What is done here doesn't wait for the disk.
pub fn soon<T>(what: impl FnOnce() -> T) -> T {
    let begin = Instant::now();
    let done = what();
    assert!(begin.elapsed() < SOON);
    done
}
