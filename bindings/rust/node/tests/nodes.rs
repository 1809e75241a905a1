//! Nodes as a program over the crate has them.
use std::error::Error;
use std::fs;
use std::io::Write;
use std::net::TcpListener;
use std::os::unix::net::UnixStream;
use std::path::{Path, PathBuf};
use std::sync::mpsc;
use std::thread::{self, JoinHandle};
use std::time::{Duration, Instant};
use tellwydar::{Answer, Front, Linear, LocalRead, LocalWrite, Op, check};
use tellwydar_node::{Config, Fault, Node, Options, merge};

const WRITE: Op = Op::Write { register: 0, value: 5 };
const READ: Op = Op::Read { register: 0 };
const TIME: Option<Duration> = Some(Duration::from_secs(20));

type Ended = Result<(), Box<dyn Error>>;

/// A new folder of this test.
fn room(name: &str) -> Result<PathBuf, Box<dyn Error>> {
    let path = std::env::temp_dir().join(format!("tellwydar-{name}-{}", std::process::id()));
    let _ = fs::remove_dir_all(&path);
    fs::create_dir_all(&path)?;
    Ok(path)
}

fn config(front: &str, count: usize) -> Result<Config, Box<dyn Error>> {
    let held: Vec<TcpListener> = (0..count).map(|_| TcpListener::bind("127.0.0.1:0")).collect::<Result<_, _>>()?;
    let ports = held.iter().map(|it| it.local_addr()).collect::<Result<Vec<_>, _>>()?;
    let nodes: String = ports.iter().map(|it| format!("[[node]]\naddress = \"tcp://{it}\"\n")).collect();
    Ok(format!("cluster = 7\nfront = \"{front}\"\nregisters = [\"x\"]\n{nodes}").parse()?)
}

/// The entries of a log, behind the nine lines of its head.
fn entries(path: &Path) -> Result<usize, Box<dyn Error>> {
    Ok(fs::read(path)?.iter().filter(|&&it| it == b'\n').count() - 9)
}

fn resuming(me: u8, log: &Path) -> Options {
    Options { resume: true, ..Options::new(me, log) }
}

/// A node that answers the others until its bell rings, and then tells how many operations it called.
struct Other(UnixStream, JoinHandle<Result<(u64, bool), Fault>>);

impl Other {
    fn start<F: Front>(config: &Config, options: Options) -> Result<Self, Box<dyn Error>> {
        let (tell, told) = mpsc::channel();
        let config = config.clone();
        let other = thread::spawn(move || {
            let mut node = Node::<F>::open(&config, &options)?;
            // (the test may have ended)
            let _ = tell.send(node.bell()?);
            while !node.serve(None)? {}
            Ok(node.so_far())
        });
        Ok(Self(told.recv()?, other))
    }

    fn end(mut self) -> Result<(u64, bool), Box<dyn Error>> {
        self.0.write_all(&[0])?;
        Ok(self.1.join().map_err(|_| "the other node failed")??)
    }
}

#[test]
fn reads_are_gathered_until_they_are_kept() -> Ended {
    let room = room("gathered")?;
    let log = room.join("0.log");
    let mut node = Node::<LocalRead>::open(&config("local-read", 1)?, &Options::new(0, &log))?;
    assert_eq!(node.perform(WRITE, TIME)?, Answer::Done);
    assert_eq!(node.perform(READ, TIME)?, Answer::Value(5));
    assert_eq!(entries(&log)?, 1);
    node.keep()?;
    assert_eq!(entries(&log)?, 2);
    for _ in 0..64 {
        assert_eq!(node.perform(READ, TIME)?, Answer::Value(5));
    }
    // (another thread writes them)
    let end = Instant::now() + Duration::from_secs(20);
    while entries(&log)? < 64 && Instant::now() < end {
        thread::sleep(Duration::from_millis(1));
    }
    assert!(entries(&log)? >= 64);
    drop(node);
    assert_eq!(entries(&log)?, 66);
    assert_eq!(check(&merge(&[log], false)?).answer, b"serial yes\n");
    Ok(fs::remove_dir_all(room)?)
}

#[test]
fn two_nodes_are_one_memory() -> Ended {
    let room = room("two")?;
    let (config, logs) = (config("linear", 2)?, [0, 1].map(|me| room.join(format!("{me}.log"))));
    let mut node = Node::<Linear>::open(&config, &Options::new(0, &logs[0]))?;
    let other = Other::start::<Linear>(&config, Options::new(1, &logs[1]))?;
    assert_eq!(node.perform(WRITE, TIME)?, Answer::Done);
    assert_eq!(other.end()?, (0, false));
    let late = node.perform(Op::Swap { register: 0, value: 6 }, Some(Duration::from_millis(50)));
    assert!(matches!(late, Err(Fault::TimedOut)));
    assert!(matches!(node.perform(READ, TIME), Err(Fault::Busy)));
    let other = Other::start::<Linear>(&config, resuming(1, &logs[1]))?;
    assert_eq!(node.wait(TIME)?, Answer::Value(5));
    assert!(matches!(node.perform(Op::Read { register: 1 }, TIME), Err(Fault::Refused(_))));
    assert_eq!(node.perform(Op::CompareAndSwap { register: 0, expected: 5, value: 7 }, TIME)?, Answer::Unequal);
    assert_eq!(node.perform(READ, TIME)?, Answer::Value(6));
    assert_eq!(other.end()?, (0, false));
    drop(node);
    assert_eq!(check(&merge(&logs, false)?).answer, b"serial yes\npoints yes\n");
    Ok(fs::remove_dir_all(room)?)
}

#[test]
fn chapters_turn_while_the_disk_has_a_thread_of_its_own() -> Ended {
    let room = room("turns")?;
    let (mut config, logs) = (config("linear", 2)?, [0, 1].map(|me| room.join(format!("{me}.log"))));
    config.most.operations = 3;
    config.sync = true;
    let mut node = Node::<Linear>::open(&config, &Options::new(0, &logs[0]))?;
    let other = Other::start::<Linear>(&config, Options::new(1, &logs[1]))?;
    for value in 1..8 {
        assert_eq!(node.perform(Op::Write { register: 0, value }, TIME)?, Answer::Done);
        assert_eq!(node.perform(READ, TIME)?, Answer::Value(value));
    }
    // (two of its own in each chapter behind the first)
    assert_eq!((node.status().chapter, node.so_far()), (6, (14, false)));
    assert_eq!(other.end()?, (0, false));
    drop(node);
    assert_eq!(check(&merge(&logs, false)?).answer, b"serial yes\npoints yes\n");
    Ok(fs::remove_dir_all(room)?)
}

#[test]
fn what_is_cast_waits_until_all_others_were_heard() -> Ended {
    let room = room("unheard")?;
    let log = room.join("0.log");
    let mut node = Node::<LocalRead>::open(&config("local-read", 2)?, &Options::new(0, &log))?;
    assert!(matches!(node.perform(WRITE, Some(Duration::from_millis(50))), Err(Fault::Paused)));
    assert_eq!(node.perform(READ, TIME)?, Answer::Value(0));
    assert_eq!(node.so_far(), (1, false));
    Ok(fs::remove_dir_all(room)?)
}

#[test]
fn one_that_is_gone_costs_no_entries() -> Ended {
    let room = room("gone")?;
    let (mut config, logs) = (config("linear", 2)?, [0, 1].map(|me| room.join(format!("{me}.log"))));
    config.look = Duration::from_millis(1);
    let mut node = Node::<Linear>::open(&config, &Options::new(0, &logs[0]))?;
    let other = Other::start::<Linear>(&config, Options::new(1, &logs[1]))?;
    assert_eq!(node.perform(WRITE, TIME)?, Answer::Done);
    assert_eq!(other.end()?, (0, false));
    assert!(matches!(node.perform(WRITE, Some(Duration::from_millis(500))), Err(Fault::TimedOut)));
    let before = entries(&logs[0])?;
    assert!(matches!(node.wait(Some(Duration::from_millis(500))), Err(Fault::TimedOut)));
    assert_eq!(entries(&logs[0])?, before);
    let other = Other::start::<Linear>(&config, resuming(1, &logs[1]))?;
    assert_eq!(node.wait(TIME)?, Answer::Done);
    assert_eq!(other.end()?, (0, false));
    Ok(fs::remove_dir_all(room)?)
}

#[test]
fn a_node_is_ahead_by_so_many_casts_at_most() -> Ended {
    let room = room("ahead")?;
    let (mut config, logs) = (config("local-write", 2)?, [0, 1].map(|me| room.join(format!("{me}.log"))));
    // (5 entries an operation: there is room for three of each process to come to rest)
    config.most.entries = 1_048_576 - 30;
    let mut node = Node::<LocalWrite>::open(&config, &Options::new(0, &logs[0]))?;
    let other = Other::start::<LocalWrite>(&config, Options::new(1, &logs[1]))?;
    assert_eq!(node.perform(Op::Swap { register: 0, value: 1 }, TIME)?, Answer::Value(0));
    assert_eq!(other.end()?, (0, false));
    for _ in 0..3 {
        assert_eq!(node.perform(WRITE, TIME)?, Answer::Done);
    }
    assert!(matches!(node.perform(WRITE, Some(Duration::from_millis(50))), Err(Fault::Paused)));
    assert_eq!(node.so_far(), (4, false));
    let other = Other::start::<LocalWrite>(&config, resuming(1, &logs[1]))?;
    assert_eq!(node.perform(WRITE, TIME)?, Answer::Done);
    assert_eq!(node.perform(READ, TIME)?, Answer::Value(5));
    assert_eq!(other.end()?, (0, false));
    Ok(fs::remove_dir_all(room)?)
}

#[test]
fn a_log_that_lost_its_last_entries_is_found_out() -> Ended {
    let room = room("lost")?;
    let (config, logs) = (config("linear", 2)?, [0, 1].map(|me| room.join(format!("{me}.log"))));
    let mut node = Node::<Linear>::open(&config, &Options::new(0, &logs[0]))?;
    let other = Other::start::<Linear>(&config, Options::new(1, &logs[1]))?;
    assert_eq!(node.perform(WRITE, TIME)?, Answer::Done);
    let copy = fs::read(&logs[0])?;
    assert_eq!(node.perform(Op::Write { register: 0, value: 6 }, TIME)?, Answer::Done);
    drop(node);
    fs::write(&logs[0], copy)?;
    let mut node = Node::<Linear>::open(&config, &resuming(0, &logs[0]))?;
    let lost = node.perform(Op::Write { register: 0, value: 7 }, TIME).expect_err("the log was lost");
    assert_eq!(lost.to_string(), "the log was lost: process 1 accepted 2 bodies, and it has 1");
    assert!(matches!(node.perform(WRITE, TIME), Err(Fault::Stopped)));
    assert!(matches!(node.serve(None), Err(Fault::Stopped)));
    assert_eq!(other.end()?, (0, false));
    Ok(fs::remove_dir_all(room)?)
}

#[test]
fn the_log_of_another_cluster_is_refused() -> Ended {
    let room = room("foreign")?;
    let (config, log) = (config("linear", 1)?, room.join("0.log"));
    drop(Node::<Linear>::open(&config, &Options::new(0, &log))?);
    let refused = |config: Config, what: &str| {
        let told = Node::<Linear>::open(&config, &resuming(0, &log)).map(|_| ()).expect_err("another log").to_string();
        assert_eq!(told, format!("{} is of {what}", log.display()));
    };
    refused(Config { cluster: 8, ..config.clone() }, "cluster 7, and this node of cluster 8");
    let registers = vec!["y".to_string()];
    refused(Config { registers, ..config.clone() }, "registers x, and this node of registers y");
    let nodes = [&config.nodes[..], &self::config("linear", 1)?.nodes].concat();
    refused(Config { nodes, ..config }, "processes 1, and this node of processes 2");
    Ok(fs::remove_dir_all(room)?)
}

#[test]
fn after_a_refused_resume_the_log_is_let_go() -> Ended {
    let room = room("lock")?;
    let (config, log) = (config("linear", 1)?, room.join("0.log"));
    drop(Node::<Linear>::open(&config, &Options::new(0, &log))?);
    let good = fs::read(&log)?;
    fs::write(&log, b"no log at all\n".repeat(9))?;
    let refused = Node::<Linear>::open(&config, &resuming(0, &log)).map(|_| ()).expect_err("no log");
    assert_eq!(refused.to_string(), format!("{}: line 1: no line of a log", log.display()));
    fs::write(&log, good)?;
    let mut node = Node::<Linear>::open(&config, &resuming(0, &log))?;
    assert_eq!(node.perform(WRITE, TIME)?, Answer::Done);
    let other = Config { nodes: self::config("linear", 1)?.nodes, ..config };
    let refused = Node::<Linear>::open(&other, &resuming(0, &log)).map(|_| ()).expect_err("a log in use");
    assert_eq!(refused.to_string(), format!("{} is the log of a node that runs", log.display()));
    Ok(fs::remove_dir_all(room)?)
}

#[test]
fn chapters_before_the_last_two_may_be_put_aside() -> Ended {
    let room = room("aside")?;
    let (mut config, log) = (config("linear", 1)?, room.join("0.log"));
    config.most.operations = 3;
    let mut node = Node::<Linear>::open(&config, &Options::new(0, &log))?;
    for value in 1..=12 {
        assert_eq!(node.perform(Op::Write { register: 0, value }, TIME)?, Answer::Done);
    }
    drop(node);
    let log_of = |chapter| if chapter == 0 { log.clone() } else { room.join(format!("0.log.{chapter}")) };
    let quiet_of = |chapter| log_of(chapter).with_added_extension("quiet");
    let last = (0..).take_while(|&it| log_of(it).exists()).last().ok_or("no log")?;
    assert!(last > 3);
    for chapter in 0..last - 1 {
        fs::remove_file(log_of(chapter))?;
        fs::remove_file(quiet_of(chapter))?;
    }
    let mut node = Node::<Linear>::open(&config, &resuming(0, &log))?;
    assert_eq!(node.so_far(), (12, false));
    assert_eq!(node.perform(READ, TIME)?, Answer::Value(12));
    assert_eq!(node.so_far(), (13, false));
    drop(node);
    let quiet = quiet_of(last - 1);
    fs::write(&quiet, "")?;
    let refused = Node::<Linear>::open(&config, &resuming(0, &log)).map(|_| ()).expect_err("no number");
    assert_eq!(refused.to_string(), format!("{}: no number of calls", quiet.display()));
    fs::remove_file(log_of(last - 1))?;
    assert!(matches!(Node::<Linear>::open(&config, &resuming(0, &log)), Err(Fault::Io(_))));
    Ok(fs::remove_dir_all(room)?)
}

#[test]
fn a_chapter_that_never_began_is_begun_anew() -> Ended {
    let room = room("chapters")?;
    let (mut config, log, next) = (config("linear", 1)?, room.join("0.log"), room.join("0.log.1"));
    config.most.operations = 3;
    let mut node = Node::<Linear>::open(&config, &Options::new(0, &log))?;
    for _ in 0..3 {
        assert_eq!(node.perform(WRITE, TIME)?, Answer::Done);
    }
    while node.status().chapter == 0 {
        node.serve(Some(Instant::now() + Duration::from_millis(5)))?;
    }
    drop(node);
    // (its value is written first in the chapter)
    let (begun, head) = (fs::read(&next)?, 40);
    assert_eq!(entries(&next)?, 1);
    for left in [&[][..], &begun[..head], &[0; 4096], &[&begun[..head], &[0; 4096]].concat()] {
        fs::write(&next, left)?;
        let mut node = Node::<Linear>::open(&config, &resuming(0, &log))?;
        assert_eq!(node.perform(READ, TIME)?, Answer::Value(5));
        assert_eq!(node.so_far(), (4, false));
    }
    fs::write(&next, "tellwydar log 1\nfront linear\nprocesses 1\n")?;
    let refused = Node::<Linear>::open(&config, &resuming(0, &log)).map(|_| ()).expect_err("no log");
    assert_eq!(refused.to_string(), format!("{}: line 1: no line of a log", next.display()));
    Ok(fs::remove_dir_all(room)?)
}

#[test]
fn the_log_of_a_chapter_that_is_over_lost_nothing() -> Ended {
    let room = room("damaged")?;
    let (mut config, log) = (config("linear", 1)?, room.join("0.log"));
    config.most.operations = 3;
    let mut node = Node::<Linear>::open(&config, &Options::new(0, &log))?;
    for value in 1..=3 {
        assert_eq!(node.perform(Op::Write { register: 0, value }, TIME)?, Answer::Done);
    }
    assert_eq!(node.perform(READ, TIME)?, Answer::Value(3));
    assert_eq!(node.status().chapter, 1);
    drop(node);
    let good = fs::read(&log)?;
    // (the head has nine lines, and the last entry stands on line 12)
    let at = |line: usize| good.split_inclusive(|&it| it == b'\n').take(line - 1).map(<[u8]>::len).sum::<usize>();
    for line in [10, 11, 12] {
        let mut changed = good.clone();
        changed[at(line) + 20] ^= 1;
        fs::write(&log, changed)?;
        let refused = Node::<Linear>::open(&config, &resuming(0, &log)).map(|_| ()).expect_err("a damaged log");
        let why = format!("{}: line {line}: changed, or a line before it is missing", log.display());
        assert_eq!(refused.to_string(), why);
    }
    fs::write(&log, good)?;
    let mut node = Node::<Linear>::open(&config, &resuming(0, &log))?;
    assert_eq!(node.perform(READ, TIME)?, Answer::Value(3));
    Ok(fs::remove_dir_all(room)?)
}

#[test]
fn a_bell_that_rang_in_a_call_is_heard_behind_it() -> Ended {
    let room = room("rang")?;
    let mut node = Node::<LocalRead>::open(&config("local-read", 1)?, &Options::new(0, room.join("0.log")))?;
    // (so many calls are made before anybody is heard)
    for _ in 0..64 {
        assert_eq!(node.perform(READ, TIME)?, Answer::Value(0));
    }
    node.bell()?.write_all(&[0])?;
    assert_eq!(node.perform(READ, TIME)?, Answer::Value(0));
    node.keep()?;
    let start = Instant::now();
    let is_soon = |start: Instant| start.elapsed() < Duration::from_secs(3);
    assert!(node.serve(Some(start + Duration::from_secs(6)))? && is_soon(start));
    // (and once)
    assert!(!node.serve(Some(Instant::now() + Duration::from_millis(50)))?);
    Ok(fs::remove_dir_all(room)?)
}

#[test]
fn a_new_log_is_none_beside_those_of_later_chapters() -> Ended {
    let room = room("later")?;
    let (config, log, later) = (config("linear", 1)?, room.join("0.log"), room.join("0.log.1"));
    fs::write(&later, "")?;
    let refused = Node::<Linear>::open(&config, &Options::new(0, &log)).map(|_| ()).expect_err("a later log");
    let why = format!("{} is there already: resume it, or take a new one for a new cluster", later.display());
    assert_eq!((refused.to_string(), log.exists()), (why, false));
    Ok(fs::remove_dir_all(room)?)
}

#[test]
fn a_time_may_have_no_end() -> Ended {
    let room = room("endless")?;
    let mut node = Node::<Linear>::open(&config("linear", 1)?, &Options::new(0, room.join("0.log")))?;
    assert_eq!(node.perform(WRITE, Some(Duration::MAX))?, Answer::Done);
    assert!(matches!(node.wait(Some(Duration::MAX)), Err(Fault::Nothing)));
    Ok(fs::remove_dir_all(room)?)
}
