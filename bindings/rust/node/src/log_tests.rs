use super::*;
use crate::log_file::LogFile;
use std::path::PathBuf;
use tellwydar::{FrontEnd, Op};

/// A folder of one test, which goes with it.
struct Room(PathBuf);

impl Room {
    fn new(name: &str) -> Self {
        let path = std::env::temp_dir().join(format!("tellwydar-{name}-{}", std::process::id()));
        fs::create_dir_all(&path).expect("a folder");
        Self(path)
    }

    fn log(&self) -> PathBuf {
        self.0.join("0.log")
    }
}

impl Drop for Room {
    fn drop(&mut self) {
        let _ = fs::remove_dir_all(&self.0);
    }
}

/// The log of a process that is alone, as worked by hand.
const HEAD_LINES: &str = "tellwydar log 1\ncluster 7\nprocess 0\nchapter 0\nbegun 12\ntellwydar record 1\n\
    front linear\nprocesses 1\nregisters x\n";
const ENTRIES: &str = "0 call write x 5 = done 0\n0 call swap x 18446744073709551615 = value 5 1\n\
    0 call cas x 4 9 = unequal 2\n0 call read x = value 18446744073709551615 3\n0 tick\n";

/// Lines behind their seals, as docs/FORMATS.md has them.
pub fn sealed(lines: &str) -> Vec<u8> {
    let (mut log, mut before) = (String::new(), Vec::new());
    for line in lines.lines() {
        before.extend_from_slice(line.as_bytes());
        log += &format!("{:08x} {line}\n", crc32fast::hash(&before));
        before.push(b'\n');
    }
    log.into_bytes()
}

/// The lines of a log without their seals, which are eight digits and a space.
pub fn unsealed(log: &[u8]) -> Vec<&[u8]> {
    log.split_inclusive(|&it| it == b'\n').map(|it| &it[9..]).collect()
}

fn entries(log: &[u8]) -> String {
    String::from_utf8(unsealed(log)[HEAD as usize..].concat()).expect("a text")
}

fn worked_head() -> LogHead {
    let (names, front) = (vec!["x".to_string()], FrontEnd::Linear);
    LogHead { cluster: 7, chapter: 0, begun: 12, front, processes: 1, process: 0, names }
}

fn written() -> Vec<u8> {
    let mut log = LoggedNode::begin(&worked_head()).expect("a log");
    let mut node = LoggedNode::open(&log, 0).expect("a node");
    for op in [
        Op::Write { register: 0, value: 5 },
        Op::Swap { register: 0, value: u64::MAX },
        Op::CompareAndSwap { register: 0, expected: 4, value: 9 },
        Op::Read { register: 0 },
    ] {
        log.extend_from_slice(node.call(op).expect("an entry"));
    }
    log.extend_from_slice(node.tick().expect("an entry"));
    log
}

#[test]
fn a_log_is_read_as_it_was_written() {
    let room = Room::new("log-read");
    let log = written();
    assert_eq!(log, sealed(&[HEAD_LINES, ENTRIES].concat()));
    let mut file = LogFile::create(&room.log()).expect("a file");
    file.begin(&log).expect("room");
    drop(file);
    let text = read(&room.log()).expect("a log");
    let node = open(&room.log(), &text, 0).expect("a node");
    assert_eq!((node.whole(), node.logged(), node.calls()), (log.len(), 5, 4));
    assert_eq!(head(&room.log(), &text).expect("a head"), worked_head());
    assert_eq!(entries(&text), ENTRIES);
}

#[test]
fn a_cut_entry_is_dropped_and_the_log_goes_on_before_it() {
    let room = Room::new("log-cut");
    let log = written();
    fs::write(room.log(), &log[..log.len() - 3]).expect("room");
    let (mut file, text) = LogFile::reopen(&room.log()).expect("a log");
    assert!(LogFile::reopen(&room.log()).is_err());
    let mut node = open(&room.log(), &text, 0).expect("a node");
    assert_eq!((entries(&text[..node.whole()]), node.logged()), (ENTRIES.replace("0 tick\n", ""), 4));
    file.go_on(node.whole() as u64).expect("room");
    file.write(node.tick().expect("an entry"), true).expect("room");
    // (what a crash leaves here has room after it)
    assert!(fs::read(room.log()).expect("a log").len() > log.len());
    assert_eq!(read(&room.log()).expect("a log"), log);
    drop(file);
    assert_eq!(fs::read(room.log()).expect("a log"), log);
}

#[test]
fn a_log_of_another_head_is_told_by_what_differs_first() {
    let mine = worked_head();
    let names = ["x", "y"].map(str::to_string).to_vec();
    let others = [
        (LogHead { cluster: 5, processes: 3, ..mine.clone() }, "cluster 5, and this node of cluster 7"),
        (LogHead { process: 1, chapter: 2, ..mine.clone() }, "process 1, and this node of process 0"),
        (LogHead { chapter: 2, ..mine.clone() }, "chapter 2, and this node of chapter 0"),
        (LogHead { front: FrontEnd::LocalRead, ..mine.clone() }, "front local-read, and this node of front linear"),
        (LogHead { processes: 3, ..mine.clone() }, "processes 3, and this node of processes 1"),
        (LogHead { names, ..mine.clone() }, "registers x y, and this node of registers x"),
    ];
    for (other, told) in others {
        let (found, wanted) = differs(&other, &mine).expect(told);
        assert_eq!(format!("{found}, and this node of {wanted}"), told);
    }
    assert_eq!(differs(&LogHead { begun: 13, ..mine.clone() }, &mine), None);
}

#[test]
fn other_spellings_are_refused() {
    let path = Path::new("0.log");
    let texts = [
        "0 call write x 05",
        "0 call read x 1",
        "0 call write x",
        "0 tick ",
        "0 take 1 00",
        "0 take 064 000a01020000000000000001",
        "0 call read x =",
        "0 take 1 000A01020000000000000001",
        "0 take 1 000a01020000000000000001 = value 7",
        "0 call read x = value 1",
        "0 call read x  = done 1",
        "0 call read x = done 1 2",
        "",
        "0 call add x 1",
        "0 call write X 1",
        "0 call write x 18446744073709551616",
        "0 call write x +5",
    ];
    let told = |text: &str| {
        let log = sealed(&format!("{HEAD_LINES}{text}\n").replace("processes 1", "processes 2"));
        open(path, &log, 0).expect_err(text).to_string()
    };
    for text in texts {
        assert_eq!(told(text), "0.log: line 10: no line of a log", "{text}");
    }
    assert_eq!(told("0 take 64 000a01020000000000000001"), "0.log: line 10: no step of its process");
}
