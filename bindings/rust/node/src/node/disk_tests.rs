//! Nodes whose disk hangs.
use super::*;
use crate::disk::Act;
use crate::port::Port;
use crate::road::Message;
use cluster::*;
use std::fs;
use std::io::{BufRead, BufReader, Write};
use std::sync::atomic::{AtomicBool, Ordering};
use std::thread;
use tellwydar::{Linear, LocalRead, LocalWrite};

mod cluster;
mod hangs;

fn the_time_is_up<F: Front>(front: &str) {
    let room = Room::new(&format!("hangs-{front}"), front, 2);
    let mut node = room.open::<F>();
    let other = Other::start::<F>(&room);
    assert_eq!(node.perform(write(1), TIME).expect("an answer"), Answer::Done);
    rest(&mut node);
    let before = [0, 1].map(|it| lines(&room.log(it)));
    room.disk_is(HANGS);
    soon(|| {
        let late = node.perform(Op::Swap { register: 0, value: 2 }, SHORT);
        assert!(matches!(late, Err(Fault::TimedOut)), "{late:?}");
        assert!(matches!(node.perform(READ, SHORT), Err(Fault::Busy)));
        assert!(matches!(node.wait(SHORT), Err(Fault::TimedOut)));
        assert!(!node.serve(Some(Instant::now() + Duration::from_millis(50))).expect("a node"));
    });
    assert_eq!((node.so_far(), node.status().is_running), ((2, true), true));
    assert_eq!([0, 1].map(|it| lines(&room.log(it))), before);
    room.disk_is(WRITES);
    assert_eq!(node.wait(TIME).expect("an answer"), Answer::Value(1));
    assert_eq!(node.perform(READ, TIME).expect("an answer"), Answer::Value(2));
    node.keep().expect("a log");
    assert_eq!(room.calls(), ["write x 1", "swap x 2", "read x"]);
    assert!(lines(&room.log(1)).len() > before[1].len());
    other.end();
    drop(node);
    room.is_in_order();
}

#[test]
fn a_calls_time_is_up_though_the_disk_hangs() {
    the_time_is_up::<Linear>("linear");
    the_time_is_up::<LocalRead>("local-read");
    the_time_is_up::<LocalWrite>("local-write");
}

#[test]
fn a_disk_that_is_full_at_last_stops_the_node_before_anything_goes_out() {
    let room = Room::new("full", "local-write", 2);
    let mut node = room.open::<LocalWrite>();
    let other = Other::start::<LocalWrite>(&room);
    assert_eq!(node.perform(write(1), TIME).expect("an answer"), Answer::Done);
    rest(&mut node);
    let before = lines(&room.log(1));
    room.disk_is(HANGS);
    assert!(matches!(node.perform(write(2), SHORT), Err(Fault::TimedOut)));
    room.disk_is(IS_FULL);
    let fault = node.wait(TIME).expect_err("the disk is full");
    assert!(matches!(&fault, Fault::Io(why) if why.kind() == io::ErrorKind::StorageFull), "{fault:?}");
    assert!(matches!(node.wait(TIME), Err(Fault::Stopped)));
    assert!(matches!(node.perform(READ, TIME), Err(Fault::Stopped)));
    drop(node);
    other.end();
    assert_eq!((room.calls(), lines(&room.log(1))), (vec!["write x 1".to_string()], before));
}

#[test]
fn what_is_answered_at_once_is_given_a_moment() {
    let room = Room::new("moment", "local-write", 1);
    let mut node = room.open::<LocalWrite>();
    for value in 1..10 {
        assert_eq!(node.perform(write(value), Some(Duration::ZERO)).expect("an answer"), Answer::Done);
        assert_eq!(node.perform(READ, Some(Duration::ZERO)).expect("an answer"), Answer::Value(value));
    }
    room.disk_is(HANGS);
    soon(|| assert!(matches!(node.perform(write(10), Some(Duration::ZERO)), Err(Fault::TimedOut))));
    room.disk_is(WRITES);
    assert_eq!(node.wait(TIME).expect("an answer"), Answer::Done);
}

/// Serves until this node sees that value.
fn see(node: &mut Node<LocalRead>, value: u64) {
    while node.perform(READ, TIME).expect("an answer") != Answer::Value(value) {
        serve(node);
    }
}

#[test]
fn nothing_is_called_while_the_disk_has_to_do_with_what_came() {
    let room = Room::new("paused", "local-read", 2);
    let mut node = room.open::<LocalRead>();
    let other = Other::start::<LocalRead>(&room);
    other.calls.send(write(1)).expect("a node");
    see(&mut node, 1);
    rest(&mut node);
    room.disk_is(HANGS);
    // it needs nobody else, and what it saw is on the disk
    assert_eq!(soon(|| node.perform(READ, SHORT)).expect("an answer"), Answer::Value(1));
    node.keep().expect("a log");
    let before = lines(&room.log(0));
    assert!(before.last().is_some_and(|it| it.contains(" 0 call read x = value 1 ")), "{before:?}");
    other.calls.send(write(2)).expect("a node");
    let end = Instant::now() + SOON;
    while !node.story.is_writing() && Instant::now() < end {
        serve(&mut node);
    }
    assert!(node.story.is_writing());
    let called = node.so_far();
    soon(|| {
        assert!(matches!(node.perform(READ, SHORT), Err(Fault::Paused)));
        assert!(matches!(node.perform(write(3), SHORT), Err(Fault::Paused)));
        assert!(matches!(node.perform(READ, Some(Duration::ZERO)), Err(Fault::Paused)));
        // (nothing that was told waits)
        node.keep().expect("a log");
    });
    assert_eq!((node.so_far(), lines(&room.log(0))), (called, before));
    room.disk_is(WRITES);
    see(&mut node, 2);
    other.end();
    drop(node);
    room.is_in_order();
}

#[test]
fn calls_are_made_though_the_disk_is_slow_and_more_comes_at_all_times() {
    let room = Room::new("slow", "local-write", 2);
    let mut node = room.open::<LocalWrite>();
    let other = Other::start::<LocalWrite>(&room);
    assert_eq!(node.perform(write(1), TIME).expect("an answer"), Answer::Done);
    room.disk_is(IS_SLOW);
    for value in 0..3000 {
        other.calls.send(write(value)).expect("a node");
    }
    for value in 2..12 {
        assert_eq!(soon(|| node.perform(write(value), TIME)).expect("an answer"), Answer::Done);
        assert!(!node.serve(Some(Instant::now() + Duration::from_millis(5))).expect("a node"));
    }
    (&other.bell).write_all(&[0]).expect("a node");
    while !other.thread.is_finished() {
        serve(&mut node);
    }
}

#[test]
fn what_was_told_is_in_the_log_of_a_node_that_keeps_it_or_ends() {
    let room = Room::new("told", "local-write", 1);
    let mut node = room.open::<LocalWrite>();
    assert_eq!(node.perform(write(1), TIME).expect("an answer"), Answer::Done);
    assert_eq!(node.perform(READ, TIME).expect("an answer"), Answer::Value(1));
    room.disk_is(HANGS);
    assert!(matches!(node.perform(write(2), SHORT), Err(Fault::TimedOut)));
    let disk = room.disk_will_write(Duration::from_millis(300));
    node.keep().expect("a log");
    assert_eq!(room.calls(), ["write x 1", "read x", "write x 2"]);
    disk.join().expect("a disk");
    assert_eq!(node.wait(TIME).expect("an answer"), Answer::Done);
    room.disk_is(HANGS);
    assert!(matches!(node.perform(write(3), SHORT), Err(Fault::TimedOut)));
    let disk = room.disk_will_write(Duration::from_millis(300));
    drop(node);
    assert_eq!(room.calls(), ["write x 1", "read x", "write x 2", "write x 3"]);
    // (and no room behind it)
    assert_eq!(fs::read(room.log(0)).expect("a log").last(), Some(&b'\n'));
    disk.join().expect("a disk");
}

#[test]
fn the_bell_is_heard_though_the_disk_hangs() {
    let room = Room::new("bell", "linear", 1);
    let mut node = room.open::<Linear>();
    assert_eq!(node.perform(write(1), None).expect("an answer"), Answer::Done);
    room.disk_is(HANGS);
    let mut bell = node.bell().expect("a bell");
    let ring = thread::spawn(move || {
        thread::sleep(Duration::from_millis(100));
        bell.write_all(&[0]).expect("a node");
    });
    soon(|| assert!(matches!(node.perform(write(2), None), Err(Fault::Rung))));
    ring.join().expect("a bell");
    room.disk_is(WRITES);
    assert_eq!(node.wait(None).expect("an answer"), Answer::Done);
}

/// The disk of this node hangs while a program makes this call, which is answered so at last. Others are told this in
/// the status meanwhile.
fn are_told_how_it_is<F: Front>(room: &Room, node: &mut Node<F>, [call, answer, status]: [&str; 3]) {
    let (end, path) = (AtomicBool::new(false), room.path.join("0.socket"));
    let mut bell = node.bell().expect("a bell");
    let port = Port::open(&path, node.bell().expect("a bell")).expect("a port");
    let ask = |line: &str| {
        let program = UnixStream::connect(&path).expect("a port");
        (&program).write_all(format!("{line}\n").as_bytes()).expect("a port");
        BufReader::new(program).lines().map(|it| it.expect("an answer"))
    };
    let programs = || {
        let mut called = ask(call);
        soon(|| {
            while !ask("status").next().expect("an answer").contains(status) {
                thread::sleep(Duration::from_millis(10));
            }
            while room.hangs.load(Ordering::Relaxed) == 0 {
                thread::sleep(Duration::from_millis(1));
            }
            assert_eq!(ask("health").next().as_deref(), Some("ok"));
        });
        room.disk_is(WRITES);
        assert_eq!(called.next().as_deref(), Some(answer));
    };
    thread::scope(|it| {
        let programs = it.spawn(programs);
        let ended = it.spawn(|| {
            let told = programs.join();
            end.store(true, Ordering::Relaxed);
            bell.write_all(&[0]).and(told.map_err(|_| io::ErrorKind::Other.into()))
        });
        port.serve(node, &end).expect("a node");
        ended.join().expect("a node").expect("answers");
    });
}

#[test]
fn programs_at_a_port_are_told_how_the_node_is() {
    let room = Room::new("port", "linear", 1);
    let mut node = room.open::<Linear>();
    assert_eq!(node.perform(write(1), TIME).expect("an answer"), Answer::Done);
    room.disk_is(HANGS);
    are_told_how_it_is(&room, &mut node, ["write x 2", "done", "\"running\": true"]);
}

/// A road on which messages of nobody come at all times.
struct Flood;

impl Road for Flood {
    fn most_bytes(&self) -> usize {
        1000
    }

    fn send(&mut self, _: u8, _: &[u8]) {}

    fn receive(&mut self, _: Option<Duration>, into: &mut Vec<Arrived>) -> Result<bool, Fault> {
        into.extend((0..64).map(|_| Ok(Message { key: None, bytes: vec![0; 100] })));
        Ok(false)
    }
}

#[test]
fn what_comes_while_the_disk_hangs_takes_little_room() {
    let room = Room::new("flood", "linear", 1);
    let mut node = room.open::<Linear>();
    node.road = Box::new(Flood);
    room.disk_is(HANGS);
    assert!(matches!(node.perform(write(1), SHORT), Err(Fault::TimedOut)));
    assert_eq!(node.arrived.len(), MOST_KEPT);
    room.disk_is(WRITES);
    assert_eq!(node.wait(TIME).expect("an answer"), Answer::Done);
    node.serve(Some(Instant::now())).expect("a node");
    assert!(node.arrived.is_empty());
}
