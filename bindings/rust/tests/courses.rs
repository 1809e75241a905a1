//! The course of a chapter, as a node tells it.
use tellwydar::{FrontEnd, LogHead, LoggedNode, Op, Refused, Room};

const ROOM: Room = Room { operations: 3, total: 40, entries: 20, ahead: 1 };
const GOT: &[u8] = &[0, 10, 1, 2, 0, 0, 0, 0, 0, 0, 0, 1];
const ACK: &[u8] = &[0, 19, 1, 1, 0, 0, 0, 0, 0, 0, 0, 0, 2, 0, 0, 0, 0, 0, 0, 0, 2];

/// A node of two that has heard from the other one.
fn node(process: u8) -> LoggedNode {
    let (names, front) = (vec!["x".to_string(), "y".to_string()], FrontEnd::Linear);
    let head = LogHead { cluster: 7, chapter: 1, begun: 12, front, processes: 2, process, names };
    let mut node = LoggedNode::open(&LoggedNode::begin(&head).expect("a log"), 0).expect("a node");
    node.hear(1 - process, 0).expect("a peer");
    node
}

#[test]
fn a_chapter_begins_with_what_the_one_before_ended_with() {
    let mut node = node(0);
    node.follow(ROOM, &[0, 7]).expect("memory");
    let write = Op::Write { register: 1, value: 7 };
    assert_eq!((node.next_opening(), node.is_opening(false), node.is_far_ahead()), (Some(write), true, false));
    node.call(write).expect("an entry");
    assert_eq!((node.next_opening(), node.calls(), node.own_calls()), (None, 1, 0));
    assert_eq!((node.is_opening(true), node.is_far_ahead(), node.is_ending()), (true, true, false));
    for frame in [GOT, ACK] {
        node.take(1, frame).expect("an entry");
    }
    assert_eq!((node.is_opening(true), node.is_opening(false), node.is_far_ahead()), (true, false, false));
    node.call(Op::Read { register: 1 }).expect("an entry");
    assert_eq!((node.calls(), node.own_calls(), node.is_opening(true)), (2, 1, false));
    node.end();
    assert_eq!((node.is_ending(), node.is_quiet(true), node.is_quiet(false)), (true, false, true));
}

#[test]
fn another_process_waits_for_the_opening() {
    let mut node = node(1);
    node.follow(ROOM, &[0, 7]).expect("memory");
    assert_eq!((node.next_opening(), node.is_opening(false), node.own_calls()), (None, true, 0));
    node.follow(ROOM, &[]).expect("memory");
    assert_eq!((node.next_opening(), node.is_opening(false)), (None, false));
}

#[test]
fn a_chapter_ends_with_its_room() {
    let mut node = node(0);
    node.follow(Room { entries: 2, ..ROOM }, &[]).expect("memory");
    node.tick().expect("an entry");
    assert!(!node.is_ending());
    node.tick().expect("an entry");
    assert!(node.is_ending() && node.is_quiet(false));
}

#[test]
fn more_values_than_registers_are_refused() {
    let mut node = node(0);
    assert_eq!(node.follow(ROOM, &vec![0; 4097]), Err(Refused::NoShape));
    assert_eq!(node.follow(ROOM, &vec![0; 4096]), Ok(()));
}
