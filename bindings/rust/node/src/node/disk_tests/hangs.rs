//! Disks that hang at one place after another, with `sync` and without.
use super::*;

const IS_WRITE: fn(Act) -> bool = |it| matches!(it, Act::Write(_));
const SWAP: Op = Op::Swap { register: 0, value: 2 };

impl Room {
    fn options(&self, sync: bool) -> Options {
        Options { sync, ..Options::new(0, self.log(0)) }
    }

    /// From here on the disk hangs before these acts.
    fn hang(&self, acts: impl FnMut(Act) -> bool + Send + 'static) {
        *self.acts.lock().expect("acts") = Box::new(acts);
        self.hangs.store(0, Ordering::Relaxed);
        self.disk_is(HANGS);
    }

    /// Serves until the disk hangs for this time, which it does soon.
    fn serve_until_it_hangs<F: Front>(&self, node: &mut Node<F>, time: u8) {
        let end = Instant::now() + SOON;
        while self.hangs.load(Ordering::Relaxed) < time {
            soon(|| serve(node));
            assert!(Instant::now() < end);
        }
    }

    /// The entries of process 0 behind those that were there before.
    fn new_entries(&self, before: &[String]) -> Vec<String> {
        let log = lines(&self.log(0));
        assert_eq!(&log[..before.len()], before);
        let behind = log[before.len()..].iter().map(|it| it.split_once(' ').map_or("", |it| it.1));
        behind.map(|it| it.split(" = ").next().unwrap_or(it).to_string()).collect()
    }
}

fn is_late<T: std::fmt::Debug>(told: &Result<T, Fault>) -> bool {
    matches!(told, Err(Fault::TimedOut))
}

fn is_paused<T: std::fmt::Debug>(told: &Result<T, Fault>) -> bool {
    matches!(told, Err(Fault::Paused))
}

fn is_full<T: std::fmt::Debug>(told: &Result<T, Fault>) -> bool {
    matches!(told, Err(Fault::Io(why)) if why.kind() == io::ErrorKind::StorageFull)
}

/// Where a disk hangs once an entry was made: with `--sync` or without, at which act, and whether the
/// entry is in the file by then.
type Place = (bool, fn(Act) -> bool, bool);

const PLACES: [Place; 3] = [(true, IS_WRITE, false), (false, IS_WRITE, false), (true, |it| it == Act::Force, true)];

fn a_swap_is_late<F: Front>(front: &str) {
    for (at, (sync, acts, is_in)) in PLACES.into_iter().enumerate() {
        let room = Room::new(&format!("late-{front}-{at}"), front, 2);
        let mut node = room.open_as::<F>(&room.options(sync));
        let other = Other::start::<F>(&room);
        assert_eq!(node.perform(write(1), TIME).expect("an answer"), Answer::Done);
        rest(&mut node);
        let before = [0, 1].map(|it| lines(&room.log(it)));
        room.hang(acts);
        soon(|| {
            assert!(is_late(&node.perform(SWAP, SHORT)));
            assert_eq!(room.hangs.load(Ordering::Relaxed), 1);
            assert!(matches!(node.perform(READ, SHORT), Err(Fault::Busy)));
            assert!(is_late(&node.wait(SHORT)));
            serve(&mut node);
        });
        assert_eq!((node.so_far(), node.status().is_running), ((2, true), true));
        let entries: &[&str] = if is_in { &["0 call swap x 2"] } else { &[] };
        assert_eq!(room.new_entries(&before[0]), entries);
        assert_eq!(lines(&room.log(1)), before[1]);
        room.disk_is(WRITES);
        assert_eq!(node.wait(TIME).expect("an answer"), Answer::Value(1));
        assert_eq!(node.perform(READ, TIME).expect("an answer"), Answer::Value(2));
        other.end();
        drop(node);
        room.is_in_order();
    }
}

#[test]
fn a_call_is_late_wherever_the_disk_hangs() {
    a_swap_is_late::<Linear>("linear");
    a_swap_is_late::<LocalRead>("local-read");
    a_swap_is_late::<LocalWrite>("local-write");
}

#[test]
fn a_full_disk_stops_the_node_wherever_it_hung() {
    for (at, (sync, acts, is_in)) in PLACES.into_iter().enumerate() {
        let room = Room::new(&format!("full-{at}"), "local-write", 2);
        let mut node = room.open_as::<LocalWrite>(&room.options(sync));
        let other = Other::start::<LocalWrite>(&room);
        assert_eq!(node.perform(write(1), TIME).expect("an answer"), Answer::Done);
        rest(&mut node);
        let before = lines(&room.log(1));
        room.hang(acts);
        soon(|| assert!(is_late(&node.perform(write(2), SHORT))));
        room.disk_is(IS_FULL);
        let fault = node.wait(TIME);
        assert!(is_full(&fault), "{fault:?}");
        let told = "the log can't be written: No space left on device (os error 28)";
        assert_eq!(fault.map_err(|it| it.to_string()), Err(told.to_string()));
        assert!(matches!(node.perform(READ, TIME), Err(Fault::Stopped)));
        drop(node);
        other.end();
        assert_eq!((room.calls().len(), lines(&room.log(1))), (1 + usize::from(is_in), before));
    }
}

#[test]
fn the_end_of_a_node_waits_for_the_disk() {
    for (at, (sync, acts, _)) in PLACES.into_iter().enumerate() {
        let room = Room::new(&format!("end-{at}"), "linear", 2);
        let mut node = room.open_as::<Linear>(&room.options(sync));
        let other = Other::start::<Linear>(&room);
        assert_eq!(node.perform(write(1), TIME).expect("an answer"), Answer::Done);
        rest(&mut node);
        room.hang(acts);
        soon(|| assert!(is_late(&node.perform(write(2), SHORT))));
        let (disk, begin) = (room.disk_will_write(Duration::from_millis(300)), Instant::now());
        drop(node);
        assert!(begin.elapsed() >= Duration::from_millis(250));
        disk.join().expect("a disk");
        assert_eq!(room.calls(), ["write x 1", "write x 2"]);
        let mut node = room.open_as::<Linear>(&Options { resume: true, ..room.options(sync) });
        assert_eq!(node.so_far(), (2, true));
        assert_eq!(node.wait(TIME).expect("an answer"), Answer::Done);
        assert_eq!(node.perform(READ, TIME).expect("an answer"), Answer::Value(2));
        other.end();
        drop(node);
        room.is_in_order();
    }
}

#[test]
fn what_is_answered_at_once_is_given_a_moment_without_sync() {
    let room = Room::new("moment-unforced", "local-write", 1);
    let mut node = room.open_as::<LocalWrite>(&room.options(false));
    for value in 1..100 {
        assert_eq!(node.perform(write(value), Some(Duration::ZERO)).expect("an answer"), Answer::Done);
        assert_eq!(node.perform(READ, Some(Duration::ZERO)).expect("an answer"), Answer::Value(value));
    }
    room.hang(IS_WRITE);
    soon(|| assert!(is_late(&node.perform(write(100), Some(Duration::ZERO)))));
    room.disk_is(WRITES);
    assert_eq!(node.wait(TIME).expect("an answer"), Answer::Done);
}

#[test]
fn reads_that_wait_for_nobody_are_answered_while_the_disk_hangs() {
    for sync in [true, false] {
        let room = Room::new(&format!("reads-{sync}"), "local-read", 2);
        let mut node = room.open_as::<LocalRead>(&room.options(sync));
        let other = Other::start::<LocalRead>(&room);
        assert_eq!(node.perform(write(1), TIME).expect("an answer"), Answer::Done);
        rest(&mut node);
        room.hang(IS_WRITE);
        let reads = soon(|| (0..200).find(|_| node.perform(READ, SHORT).is_err()).expect("the disk hangs"));
        assert_eq!(reads, 128);
        soon(|| assert!(is_paused(&node.perform(READ, SHORT))));
        soon(|| assert!(is_paused(&node.perform(write(2), SHORT))));
        assert_eq!(room.calls(), ["write x 1"]);
        room.disk_is(WRITES);
        assert_eq!(node.perform(write(2), TIME).expect("an answer"), Answer::Done);
        assert_eq!(node.perform(READ, TIME).expect("an answer"), Answer::Value(2));
        drop(node);
        assert_eq!(room.calls().len(), 131);
        other.end();
        room.is_in_order();
    }
}

#[test]
fn programs_are_told_how_the_node_is_while_the_disk_hangs_with_a_read() {
    let read = ["read x", "value 1", "\"operations\": 2"];
    for (sync, call) in [(true, read), (false, read), (false, ["write x 2", "done", "\"running\": true"])] {
        let room = Room::new("port-read", "local-read", 1);
        let mut node = room.open_as::<LocalRead>(&room.options(sync));
        assert_eq!(node.perform(write(1), TIME).expect("an answer"), Answer::Done);
        room.hang(IS_WRITE);
        are_told_how_it_is(&room, &mut node, call);
    }
}

/// A node whose disk hangs with the entry of a read, and has that of a write to come; and what both logs had before.
fn behind(room: &Room, sync: bool) -> (Node<LocalRead>, Other, [Vec<String>; 2]) {
    let mut node = room.open_as::<LocalRead>(&room.options(sync));
    let other = Other::start::<LocalRead>(room);
    assert_eq!(node.perform(write(1), TIME).expect("an answer"), Answer::Done);
    rest(&mut node);
    let before = [0, 1].map(|it| lines(&room.log(it)));
    room.hang(IS_WRITE);
    assert_eq!(soon(|| node.perform(READ, SHORT)).expect("an answer"), Answer::Value(1));
    room.serve_until_it_hangs(&mut node, 1);
    soon(|| assert!(is_late(&node.perform(write(2), SHORT))));
    (node, other, before)
}

#[test]
fn an_entry_is_not_written_since_the_one_before_it_is() {
    for sync in [true, false] {
        let room = Room::new(&format!("behind-{sync}"), "local-read", 2);
        let (mut node, other, before) = behind(&room, sync);
        room.disk_is(DOES_ONE);
        room.serve_until_it_hangs(&mut node, 2);
        assert_eq!(room.new_entries(&before[0]), ["0 call read x"]);
        soon(|| assert!(is_late(&node.wait(SHORT))));
        assert_eq!(lines(&room.log(1)), before[1]);
        room.disk_is(WRITES);
        assert_eq!(node.wait(TIME).expect("an answer"), Answer::Done);
        other.end();
        drop(node);
        room.is_in_order();
    }
}

#[test]
fn an_entry_behind_another_one_is_in_the_log_of_a_node_that_ends() {
    for sync in [true, false] {
        let room = Room::new(&format!("behind-end-{sync}"), "local-read", 2);
        let (node, other, before) = behind(&room, sync);
        let disk = room.disk_will_write(Duration::from_millis(100));
        drop(node);
        disk.join().expect("a disk");
        assert_eq!(room.new_entries(&before[0]), ["0 call read x", "0 call write x 2"]);
        other.end();
    }
}

/// The places of a chapter's turn at which a disk hangs, and which files there are by then.
fn places() -> [(&'static str, Acts, &'static [&'static str]); 5] {
    let mut has_begun = false;
    let begins_with = move |it| {
        has_begun |= it == Act::Begin;
        has_begun && matches!(it, Act::Write(_))
    };
    [
        ("that nothing more is called", Box::new(|it| it == Act::Quiet), &["0.log"]),
        ("the last log", Box::new(|it| it == Act::End), &["0.log", "0.log.quiet"]),
        ("the next file", Box::new(|it| it == Act::Create), &["0.log", "0.log.quiet"]),
        ("the next log", Box::new(|it| it == Act::Begin), &["0.log", "0.log.1", "0.log.quiet"]),
        ("what it begins with", Box::new(begins_with), &["0.log", "0.log.1", "0.log.quiet"]),
    ]
}

/// A node whose disk hangs there while a chapter turns, behind three calls.
fn turning(name: &str, place: (&str, Acts, &[&str]), sync: bool) -> (Room, Node<Linear>) {
    let mut room = Room::new(name, "linear", 1);
    room.config.most.operations = 3;
    let mut node = room.open_as::<Linear>(&room.options(sync));
    assert_eq!(node.perform(write(1), TIME).expect("an answer"), Answer::Done);
    assert_eq!(node.perform(write(2), TIME).expect("an answer"), Answer::Done);
    room.hang(place.1);
    assert_eq!(soon(|| node.perform(Op::Swap { register: 0, value: 3 }, TIME)).expect("an answer"), Answer::Value(2));
    room.serve_until_it_hangs(&mut node, 1);
    let mut files: Vec<_> =
        fs::read_dir(&room.path).expect("a folder").map(|it| it.expect("a file").file_name()).collect();
    files.sort();
    assert_eq!(files, place.2, "{}", place.0);
    (room, node)
}

#[test]
fn calls_are_paused_while_a_chapter_turns_and_the_disk_hangs() {
    for sync in [true, false] {
        for (at, place) in places().into_iter().enumerate() {
            let (room, mut node) = turning(&format!("turn-{at}-{sync}"), place, sync);
            soon(|| {
                assert!(is_paused(&node.perform(write(4), SHORT)));
                assert!(is_paused(&node.perform(READ, SHORT)));
                // (what a chapter begins with is nobody's operation)
                assert!(matches!(node.wait(SHORT), Err(Fault::Nothing)));
                assert!(!node.serve(Some(Instant::now() + Duration::from_millis(50))).expect("a node"));
            });
            assert_eq!((node.so_far(), node.status().operations), ((3, false), 3));
            room.disk_is(WRITES);
            assert_eq!(node.perform(Op::Swap { register: 0, value: 5 }, TIME).expect("an answer"), Answer::Value(3));
            assert_eq!(node.status().chapter, 1);
        }
    }
}

#[test]
fn a_full_disk_stops_a_node_whose_chapter_turns() {
    for (at, place) in places().into_iter().enumerate() {
        let (room, mut node) = turning(&format!("turn-full-{at}"), place, at % 2 == 0);
        room.disk_is(IS_FULL);
        let fault = node.perform(write(4), TIME);
        assert!(is_full(&fault), "{fault:?}");
        assert!(matches!(node.serve(None), Err(Fault::Stopped)));
        drop(node);
        room.disk_is(WRITES);
        let mut node = room.open_as::<Linear>(&Options { resume: true, ..room.options(false) });
        assert_eq!(node.perform(Op::Swap { register: 0, value: 5 }, TIME).expect("an answer"), Answer::Value(3));
        assert_eq!(node.so_far(), (4, false));
    }
}

#[test]
fn a_node_that_ends_while_its_chapter_turns_waits_for_the_disk() {
    for (at, place) in places().into_iter().enumerate() {
        let (room, node) = turning(&format!("turn-end-{at}"), place, at % 2 == 0);
        let (disk, begin) = (room.disk_will_write(Duration::from_millis(300)), Instant::now());
        drop(node);
        assert!(begin.elapsed() >= Duration::from_millis(250));
        disk.join().expect("a disk");
        let mut node = room.open_as::<Linear>(&Options { resume: true, ..room.options(false) });
        assert_eq!(node.perform(READ, TIME).expect("an answer"), Answer::Value(3));
        assert_eq!((node.so_far(), node.status().chapter), ((4, false), 1));
    }
}
