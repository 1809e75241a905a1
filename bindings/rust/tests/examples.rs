//! What the library tells of the examples and of random runs.
use std::fmt::Write;
use std::fs;
use tellwydar::*;

fn example(name: &str) -> Vec<u8> {
    fs::read(format!("{}/../../examples/{name}", env!("CARGO_MANIFEST_DIR"))).expect("an example")
}

#[test]
fn texts() {
    let told = replay(&example("stale-read.sched"));
    assert_eq!((told.status, told.line.len()), (0, 0));
    assert_eq!(check(&told.answer).answer, b"serial yes\n");
    assert_eq!(check(&example("stale-read.report")).answer, b"serial yes\n");
    assert_eq!(play(b"").line, b"missing front\n");
    assert_eq!(play_fair(b"").status, 1);
    assert_eq!(replay(b"").line, b"line 1: end\n");
    assert_eq!(verify(b"").line, b"line 1: end\n");
}

#[test]
fn chapters_in_a_row_are_one_story() {
    // (it writes 5 first, and ends with 5)
    let chapter = replay(&example("one-process.sched")).answer;
    let told = story(&[&chapter[..], &chapter].concat());
    assert_eq!((told.status, &told.answer[..], told.line.len()), (0, &b"one story of 2 chapters\n"[..], 0));
    let told = story(&[&chapter[..], &example("stale-read.report")].concat());
    assert_eq!((told.status, &told.answer[..]), (1, &b"report 1: another front end\n"[..]));
    assert_eq!(story(b"").line, b"line 1: end\n");
}

fn row(process: i32, call: Call, end: Option<End>) -> Row {
    Row { process: process.into(), key: "x".into(), call, end }
}

fn done(value: i32) -> Option<End> {
    Some(End::Done { value: value.into() })
}

#[test]
fn histories() {
    let write = Call::Write { value: 1.into() };
    let rows =
        [row(0, write.clone(), None), row(0, write, done(1)), row(1, Call::Read, None), row(1, Call::Read, done(1))];
    let judged = judge_rows(&rows).expect("a history");
    assert!(judged.is_linearizable && judged.text.starts_with("yes\nkey \"x\": linearizable\n"));
    let stale = [&rows[..3], &[row(1, Call::Read, done(0))]].concat();
    let judged = judge_rows(&stale).expect("a history");
    assert!(!judged.is_linearizable && judged.text.contains("\n  by line 4: process 1 read 0\n"));
    assert_eq!(judge_rows(&rows[1..]), Err("refused: line 1: the process has no call under way".to_owned()));
    let swap = Call::CompareAndSwap { expected: 0.into(), value: "a\"\\\n".into() };
    let unequal = [row(0, swap.clone(), None), row(0, swap.clone(), Some(End::Unequal))];
    assert_eq!(
        unequal[1].to_string(),
        r#"{"process": 0, "type": "fail", "f": "cas", "key": "x", "value": [0, "a\"\\\u000a"], "error": "unequal"}"#
    );
    assert!(!judge_rows(&unequal).expect("a history").is_linearizable);
    let failed = [row(0, swap.clone(), None), row(0, swap, Some(End::Failed))];
    assert!(judge_rows(&failed).expect("a history").is_linearizable);
    let edn = b"{:process 0, :type :invoke, :f :read, :value nil}\n{:process 0, :type :ok, :f :read, :value nil}\n";
    let report = judge_report(edn).expect("a history");
    assert_eq!(check(report.text.as_bytes()).answer, b"serial yes\npoints yes\n");
    let five = b"{\"process\": 0, \"type\": \"invoke\", \"f\": \"read\"}\n\
        {\"process\": 0, \"type\": \"ok\", \"f\": \"read\", \"value\": 5}\n";
    let first = |value: i32| Judging { first: Some(value.into()), report: false };
    assert!(!judge(five).expect("a history").is_linearizable);
    assert!(judge_with(five, &first(5)).expect("a history").is_linearizable);
    assert!(!judge_with(five, &first(6)).expect("a history").is_linearizable);
    assert!(
        judge_with(report.text.as_bytes(), &first(0))
            .is_err_and(|line| line.starts_with("refused: --first is for lines"))
    );
    assert_eq!(judge(b"{}\n"), Err("refused: line 1: wanted process, an integer or a string".to_owned()));
}

const WRITE: OpId = OpId { process: 0, number: 0 };
const READ: OpId = OpId { process: 1, number: 0 };

/// A write that is done, and after it a read of another process that saw nothing of it.
const STALE: [Entry; 4] = [
    Entry::Called { at: 0, id: WRITE, op: Op::Write { register: 0, value: 5 } },
    Entry::Answered { at: 4, id: WRITE, answer: Answer::Done },
    Entry::Called { at: 5, id: READ, op: Op::Read { register: 0 } },
    Entry::Answered { at: 5, id: READ, answer: Answer::Value(0) },
];

#[test]
fn verdicts() {
    let serial = |order: &[OpId]| check_serial(3, 1, &STALE, order);
    assert_eq!(serial(&[READ, WRITE]), Ok(()));
    assert_eq!(serial(&[WRITE, READ]), Err(Fault::Answer { place: 1 }));
    assert_eq!(serial(&[READ]), Err(Fault::Missing));
    assert_eq!(serial(&[READ, WRITE, WRITE]), Err(Fault::Twice));
    let points = |at: [u32; 2], ids: [OpId; 2]| {
        check_points(3, 1, &STALE, &[Point { id: ids[0], at: at[0] }, Point { id: ids[1], at: at[1] }])
    };
    assert_eq!(points([5, 4], [READ, WRITE]), Err(Fault::Falling { place: 1 }));
    assert_eq!(points([4, 4], [READ, WRITE]), Err(Fault::Outside { place: 0 }));
    assert_eq!(points([4, 5], [WRITE, READ]), Err(Fault::Answer { place: 1 }));
    assert_eq!(check_serial(1, 1, &STALE, &[]), Err(Fault::OutOfPlace { place: 2 }));
    assert_eq!(check_serial(65, 1, &[], &[]), Err(Fault::NoShape));
}

/// A compare-and-swap that is done, and one of another process that found another value.
fn compared(expected: u64) -> [Entry; 4] {
    [
        Entry::Called { at: 0, id: WRITE, op: Op::CompareAndSwap { register: 0, expected: 0, value: 5 } },
        Entry::Answered { at: 1, id: WRITE, answer: Answer::Done },
        Entry::Called { at: 2, id: READ, op: Op::CompareAndSwap { register: 0, expected, value: 6 } },
        Entry::Answered { at: 3, id: READ, answer: Answer::Unequal },
    ]
}

#[test]
fn comparisons_are_judged() {
    let points = [Point { id: WRITE, at: 0 }, Point { id: READ, at: 2 }];
    assert_eq!(check_serial(2, 1, &compared(0), &[WRITE, READ]), Ok(()));
    assert_eq!(check_points(2, 1, &compared(0), &points), Ok(()));
    assert_eq!(check_serial(2, 1, &compared(5), &[WRITE, READ]), Err(Fault::Answer { place: 1 }));
    assert_eq!(check_points(2, 1, &compared(5), &points), Err(Fault::Answer { place: 1 }));
    assert_eq!(check_serial(2, 1, &compared(0), &[READ, WRITE]), Err(Fault::Answer { place: 0 }));
}

#[test]
fn comparisons() -> Result<(), Refused> {
    let mut world = World::<LocalRead>::new(1, 1)?;
    let mut compare = |expected, value| {
        world.step(Event::Call { process: 0, op: Op::CompareAndSwap { register: 0, expected, value } })
    };
    assert_eq!(compare(0, 5)?, Some(Reply { answer: Answer::Done, place: 0 }));
    assert_eq!(compare(0, 6)?, Some(Reply { answer: Answer::Unequal, place: 1 }));
    assert_eq!(
        world.history()[2],
        Entry::Called {
            at: 1,
            id: OpId { process: 0, number: 1 },
            op: Op::CompareAndSwap { register: 0, expected: 0, value: 6 }
        }
    );
    let mut process = Process::<Linear>::new(2, 1, 0)?;
    assert_eq!(process.call(Op::CompareAndSwap { register: 0, expected: 0, value: 5 })?, None);
    assert_eq!(process.frames()?, [(1, COMPARED_CAST.to_vec())]);
    Ok(())
}

struct Words(u64);

impl Words {
    /// Marsaglia's xorshift of 64 bits.
    fn next(&mut self) -> u64 {
        self.0 ^= self.0 << 13;
        self.0 ^= self.0 >> 7;
        self.0 ^= self.0 << 17;
        self.0
    }

    fn below(&mut self, end: u64) -> u64 {
        self.next() % end
    }

    fn event(&mut self, processes: u8, seen: u64) -> Event {
        let process = self.below(u64::from(processes) + 1) as u8;
        let register = self.below(5) as u16;
        match self.below(13) {
            0 => Event::Call { process, op: Op::Read { register } },
            1 => Event::Call { process, op: Op::Write { register, value: self.next() } },
            2 => Event::Call { process, op: Op::Swap { register, value: self.next() } },
            3 => Event::Tick { process },
            4 => Event::Call {
                process,
                op: Op::CompareAndSwap { register, expected: self.below(2), value: self.below(2) },
            },
            _ => Event::Take {
                from: self.below(u64::from(processes)) as u8,
                to: process,
                number: self.below(seen / 4 + 2) as u32,
            },
        }
    }
}

fn op_text(op: Op) -> String {
    let name = |register: u16| ["a", "b", "c", "d"][usize::from(register)];
    match op {
        Op::Read { register } => format!("read {}", name(register)),
        Op::Write { register, value } => format!("write {} {value}", name(register)),
        Op::Swap { register, value } => format!("swap {} {value}", name(register)),
        Op::CompareAndSwap { register, expected, value } => format!("cas {} {expected} {value}", name(register)),
    }
}

fn schedule(front: &str, processes: u8, events: &[Event]) -> String {
    let mut text = format!("processes {processes}\nregisters a b c d\nfront {front}\n");
    for event in events {
        match *event {
            Event::Call { process, op } => writeln!(text, "call {process} {}", op_text(op)),
            Event::Take { from, to, number } => writeln!(text, "take {from} {to} {number}"),
            Event::Tick { process } => writeln!(text, "tick {process}"),
        }
        .expect("room");
    }
    text
}

/// The lines of a report after its names.
fn told(history: &[Entry], order: &[OpId], points: Option<&[Point]>) -> String {
    let mut text = format!("history {}\n", history.len());
    for entry in history {
        let (at, id, what) = match *entry {
            Entry::Called { at, id, op } => (at, id, format!("call    {}", op_text(op))),
            Entry::Answered { at, id, answer: Answer::Done } => (at, id, "answer  done".to_string()),
            Entry::Answered { at, id, answer: Answer::Value(value) } => (at, id, format!("answer  value {value}")),
            Entry::Answered { at, id, answer: Answer::Unequal } => (at, id, "answer  unequal".to_string()),
        };
        writeln!(text, "{at:>8}  p{:<3}  #{:<6}  {what}", id.process, id.number).expect("room");
    }
    writeln!(text, "order {}", order.len()).expect("room");
    for id in order {
        writeln!(text, "p{} #{}", id.process, id.number).expect("room");
    }
    if let Some(points) = points {
        writeln!(text, "points {}", points.len()).expect("room");
        for point in points {
            writeln!(text, "p{} #{} at {}", point.id.process, point.id.number, point.at).expect("room");
        }
    }
    text + "end\n"
}

/// Random events, refused ones among them: those that were accepted, with the world.
fn run<F: Front>(processes: u8, seed: u64) -> (World<F>, Vec<Event>) {
    let mut world = World::<F>::new(processes.into(), 4).expect("a world");
    let (mut words, mut events) = (Words(seed), Vec::new());
    for _ in 0..400 {
        let event = words.event(processes, events.len() as u64);
        let before = world.events();
        match world.step(event) {
            Ok(_) => events.push(event),
            Err(refused) => assert_ne!(refused, Refused::Failed),
        }
        assert_eq!(world.events() as usize, events.len());
        assert!(world.events() - before <= 1);
    }
    (world, events)
}

/// What a world tells of itself is the report of a replay of the events that it accepted.
fn agree<F: Front>(front: &str, points: impl Fn(&mut World<F>) -> Option<Vec<Point>>) {
    for seed in 1..=112 {
        for processes in [1, 2, 3] {
            let (mut world, events) = run::<F>(processes, 0x9E37_79B9_7F4A_7C15_u64.wrapping_mul(seed));
            let report = replay(schedule(front, processes, &events).as_bytes());
            assert_eq!((report.status, report.line.len()), (0, 0));
            let (history, order, points) = (world.history(), world.serial_order().expect("memory"), points(&mut world));
            let text = String::from_utf8(report.answer).expect("text");
            let lines = &text[text.find("history ").expect("a history")..];
            assert_eq!(lines, told(&history, &order, points.as_deref()));
            assert_eq!(check_serial(processes.into(), 4, &history, &order), Ok(()));
            if let Some(points) = points {
                assert_eq!(check_points(processes.into(), 4, &history, &points), Ok(()));
            }
        }
    }
}

#[test]
fn random_runs_are_those_of_replays() {
    agree::<Linear>("linear", |world| Some(world.points().expect("memory")));
    agree::<LocalRead>("local-read", |_| None);
    agree::<LocalWrite>("local-write", |_| None);
}

#[test]
fn refusals() {
    assert_eq!(World::<Linear>::new(0, 1).err(), Some(Refused::NoShape));
    let mut world = World::<LocalWrite>::new(1, 1).expect("a world");
    assert_eq!(world.step(Event::Call { process: 0, op: Op::Read { register: 1 } }), Err(Refused::NoRegister));
    assert_eq!(world.step(Event::Tick { process: 1 }), Err(Refused::NoProcess));
    assert_eq!(world.step(Event::Take { from: 0, to: 0, number: 0 }), Err(Refused::NoFrame));
    assert_eq!(world.events(), 0);
}

/// The cast of a compare-and-swap from 0 to 5, as worked by hand.
const COMPARED_CAST: [u8; 40] = [
    0, 0x26, 4, 1, 0, 0, 0, 0, 0, 0, 0, 0, 1, 0, 0, 0, 0, 0, 0, 0, 1, 4, 0, 0, 0, 0, 0, 0, 0, 0, 0, 0, 0, 0, 0, 0, 0,
    0, 0, 5,
];

/// A write of the value 5 by the first of two processes: its cast, and what the other one answers, as worked by hand.
const CAST: [u8; 32] =
    [0, 0x1e, 1, 1, 0, 0, 0, 0, 0, 0, 0, 0, 1, 0, 0, 0, 0, 0, 0, 0, 1, 2, 0, 0, 0, 0, 0, 0, 0, 0, 0, 5];
const GOT: [u8; 12] = [0, 0x0a, 1, 2, 0, 0, 0, 0, 0, 0, 0, 1];
const ACK: [u8; 21] = [0, 0x13, 1, 1, 0, 0, 0, 0, 0, 0, 0, 0, 2, 0, 0, 0, 0, 0, 0, 0, 2];

#[test]
fn processes() -> Result<(), Refused> {
    assert_eq!(Process::<Linear>::new(2, 1, 2).err(), Some(Refused::NoProcess));
    assert_eq!(Process::<Linear>::new(65, 1, 0).err(), Some(Refused::NoShape));
    let (mut writer, mut other) = (Process::<Linear>::new(2, 1, 0)?, Process::<Linear>::new(2, 1, 1)?);
    assert_eq!(writer.frames()?, []);
    assert_eq!(writer.call(Op::Write { register: 0, value: 5 })?, None);
    assert_eq!(writer.frames()?, [(1, CAST.to_vec())]);
    assert_eq!(
        (writer.busy(), writer.pending(), writer.known(1)),
        (true, 1, Known { first: 0, next: 1, expected: 0, seen: 0 })
    );
    assert_eq!(writer.take(1, &ACK[..20]), Err(Refused::NotAFrame));
    assert_eq!(writer.frames()?, [(1, CAST.to_vec())]);
    assert_eq!(writer.call(Op::Read { register: 0 }), Err(Refused::Busy));
    assert_eq!(writer.frames()?, []);
    writer.tick()?;
    assert_eq!(writer.frames()?, [(1, CAST.to_vec())]);
    assert_eq!(other.take(0, &CAST)?, None);
    assert_eq!(other.frames()?, [(0, GOT.to_vec()), (0, ACK.to_vec())]);
    assert_eq!((other.register(0), other.clock(), other.delivered()), (5, 2, 1));
    assert_eq!(writer.take(1, &GOT)?, None);
    assert_eq!(writer.take(1, &ACK)?, Some(Reply { answer: Answer::Done, place: 0 }));
    assert_eq!(writer.frames()?, [(1, GOT.to_vec())]);
    assert_eq!((writer.busy(), writer.pending(), writer.clock(), writer.unsettled()), (false, 0, 3, 0));
    Ok(())
}
