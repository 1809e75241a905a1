use awreg_plain::check::{check_serial, CheckFault};
use awreg_plain::report::{read_report, write_report};
use awreg_plain::schedule::parse_schedule;
use awreg_plain::text::{op_form, Why};
use awreg_plain::world::World;
use awreg_plain::{base::*, frames::*, live::*, play::SeedWords, process::*};

#[test]
fn pcg() {
    let mut w = SeedWords::new(0);
    let low = w.word() as u64;
    assert_eq!(low | (w.word() as u64) << 32, 18195738587432868099);
}

fn hex(s: &str) -> Vec<u8> {
    let s: String = s.chars().filter(|c| *c != ' ').collect();
    (0..s.len() / 2).map(|i| u8::from_str_radix(&s[2 * i..2 * i + 2], 16).unwrap()).collect()
}

#[test]
fn frames_have_one_spelling() {
    let w = hex("001e 01 01 0000000000000000 01 0000000000000001 02 0000 0000000000000005");
    let g = hex("000a 01 02 0000000000000001");
    let a = hex("0013 01 01 0000000000000000 02 0000000000000002");
    let s = hex("001e 02 01 0000000000000000 01 0000000000000001 03 0000 0000000000000005");
    let c = hex("0026 04 01 0000000000000000 01 0000000000000001 04 0000 0000000000000005 0000000000000006");
    let cast = |op| Frame::Numbered { number: 0, body: Body::Cast { time: 1, op } };
    for (b, f) in [
        (&w, cast(Op::Write { register: 0, value: 5 })),
        (&s, cast(Op::Swap { register: 0, value: 5 })),
        (&c, cast(Op::CompareAndSwap { register: 0, expected: 5, value: 6 })),
        (&g, Frame::Got { count: 1 }),
        (&a, Frame::Numbered { number: 0, body: Body::Ack { time: 2 } }),
    ] {
        assert_eq!(encode(&f).as_ref(), Ok(b));
        assert_eq!(decode(b), Ok(f));
    }
    assert_eq!(encode(&Frame::Numbered { number: 0, body: Body::Ack { time: 0 } }), Err(FrameFault::Range));
    assert_eq!(decode(&[]), Err(FrameFault::Short));
    assert_eq!(decode(&w[..11]), Err(FrameFault::Short));
    let changed = |b: &[u8], at: usize, v: u8| {
        let mut b = b.to_vec();
        b[at] = v;
        decode(&b)
    };
    let with = |at, v| changed(&w, at, v);
    assert_eq!(with(1, 0x1d), Err(FrameFault::Length));
    for b in [&w, &s, &c, &g, &a] {
        assert_eq!(changed(b, 2, 3), Err(FrameFault::Version));
    }
    for version in [2, 4] {
        assert_eq!(changed(&g, 2, version), Err(FrameFault::Kind));
        assert_eq!(changed(&a, 2, version), Err(FrameFault::Body));
        assert_eq!(with(2, version), Err(FrameFault::Op));
    }
    for (b, version) in [(&s, 1), (&s, 4), (&c, 1), (&c, 2)] {
        assert_eq!(changed(b, 2, version), Err(FrameFault::Op));
    }
    assert_eq!(changed(&c[..39], 1, 0x25), Err(FrameFault::Size));
    assert_eq!(with(3, 3), Err(FrameFault::Kind));
    assert_eq!(with(12, 3), Err(FrameFault::Body));
    assert_eq!(with(21, 3), Err(FrameFault::Op));
    assert_eq!(decode(&hex("000a 01 01 0000000000000000")), Err(FrameFault::Size));
    assert_eq!(decode(&hex("0017 01 01 0000000000000000 01 0000000000000001 01 0000 00")), Err(FrameFault::Size));
    assert_eq!(with(20, 0), Err(FrameFault::Range));
    assert_eq!(with(22, 0x10), Err(FrameFault::Range));
    assert_eq!(with(5, 1), Err(FrameFault::Range));
    assert_eq!(decode(&hex("000a 01 02 0001000000000000")), Ok(Frame::Got { count: 1 << 48 }));
}

#[test]
fn a_register_answers() {
    let mut registers = [7, 0];
    let mut on = |op| {
        let answer = apply(&mut registers, &op);
        (answer, registers)
    };
    assert_eq!(on(Op::Read { register: 0 }), (Answer::Value(7), [7, 0]));
    assert_eq!(on(Op::Write { register: 1, value: 3 }), (Answer::Done, [7, 3]));
    assert_eq!(on(Op::Swap { register: 0, value: 5 }), (Answer::Value(7), [5, 3]));
    assert_eq!(on(Op::CompareAndSwap { register: 0, expected: 7, value: 9 }), (Answer::Unequal, [5, 3]));
    assert_eq!(on(Op::CompareAndSwap { register: 0, expected: 5, value: 9 }), (Answer::Done, [9, 3]));
}

#[test]
fn front_ends_start_operations() {
    let read = Op::Read { register: 0 };
    let write = Op::Write { register: 0, value: 1 };
    let swap = Op::Swap { register: 0, value: 1 };
    let cas = Op::CompareAndSwap { register: 0, expected: 0, value: 1 };
    for (front, write_start, read_starts) in [
        (Front::Linear, Start::Cast, [Start::Cast, Start::Cast]),
        (Front::LocalRead, Start::Cast, [Start::Look, Start::Hold]),
        (Front::LocalWrite, Start::CastAndAnswer, [Start::Look, Start::Hold]),
    ] {
        for unsettled in [0, 1] {
            assert_eq!(front.start(&read, unsettled), read_starts[unsettled as usize]);
            assert_eq!(front.start(&write, unsettled), write_start);
            assert_eq!(front.start(&swap, unsettled), Start::Cast);
            assert_eq!(front.start(&cas, unsettled), Start::Cast);
        }
    }
}

#[test]
fn an_operation_has_one_spelling() {
    let names = Names::new(vec!["x".into()]).unwrap();
    let read = |text: &str| op_form(text.as_bytes()).and_then(|form| form.op(&names));
    assert_eq!(read("swap x 5"), Ok(Op::Swap { register: 0, value: 5 }));
    assert_eq!(read("cas x 5 6"), Ok(Op::CompareAndSwap { register: 0, expected: 5, value: 6 }));
    for text in ["swap x", "swap x 5 6", "swap x 05", "cas x", "cas x 5", "cas x 5 ", "cas x  5 6", "cas x 5 6 7"] {
        assert_eq!(read(text), Err(Why::Form), "{text}");
    }
    assert_eq!(read("cas y 18446744073709551616 6"), Err(Why::Name));
    assert_eq!(read("cas x 18446744073709551616 6"), Err(Why::Range));
    assert_eq!(read("cas x 5 18446744073709551616"), Err(Why::Range));
}

fn report_of(schedule: &str) -> String {
    let schedule = parse_schedule(schedule).unwrap();
    let world = World::run(schedule.front, schedule.shape, &schedule.events).unwrap();
    let mut text = Vec::new();
    write_report(&mut text, &world, &schedule.names).unwrap();
    String::from_utf8(text).unwrap()
}

const TWO_COMPARE: &str = "awreg report 3
front local-write
processes 2
registers 1
x
history 4
       0  p0    #0       call    cas x 0 5
       3  p0    #0       answer  done
       4  p1    #0       call    cas x 0 7
       6  p1    #0       answer  unequal
order 2
p0 #0
p1 #0
end
";

#[test]
fn a_compare_and_swap_runs_until_its_delivery() {
    let events = "call 0 cas x 0 5\ntake 0 1 0\ntake 1 0 0\ntake 1 0 1\ncall 1 cas x 0 7\ntake 1 0 2\ntake 0 1 3\n";
    assert_eq!(report_of(&format!("processes 2\nregisters x\nfront local-write\n{events}")), TWO_COMPARE);
}

#[test]
fn reports_with_compare_and_swaps_are_of_version_3() {
    let told = |call: &str| report_of(&format!("processes 2\nregisters x\nfront linear\ncall 0 {call}\n"));
    assert!(told("swap x 1").starts_with("awreg report 2\n"));
    assert!(told("cas x 0 1").starts_with("awreg report 3\n"));
    let judged = |text: &str| read_report(text).map(|report| check_serial(&report)).map_err(|f| (f.line, f.why));
    assert_eq!(judged(TWO_COMPARE), Ok(Ok(())));
    assert_eq!(judged(&TWO_COMPARE.replace("cas x 0 7", "cas x 5 7")), Ok(Err(CheckFault::Answer(1))));
    assert_eq!(judged(&TWO_COMPARE.replace("p0 #0\np1 #0\n", "p1 #0\np0 #0\n")), Ok(Err(CheckFault::Answer(0))));
    assert_eq!(judged(&TWO_COMPARE.replace("unequal", "value 5")), Err((10, Why::Place)));
    let older = TWO_COMPARE.replace("report 3", "report 2");
    assert_eq!(judged(&older), Err((7, Why::Form)));
    let older = older.replace("cas x 0", "write x");
    assert_eq!(judged(&older), Err((10, Why::Form)));
    assert_eq!(judged(&older.replace("unequal", "done")), Ok(Ok(())));
}

struct Puts(Vec<(usize, Frame)>);
impl Sink for Puts {
    fn cast(&mut self, _: Stamp) {}
    fn got(&mut self, to: usize, count: u64) {
        self.0.push((to, Frame::Got { count }));
    }
    fn data(&mut self, to: usize, number: u64, body: &Body) {
        self.0.push((to, Frame::Numbered { number, body: *body }));
    }
    fn delivered(&mut self, _: u64, _: Stamp, _: &Op) {}
}

#[test]
fn a_process_meets_its_limits() {
    let shape = Shape { processes: 2, registers: 1 };
    let fresh = || Process::new(Front::LocalRead, shape, 1);
    let write = Op::Write { register: 0, value: 1 };
    let read = Op::Read { register: 0 };
    let num = |number, body| Frame::Numbered { number, body };
    let mut s = Puts(vec![]);
    let mut p = fresh();
    assert_eq!(p.take(0, &Frame::Got { count: 1 }, &mut s), Err(Fault::Ahead));
    assert_eq!(p.take(0, &num(0, Body::Cast { time: MAX_TIME, op: write }), &mut s), Err(Fault::ClockFull));
    assert_eq!(p.call(read, &mut s), Err(Fault::Failed));
    let mut p = fresh();
    assert!(p.take(0, &num(0, Body::Cast { time: MAX_TIME - 1, op: write }), &mut s).is_ok());
    assert_eq!(s.0, vec![(0, Frame::Got { count: 1 }), (0, num(0, Body::Ack { time: MAX_TIME }))]);
    assert!(p.call(read, &mut s).unwrap().is_some());
    assert_eq!(p.call(write, &mut s), Err(Fault::ClockFull));
    let mut p = fresh();
    assert_eq!(
        p.take(0, &num(0, Body::Cast { time: 1, op: Op::Read { register: 1 } }), &mut s),
        Err(Fault::NoRegister)
    );
    assert!(p.take(0, &num(0, Body::Ack { time: 5 }), &mut s).is_ok());
    assert_eq!(p.take(0, &num(1, Body::Ack { time: 5 }), &mut s), Err(Fault::Stale));
    assert_eq!(p.take(1, &num(1, Body::Ack { time: 6 }), &mut s), Err(Fault::NoProcess));
    assert_eq!(p.take(2, &num(1, Body::Ack { time: 6 }), &mut s), Err(Fault::NoProcess));
}

#[test]
fn a_record_is_a_run() {
    let shape = Shape { processes: 1, registers: 1 };
    let op = Op::Write { register: 0, value: 5 };
    let reply = Some(Reply { answer: Answer::Done, place: 0, from_copy: false });
    let logs = [vec![LogEntry { step: Step::Call { op }, reply }]];
    let id = OpId { process: 0, number: 0 };
    let receipts = [vec![Receipt { id, op, answer: Answer::Done, called: 0, answered: 0 }]];
    let v = |order: &[u8], receipts: &[Vec<Receipt>]| {
        verify(Front::Linear, shape, order, &logs, receipts).map(|_| ()).err()
    };
    assert_eq!(v(&[0], &receipts), None);
    assert_eq!(v(&[0], &[vec![]]), Some(CloseFault::Mismatch(0)));
    assert_eq!(v(&[0, 0], &receipts), Some(CloseFault::Unfaithful(1)));
    assert_eq!(v(&[], &receipts), Some(CloseFault::Unfaithful(0)));
    assert_eq!(v(&[1], &receipts), Some(CloseFault::Unfaithful(0)));
}

/// The seeded player, with the list of choices made anew each turn.
fn naive(w: &awreg_plain::workload::Workload) -> (awreg_plain::world::World, u32) {
    use awreg_plain::world::*;
    let n = w.shape.processes;
    let mut world = World::new(w.front, w.shape);
    let mut words = SeedWords::new(w.seed);
    let (mut next, mut cursor) = (vec![0; n], vec![0u32; n * n]);
    for _ in 0..w.budget {
        let mut list = vec![];
        for (p, script) in w.scripts.iter().enumerate() {
            if !world.process(p).busy() && next[p] < script.len() {
                list.push(Event::Call { process: p as u8, op: script[next[p]] });
            }
        }
        for f in 0..n {
            for t in 0..n {
                if f != t && (cursor[f * n + t] as usize) < world.wire_len(f, t) {
                    list.push(Event::Take { from: f as u8, to: t as u8, number: cursor[f * n + t] });
                }
            }
        }
        for p in 0..n {
            if world.process(p).has_pending() {
                list.push(Event::Tick { process: p as u8 });
            }
        }
        if list.is_empty() {
            break;
        }
        let e = list[words.word() as usize % list.len()];
        match e {
            Event::Call { process, .. } => next[process as usize] += 1,
            Event::Take { from, to, .. } => {
                let c = &mut cursor[from as usize * n + to as usize];
                if words.word() % 100 < w.loss {
                    *c += 1;
                    continue;
                }
                if words.word() % 100 >= w.repeat {
                    *c += 1;
                }
            }
            Event::Tick { .. } => {}
        }
        world.step(&e).unwrap();
    }
    let events = world.events();
    (world, events)
}

#[test]
fn seeded_play() {
    use awreg_plain::{play::play_seeded, workload::Workload};
    for seed in 0..40 {
        let front = ["linear", "local-read", "local-write"][seed % 3];
        let n = 1 + seed % 5;
        let script =
            "['write x 1', 'read y', 'swap y 3', 'read x', 'cas x 1 4', 'read x', 'write x 9', 'cas y 3 2', 'read y'],";
        let text = format!(
            "front = '{front}' # front\nregisters = ['x', \"y\"]\nseed = {seed}\nloss = {}\nrepeat = 2_0\n\
             budget = {}\nscripts = [\n{}]\n",
            seed % 40,
            [500, 5000][seed % 2],
            script.repeat(n)
        );
        let w = Workload::from_toml(&text).ok().unwrap();
        let a = play_seeded(&w, SeedWords::new(w.seed));
        let (b, events) = naive(&w);
        assert_eq!(a.world.history(), b.history());
        assert_eq!(a.world.events(), events);
        assert_eq!(a.world.witness(), b.witness());
    }
}
