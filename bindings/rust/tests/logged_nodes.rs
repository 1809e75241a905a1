//! Nodes, by logs and frames that were worked by hand.
use tellwydar::*;

/// The log of a writer, as docs/FORMATS.md has it: its head, the call, and the takes of `GOT` and `ACK`.
const HEAD: &str = "e009c6ff tellwydar log 1\n69771c8e cluster 7\nded1c05f process 0\n91ba8d59 chapter 0\n\
    b56a2825 begun 12\n2f99698f tellwydar record 1\n95118964 front linear\nc2025397 processes 2\n\
    dc21685e registers x\n";
const CALLED: &str = "fbc16c9f 0 call write x 5\n";
const GOT_TAKEN: &str = "92e249cb 0 take 1 000a01020000000000000001\n";
const ACK_TAKEN: &str = "b9d266ce 0 take 1 001301010000000000000000020000000000000002 = done 0\n";

/// A write of the value 5 by the first of two processes: its cast, and what the other one answers.
const CAST: [u8; 32] =
    [0, 0x1e, 1, 1, 0, 0, 0, 0, 0, 0, 0, 0, 1, 0, 0, 0, 0, 0, 0, 0, 1, 2, 0, 0, 0, 0, 0, 0, 0, 0, 0, 5];
const GOT: [u8; 12] = [0, 0x0a, 1, 2, 0, 0, 0, 0, 0, 0, 0, 1];
const ACK: [u8; 21] = [0, 0x13, 1, 1, 0, 0, 0, 0, 0, 0, 0, 0, 2, 0, 0, 0, 0, 0, 0, 0, 2];
const WRITE: Op = Op::Write { register: 0, value: 5 };
const DONE: Option<Reply> = Some(Reply { answer: Answer::Done, place: 0 });

fn head(process: u8) -> LogHead {
    let (front, names) = (FrontEnd::Linear, vec!["x".to_string()]);
    LogHead { cluster: 7, chapter: 0, begun: 12, front, processes: 2, process, names }
}

fn text(bytes: &[u8]) -> &str {
    std::str::from_utf8(bytes).expect("a text")
}

type Handed = (Vec<(u8, Vec<u8>)>, Option<Reply>);

/// What a node hands out next: frames with their receivers, and a reply.
fn handed(node: &mut LoggedNode) -> Option<Handed> {
    let output = node.hand_out().expect("memory")?;
    Some((output.frames.map(|(to, frame)| (to, frame.to_vec())).collect(), output.reply))
}

/// The writer's node with its log, after each of its three steps.
fn written() -> Result<(LoggedNode, String), Refused> {
    let log = LoggedNode::begin(&head(0))?;
    let (mut node, mut log) = (LoggedNode::open(&log, 0).expect("a log"), text(&log).to_string());
    node.hear(1, 0)?;
    log.push_str(text(node.call(WRITE)?));
    log.push_str(text(node.take(1, &GOT)?));
    log.push_str(text(node.take(1, &ACK)?));
    Ok((node, log))
}

#[test]
fn a_head_is_told_whatever_stands_behind_it() {
    for behind in ["", CALLED, "e7", "\0\0"] {
        assert_eq!(LoggedNode::head(&[HEAD, behind].concat().into_bytes()), Ok(Some(head(0))), "{behind}");
    }
    // (more names than a short head has bytes)
    let names =
        (b'a'..=b'z').flat_map(|it| ["x", "y"].map(|end| format!("{}{end}", (it as char).to_string().repeat(15))));
    let names = names.collect();
    let long_one = LogHead { chapter: 5, front: FrontEnd::LocalWrite, processes: 64, process: 63, names, ..head(0) };
    let log = LoggedNode::begin(&long_one).expect("a log");
    assert_eq!(LoggedNode::head(&log), Ok(Some(long_one)));
    for length in 0..HEAD.len() {
        assert_eq!(LoggedNode::head(&HEAD.as_bytes()[..length]), Ok(None), "{length}");
    }
}

#[test]
fn the_first_entries_stand_behind_the_head() -> Result<(), Refused> {
    let (_, log) = written()?;
    assert_eq!(text(first_entries(log.as_bytes(), 0)), HEAD);
    assert_eq!(text(first_entries(log.as_bytes(), 1)), [HEAD, CALLED].concat());
    assert_eq!(text(first_entries(log.as_bytes(), 3)), log);
    Ok(())
}

#[test]
fn a_log_whose_head_is_not_whole_never_began() {
    let told = |text: &[u8], process| LoggedNode::is_headless(text, &head(process));
    for length in 0..HEAD.len() {
        let (part, zeros) = (&HEAD.as_bytes()[..length], [0; 20]);
        assert_eq!(told(part, 0), Ok(true), "{length}");
        assert_eq!(told(&[part, &zeros[..]].concat(), 0), Ok(true), "{length}");
        // (the first 44 bytes say nothing of a process, but for its seal)
        assert_eq!(told(part, 1), Ok(length <= 44), "{length}");
    }
    assert_eq!(told(HEAD.as_bytes(), 0), Ok(false));
    assert_eq!(told(&[HEAD, CALLED].concat().into_bytes(), 0), Ok(false));
}

#[test]
fn a_log_begins_with_its_head() {
    assert_eq!(LoggedNode::begin(&head(0)).as_deref(), Ok(HEAD.as_bytes()));
    let begun = |change: &dyn Fn(&mut LogHead)| {
        let mut head = head(0);
        change(&mut head);
        LoggedNode::begin(&head).expect_err("no head")
    };
    assert_eq!(begun(&|it| it.processes = 65), Refused::NoShape);
    assert_eq!(begun(&|it| it.process = 2), Refused::NoProcess);
    for names in [&[][..], &[""], &["X"], &["x", "x"], &["x y"], &["x\nx"]] {
        assert_eq!(begun(&|it| it.names = names.iter().map(|it| it.to_string()).collect()), Refused::BadNames);
    }
    let names: Vec<String> = (0..4096).map(|at| format!("{:a>16}", text(&letters(at)))).collect();
    let log = LoggedNode::begin(&LogHead { names, cluster: u64::MAX, chapter: u64::MAX, begun: u64::MAX, ..head(0) });
    assert!(LoggedNode::open(&log.expect("a head"), 0).is_ok());
}

/// A number as three letters.
fn letters(number: u32) -> [u8; 3] {
    [676, 26, 1].map(|it| b'a' + (number / it % 26) as u8)
}

#[test]
fn what_goes_out_waits_for_the_log() -> Result<(), Refused> {
    let mut node = LoggedNode::open(HEAD.as_bytes(), 0).expect("a log");
    assert_eq!((node.whole(), node.has_heard_all()), (HEAD.len(), false));
    assert_eq!(node.call(WRITE), Err(Refused::Unheard));
    assert_eq!(node.hear(0, 0), Err(Refused::NoProcess));
    node.hear(1, 0)?;
    assert!(node.has_heard_all());
    assert_eq!(node.call(Op::Read { register: 1 }), Err(Refused::NoRegister));
    assert_eq!(text(node.call(WRITE)?), CALLED);
    assert_eq!((node.busy(), node.pending(), node.logged(), node.durable()), (true, 1, 1, 0));
    assert_eq!(handed(&mut node), None);
    assert_eq!(node.mark_durable(2), Err(Refused::NotLogged));
    node.mark_durable(1)?;
    assert_eq!(handed(&mut node), Some((vec![(1, CAST.to_vec())], None)));
    assert_eq!(handed(&mut node), None);
    assert_eq!(node.call(WRITE), Err(Refused::Busy));
    assert_eq!(node.take(1, &ACK[..20]), Err(Refused::NotAFrame));
    assert_eq!(text(node.take(1, &GOT)?), GOT_TAKEN);
    assert_eq!(text(node.take(1, &ACK)?), ACK_TAKEN);
    assert_eq!(handed(&mut node), None);
    node.mark_durable(3)?;
    assert_eq!(handed(&mut node), Some((vec![], None)));
    assert_eq!(handed(&mut node), Some((vec![(1, GOT.to_vec())], DONE)));
    assert_eq!((node.busy(), node.pending(), node.delivered(), node.register(0)), (false, 0, 1, 5));
    assert_eq!(node.known(1), Known { first: 1, next: 1, expected: 1, seen: 2 });
    Ok(())
}

/// Of so many looks at process 1, those at which it is to be greeted, and those at which the node is to tick.
fn looked(node: &mut LoggedNode, looks: u32) -> (Vec<u32>, Vec<u32>) {
    let (mut greets, mut ticks) = (vec![], vec![]);
    for at in 1..=looks {
        let look = node.watch(1);
        greets.extend(look.greets.then_some(at));
        ticks.extend(look.ticks.then_some(at));
    }
    (greets, ticks)
}

#[test]
fn pauses_grow() -> Result<(), Refused> {
    let mut node = LoggedNode::open(HEAD.as_bytes(), 0).expect("a log");
    assert_eq!(looked(&mut node, 500), (vec![1, 3, 7, 15, 31, 63, 127, 227, 327, 427], vec![]));
    assert_eq!((node.has_heard(1), node.is_long_silent(1)), (false, true));
    node.hear(1, 0)?;
    assert_eq!(looked(&mut node, 500), (vec![], vec![]));
    assert_eq!((node.has_heard(1), node.is_long_silent(1)), (true, false));
    let of_a_frame = (vec![128, 228, 328, 428], vec![2, 4, 8, 16, 32, 64]);
    node.call(WRITE)?;
    assert_eq!(looked(&mut node, 500), of_a_frame);
    // The first frame is acknowledged, and another one waits.
    node.take(1, &GOT)?;
    node.take(1, &ACK)?;
    node.call(WRITE)?;
    assert_eq!(looked(&mut node, 500), of_a_frame);
    Ok(())
}

#[test]
fn who_was_silent_for_long_is_looked_at_anew_once_something_came() -> Result<(), Refused> {
    let mut node = LoggedNode::open(HEAD.as_bytes(), 0).expect("a log");
    node.hear(1, 0)?;
    node.call(WRITE)?;
    assert_eq!(looked(&mut node, 500).0, [128, 228, 328, 428]);
    assert!(!node.came(1));
    assert_eq!(looked(&mut node, 126), (vec![], vec![1, 3, 7, 15, 31, 63]));
    assert!(!node.came(1)); // (it isn't silent for long yet)
    assert_eq!(looked(&mut node, 1), (vec![1], vec![]));
    node.take(1, &GOT)?;
    assert_eq!(looked(&mut node, 500), (vec![], vec![]));
    Ok(())
}

#[test]
fn what_was_dropped_behind_a_lost_frame_is_put_again_as_it_is_acknowledged() -> Result<(), Refused> {
    let log = LoggedNode::begin(&LogHead { front: FrontEnd::LocalWrite, ..head(0) })?;
    let mut node = LoggedNode::open(&log, 0).expect("a log");
    node.hear(1, 0)?;
    for _ in 0..20 {
        node.call(WRITE)?;
    }
    assert_eq!(looked(&mut node, 2), (vec![], vec![2]));
    let put_again = [0, 0x0a, 1, 2, 0, 0, 0, 0, 0, 0, 0, 16];
    assert!(!node.came(1));
    node.take(1, &put_again)?;
    assert!(node.came(1));
    assert!(!node.came(1));
    Ok(())
}

#[test]
fn the_other_process_reads_the_value() -> Result<(), Refused> {
    let mut node = LoggedNode::open(&LoggedNode::begin(&head(1))?, 0).expect("a log");
    node.take(0, &CAST)?;
    node.mark_durable(1)?;
    assert_eq!(handed(&mut node), Some((vec![(0, GOT.to_vec()), (0, ACK.to_vec())], None)));
    assert_eq!((node.known(0).expected, node.register(0)), (1, 5));
    node.hear(0, 1)?;
    assert!(
        text(node.call(Op::CompareAndSwap { register: 0, expected: 5, value: 6 })?).ends_with(" 1 call cas x 5 6\n")
    );
    assert!(text(node.tick()?).ends_with(" 1 tick\n"));
    Ok(())
}

#[test]
fn a_node_goes_on_after_what_a_crash_left() -> Result<(), Refused> {
    let (_, log) = written()?;
    assert_eq!(log, [HEAD, CALLED, GOT_TAKEN, ACK_TAKEN].concat());
    let torn = &log.as_bytes()[..log.len() - 5];
    assert_eq!(LoggedNode::open(torn, 3).err(), Some(LogFault::Damaged { entry: 2 }));
    for rest in [&torn[log.len() - ACK_TAKEN.len()..], &[0; 100]] {
        let text = [&log.as_bytes()[..log.len() - ACK_TAKEN.len()], rest].concat();
        let mut node = LoggedNode::open(&text, 2).expect("a log");
        assert_eq!((node.whole(), node.logged()), (log.len() - ACK_TAKEN.len(), 2));
        assert_eq!((node.busy(), node.has_heard_all(), handed(&mut node)), (true, false, None));
        node.take(1, &ACK)?;
        node.mark_durable(3)?;
        assert_eq!(handed(&mut node), Some((vec![(1, GOT.to_vec())], DONE)));
    }
    Ok(())
}

#[test]
fn a_node_whose_log_was_lost_stops() -> Result<(), Refused> {
    let (mut node, _) = written()?;
    node.hear(1, 1)?;
    assert_eq!(node.hear(1, 2), Err(Refused::LogLost));
    assert!(node.is_stopped());
    assert_eq!(node.tick(), Err(Refused::LogLost));
    node.mark_durable(3)?;
    assert_eq!(handed(&mut node), None);
    Ok(())
}

#[test]
fn other_texts_are_no_logs() {
    let opened = |lines: &str| LoggedNode::open(format!("{HEAD}{lines}").as_bytes(), 0).err();
    let twice = opened("37eef420 0 call read x\nbee94b51 0 call read x\n");
    assert_eq!(twice, Some(LogFault::NotAStep { entry: 1 }));
    assert_eq!(opened("ea782da5 1 call read x\n"), Some(LogFault::Foreign { entry: 0 }));
    assert_eq!(LoggedNode::open(b"", 0).err(), Some(LogFault::NotALog { line: 1 }));
    assert_eq!(LogFault::NotALog { line: 1 }.to_string(), "line 1: not a log");
    assert_eq!(LogFault::Foreign { entry: 0 }.to_string(), "entry 0: of another process");
}

#[test]
fn steps_are_put_into_an_order() {
    let head = "tellwydar record 1\nfront linear\nprocesses 2\nregisters x\n";
    let call = "0 call write x 5\n";
    let take = "1 take 0 001e010100000000000000000100000000000000010200000000000000000005\n";
    let rest = "0 take 1 000a01020000000000000001\n0 take 1 001301010000000000000000020000000000000002 = done 0\n";
    let told = merge([head, take, call, rest].concat().as_bytes());
    assert_eq!((told.status, text(&told.answer)), (0, &*[head, call, take, rest].concat()));
    assert_eq!(check(&verify(&told.answer).answer).answer, b"serial yes\npoints yes\n");
    let told = merge([head, take, rest].concat().as_bytes());
    // (the takes of both processes wait for the call)
    assert!(told.status == 1 && ["line 5: unfaithful\n", "line 6: unfaithful\n"].contains(&text(&told.line)));
}
