//! Nodes that programs on their machine call.
use socket2::{Domain, SockAddr, Socket, Type};
use std::error::Error;
use std::fs::{self, File};
use std::io::{self, Read, Write};
use std::net::{Shutdown, TcpListener};
use std::os::unix::fs::PermissionsExt;
use std::os::unix::net::{UnixListener, UnixStream};
use std::path::{Path, PathBuf};
use std::sync::atomic::{AtomicBool, Ordering};
use std::sync::{Arc, Mutex, mpsc};
use std::thread::{self, JoinHandle};
use std::time::{Duration, Instant};
use tellwydar::{Linear, judge};
use tellwydar_node::{Config, Fault, Node, Options, Port, ask};

type Told<T> = Result<T, Box<dyn Error + Send + Sync>>;

fn room(name: &str) -> Told<PathBuf> {
    let path = std::env::temp_dir().join(format!("tellwydar-{name}-{}", std::process::id()));
    let _ = fs::remove_dir_all(&path);
    fs::create_dir_all(&path)?;
    Ok(path)
}

fn config(count: usize) -> Told<Config> {
    let held: Vec<TcpListener> = (0..count).map(|_| TcpListener::bind("127.0.0.1:0")).collect::<Result<_, _>>()?;
    let ports = held.iter().map(|it| it.local_addr()).collect::<Result<Vec<_>, _>>()?;
    let nodes: String = ports.iter().map(|it| format!("[[node]]\naddress = \"tcp://{it}\"\n")).collect();
    Ok(format!("cluster = 7\nfront = \"linear\"\nregisters = [\"x\"]\n{nodes}").parse()?)
}

fn answers(socket: &Path, lines: &str) -> Told<Vec<String>> {
    let mut told = Vec::new();
    ask(socket, lines.as_bytes(), &mut told)?;
    Ok(String::from_utf8(told)?.lines().map(str::to_string).collect())
}

/// A node that answers programs at its port until it is ended.
struct Served {
    socket: PathBuf,
    bell: UnixStream,
    end: Arc<AtomicBool>,
    node: JoinHandle<Result<(), Fault>>,
}

impl Served {
    fn start(config: &Config, room: &Path, me: u8, resume: bool) -> Told<Self> {
        let (tell, told) = mpsc::channel();
        let socket = room.join(format!("{me}.socket"));
        let end = Arc::new(AtomicBool::new(false));
        let (config, path, ended) = (config.clone(), socket.clone(), Arc::clone(&end));
        let options = Options { resume, ..Options::new(me, room.join(format!("{me}.log"))) };
        let node = thread::spawn(move || {
            let mut node = Node::<Linear>::open(&config, &options)?;
            let port = Port::open(&path, node.bell()?)?;
            // (the test may have ended)
            let _ = tell.send(node.bell()?);
            port.serve(&mut node, &ended)
        });
        Ok(Self { socket, bell: told.recv()?, end, node })
    }

    fn answers(&self, lines: &str) -> Told<Vec<String>> {
        answers(&self.socket, lines)
    }

    /// A program that asks, and isn't answered yet.
    fn asked(&self, line: &'static str) -> JoinHandle<Told<Vec<String>>> {
        let socket = self.socket.clone();
        thread::spawn(move || answers(&socket, line))
    }

    /// Waits until an operation goes on.
    fn wait_for_a_call(&self) -> Told<()> {
        let start = Instant::now();
        while !self.answers("status")?[0].contains("\"running\": true") {
            assert!(start.elapsed() < Duration::from_secs(20), "nothing is called");
            thread::sleep(Duration::from_millis(10));
        }
        Ok(())
    }

    fn end(mut self) -> Told<()> {
        self.end.store(true, Ordering::Relaxed);
        // (the node may have stopped)
        let _ = self.bell.write_all(&[0]);
        Ok(self.node.join().map_err(|_| "the node failed")??)
    }
}

/// What a program was told that asked before the node ended.
fn told(program: JoinHandle<Told<Vec<String>>>) -> Told<Vec<String>> {
    program.join().map_err(|_| "a program failed")?
}

#[test]
fn each_line_is_answered() -> Told<()> {
    let room = room("lines")?;
    let node = Served::start(&config(1)?, &room, 0, false)?;
    let calls = "write x 5\nread x\n\ncas x 5 6\ncas x 5 7\n swap x  8 \nread z\nwrite x -1\nhealth\n";
    let no = "refused: no call of a register of this cluster";
    assert_eq!(node.answers(calls)?, ["done", "value 5", "done", "unequal", "value 6", no, no, "ok"]);
    assert_eq!(fs::metadata(&node.socket)?.permissions().mode() & 0o777, 0o600);
    let status = "{\"process\": 0, \"front\": \"linear\", \"chapter\": 0, \"operations\": 5, \"entries\": 5, \
                  \"running\": false, \"peers\": []}";
    assert_eq!(node.answers("status\n")?, [status]);
    let metrics = node.answers("metrics\n")?;
    assert_eq!(metrics[1], "tellwydar_operations_total 5");
    assert_eq!(metrics.last().map(String::as_str), Some("# EOF"));
    let long = format!("write x {}\n", "1".repeat(4100));
    assert_eq!(node.answers(&long)?, ["refused: a line is too long"]);
    let socket = node.socket.clone();
    node.end()?;
    assert!(!socket.exists());
    Ok(fs::remove_dir_all(room)?)
}

#[test]
fn a_line_that_is_not_ended_is_no_call() -> Told<()> {
    let room = room("unended")?;
    let node = Served::start(&config(1)?, &room, 0, false)?;
    let mut program = UnixStream::connect(&node.socket)?;
    program.write_all(b"write x 5\nwrite x 12")?;
    program.shutdown(Shutdown::Write)?;
    let mut told = String::new();
    program.read_to_string(&mut told)?;
    assert_eq!(told, "done\n");
    assert_eq!(node.answers("read x\n")?, ["value 5"]);
    node.end()?;
    Ok(fs::remove_dir_all(room)?)
}

#[test]
fn a_folder_that_another_program_has_locked_is_not_waited_for_for_ever() -> Told<()> {
    let room = room("locked")?;
    let turn = File::open(&room)?;
    turn.lock()?;
    let (socket, (bell, _ear)) = (room.join("0.socket"), UnixStream::pair()?);
    let why = Port::open(&socket, bell).err().map(|why| why.to_string());
    assert_eq!(why, Some(format!("{}: another program has locked its folder", socket.display())));
    Ok(fs::remove_dir_all(room)?)
}

#[test]
fn a_socket_that_another_one_is_opening_is_not_taken_from_it() -> Told<()> {
    let room = room("turns")?;
    let socket = room.join("0.socket");
    let turn = File::open(&room)?;
    turn.lock()?;
    let other = Socket::new(Domain::UNIX, Type::STREAM, None)?;
    other.bind(&SockAddr::unix(&socket)?)?;
    let (path, (bell, _ring)) = (socket.clone(), UnixStream::pair()?);
    let opening = thread::spawn(move || Port::open(&path, bell).err().map(|why| why.to_string()));
    thread::sleep(Duration::from_millis(300));
    assert!(!opening.is_finished());
    other.listen(1)?;
    drop(turn);
    let why = opening.join().map_err(|_| "the opening failed")?;
    assert_eq!(why, Some(format!("{}: Address already in use (os error 98)", socket.display())));
    Ok(fs::remove_dir_all(room)?)
}

#[test]
fn a_call_that_is_an_object_is_answered_by_one() -> Told<()> {
    let room = room("objects")?;
    let node = Served::start(&config(1)?, &room, 0, false)?;
    for (line, answer) in [
        (
            r#"{"f": "write", "key": "x", "value": 18446744073709551615}"#,
            r#"{"type": "ok", "f": "write", "key": "x", "value": 18446744073709551615}"#,
        ),
        (
            r#" {"process": "a  b", "type": "invoke", "f": "read", "key": "x", "value": null, "at": [1e400, {}]} "#,
            r#"{"type": "ok", "f": "read", "key": "x", "value": 18446744073709551615}"#,
        ),
        (
            r#"{"value":5,"\u006bey":"x","f":"swap"}"#,
            r#"{"type": "ok", "f": "swap", "key": "x", "value": 18446744073709551615}"#,
        ),
        (r#"{"f": "cas", "key": "x", "value": [5, 6]}"#, r#"{"type": "ok", "f": "cas", "key": "x", "value": [5, 6]}"#),
        (
            r#"{"f": "cas", "key": "x", "value": [5, 7]}"#,
            r#"{"type": "fail", "f": "cas", "key": "x", "value": [5, 7], "error": "unequal"}"#,
        ),
        (r#"{"f": "read", "key": "x"}"#, r#"{"type": "ok", "f": "read", "key": "x", "value": 6}"#),
    ] {
        assert_eq!(node.answers(line)?, [answer], "{line}");
    }
    node.end()?;
    Ok(fs::remove_dir_all(room)?)
}

#[test]
fn an_object_that_is_no_call_is_refused() -> Told<()> {
    let room = room("hostile")?;
    let node = Served::start(&config(1)?, &room, 0, false)?;
    let integer = "an integer from 0 to 18446744073709551615";
    let (object, f, key) =
        ("wanted a JSON object", "wanted f, one of read, write, swap and cas", "wanted key, the name of a register");
    let (value, pair) = (format!("wanted value, {integer}"), format!("wanted value, an array of two, each {integer}"));
    let nested = |count| "[".repeat(count) + &"]".repeat(count);
    let deep = format!(r#"{{"f": "write", "key": "x", "value": 1, "at": {}}}"#, nested(127));
    let long = format!(r#"{{"f": "write", "key": "x", "value": 1, "at": "{}"}}"#, "1".repeat(4100));
    let repeated = [
        (r#"{"f": "write", "f": "write", "key": "x", "value": 1}"#, "wanted one f"),
        (r#"{"f": "write", "key": "x", "\u006bey": "x", "value": 1}"#, "wanted one key"),
        (r#"{"f": "write", "key": "x", "value": 1, "value": 2}"#, "wanted one value"),
    ];
    let calls =
        ["{", "{}}", r#"{"f": "write", "key": "x", "value": NaN}"#, r#"{"f": "write", "key": "x", "value": 01}"#];
    let lines = calls.map(|it| (it, object)).into_iter().chain(repeated).chain([
        (deep.as_str(), object),
        (long.as_str(), "a line is too long"),
        ("{}", f),
        (r#"{"f": "add", "key": "x", "value": 1}"#, f),
        (r#"{"f": ["read"], "key": "x"}"#, f),
        (r#"{"f": "read"}"#, key),
        (r#"{"f": "read", "key": "z"}"#, key),
        (r#"{"f": "read", "key": 0}"#, key),
        (r#"{"f": "read", "key": "x", "value": 1}"#, "wanted value, null or nothing"),
        (r#"{"f": "read", "key": "x", "value": []}"#, "wanted value, null or nothing"),
        (r#"{"f": "write", "key": "x"}"#, &value),
        (r#"{"f": "write", "key": "x", "value": -1}"#, &value),
        (r#"{"f": "write", "key": "x", "value": -0}"#, &value),
        (r#"{"f": "write", "key": "x", "value": 1.0}"#, &value),
        (r#"{"f": "write", "key": "x", "value": true}"#, &value),
        (r#"{"f": "write", "key": "x", "value": "1"}"#, &value),
        (r#"{"f": "swap", "key": "x", "value": [1]}"#, &value),
        (r#"{"f": "swap", "key": "x", "value": 18446744073709551616}"#, &value),
        (r#"{"f": "cas", "key": "x", "value": 1}"#, &pair),
        (r#"{"f": "cas", "key": "x", "value": [1]}"#, &pair),
        (r#"{"f": "cas", "key": "x", "value": [0, 1, 2]}"#, &pair),
        (r#"{"f": "cas", "key": "x", "value": [0, null]}"#, &pair),
    ]);
    for (line, why) in lines {
        assert_eq!(node.answers(line)?, [format!("{{\"type\": \"fail\", \"error\": \"{why}\"}}")], "{line}");
    }
    // (just deep enough)
    let line = format!(r#"{{"f": "read", "key": "x", "at": {}}}"#, nested(126));
    assert_eq!(node.answers(&line)?, [r#"{"type": "ok", "f": "read", "key": "x", "value": 0}"#]);
    assert!(node.answers("status")?[0].contains("\"operations\": 1,"));
    node.end()?;
    Ok(fs::remove_dir_all(room)?)
}

#[test]
fn of_a_call_that_goes_on_when_the_node_ends_nobody_knows() -> Told<()> {
    let (room, config) = (room("unknown")?, config(2)?);
    let (node, other) = (Served::start(&config, &room, 0, false)?, Served::start(&config, &room, 1, false)?);
    assert_eq!(node.answers("write x 1")?, ["done"]);
    other.end()?;
    let program = node.asked(r#"{"f": "write", "key": "x", "value": 2}"#);
    node.wait_for_a_call()?;
    // one that comes behind it is never called, and is told so unless the node is gone before
    let next = node.asked(r#"{"f": "read", "key": "x"}"#);
    assert!(["ok", "waits for 1"].contains(&node.answers("health")?[0].as_str()));
    thread::sleep(Duration::from_millis(300));
    node.end()?;
    let unknown = r#"{"type": "info", "f": "write", "key": "x", "value": 2, "error": "the node ends"}"#;
    assert_eq!(told(program)?, [unknown]);
    if let Ok(told) = told(next) {
        assert_eq!(told, [r#"{"type": "fail", "f": "read", "key": "x", "value": null, "error": "the node ends"}"#]);
    }
    // it goes on where the node is resumed, and the next call waits for it, and has an answer of its own
    let node = Served::start(&config, &room, 0, true)?;
    let program = node.asked(r#"{"f": "swap", "key": "x", "value": 3}"#);
    let other = Served::start(&config, &room, 1, true)?;
    assert_eq!(told(program)?, [r#"{"type": "ok", "f": "swap", "key": "x", "value": 2}"#]);
    other.end()?;
    // as words it is told too
    let program = node.asked("swap x 4");
    node.wait_for_a_call()?;
    node.end()?;
    assert_eq!(told(program)?, ["unknown: the node ends"]);
    Ok(fs::remove_dir_all(room)?)
}

#[test]
fn a_call_that_waited_for_an_earlier_one_did_nothing() -> Told<()> {
    let (room, config) = (room("earlier")?, config(2)?);
    let (node, other) = (Served::start(&config, &room, 0, false)?, Served::start(&config, &room, 1, false)?);
    assert_eq!(node.answers("write x 1")?, ["done"]);
    other.end()?;
    let program = node.asked("write x 2");
    node.wait_for_a_call()?;
    node.end()?;
    assert_eq!(told(program)?, ["unknown: the node ends"]);
    // the earlier one goes on when it is called, and when the node ends
    let node = Served::start(&config, &room, 0, true)?;
    node.wait_for_a_call()?;
    let program = node.asked(r#"{"f": "cas", "key": "x", "value": [2, 3]}"#);
    thread::sleep(Duration::from_millis(300));
    node.end()?;
    let refused = r#"{"type": "fail", "f": "cas", "key": "x", "value": [2, 3], "error": "the node ends"}"#;
    assert_eq!(told(program)?, [refused]);
    let (node, other) = (Served::start(&config, &room, 0, true)?, Served::start(&config, &room, 1, true)?);
    assert_eq!(node.answers("read x")?, ["value 2"]);
    other.end()?;
    node.end()?;
    Ok(fs::remove_dir_all(room)?)
}

#[test]
fn a_call_that_waited_for_the_others_did_nothing() -> Told<()> {
    let (room, config) = (room("waited")?, config(2)?);
    let node = Served::start(&config, &room, 0, false)?;
    let program = node.asked(r#"{"f": "swap", "key": "x", "value": 1}"#);
    thread::sleep(Duration::from_millis(300));
    assert!(node.answers("status")?[0].contains("\"operations\": 0,"));
    node.end()?;
    assert_eq!(told(program)?, [r#"{"type": "fail", "f": "swap", "key": "x", "value": 1, "error": "the node ends"}"#]);
    Ok(fs::remove_dir_all(room)?)
}

#[test]
fn a_node_that_finds_its_log_lost_called_nothing() -> Told<()> {
    let (room, config) = (room("lost")?, config(2)?);
    let (node, other) = (Served::start(&config, &room, 0, false)?, Served::start(&config, &room, 1, false)?);
    assert_eq!(node.answers("write x 1")?, ["done"]);
    let log = room.join("0.log");
    let copy = fs::read(&log)?;
    assert_eq!(node.answers("write x 2")?, ["done"]);
    node.end()?;
    other.end()?;
    fs::write(&log, copy)?;
    let node = Served::start(&config, &room, 0, true)?;
    let program = node.asked(r#"{"f": "write", "key": "x", "value": 3}"#);
    thread::sleep(Duration::from_millis(300));
    let other = Served::start(&config, &room, 1, true)?;
    let why = "the log was lost: process 1 accepted 2 bodies, and it has 1";
    assert_eq!(
        told(program)?,
        [format!(r#"{{"type": "fail", "f": "write", "key": "x", "value": 3, "error": "{why}"}}"#)]
    );
    assert_eq!(node.end().expect_err("the node stopped").to_string(), why);
    other.end()?;
    Ok(fs::remove_dir_all(room)?)
}

/// Calls one after another, and writes down what it sends and gets.
fn play(process: u64, socket: &Path, history: &Mutex<Vec<String>>) -> Told<()> {
    let note = |object: &str| -> Told<String> {
        let line = format!("{{\"process\": {process}, {}\n", object.strip_prefix('{').ok_or("no object")?);
        history.lock().map_err(|_| "a program failed")?.push(line.clone());
        Ok(line)
    };
    for k in 0..30 {
        let value = 100 * process + k;
        let call = match k % 4 {
            0 => format!(r#""write", "key": "x", "value": {value}"#),
            1 => r#""read", "key": "x", "value": null"#.to_string(),
            2 => format!(r#""cas", "key": "x", "value": [{}, {value}]"#, value - 2),
            _ => format!(r#""swap", "key": "x", "value": {value}"#),
        };
        let line = note(&format!(r#"{{"type": "invoke", "f": {call}}}"#))?;
        note(&answers(socket, &line)?[0])?;
    }
    Ok(())
}

#[test]
fn what_goes_over_the_ports_can_be_judged() -> Told<()> {
    let (room, config) = (room("judged")?, config(2)?);
    let (node, other) = (Served::start(&config, &room, 0, false)?, Served::start(&config, &room, 1, false)?);
    let history = Mutex::new(Vec::new());
    thread::scope(|scope| {
        let (places, history) = ([(1, &node.socket), (2, &other.socket)], &history);
        let programs = places.map(|(process, socket)| scope.spawn(move || play(process, socket, history)));
        programs.into_iter().try_for_each(|it| it.join().map_err(|_| "a program failed")?)
    })?;
    node.end()?;
    other.end()?;
    let mut lines = history.into_inner()?;
    assert_eq!(lines.len(), 120);
    let judged = judge(lines.concat().as_bytes())?;
    assert!(judged.is_linearizable, "{}", judged.text);
    // (nobody wrote that)
    lines.push("{\"process\": 1, \"type\": \"invoke\", \"f\": \"read\", \"key\": \"x\"}\n".to_string());
    lines.push("{\"process\": 1, \"type\": \"ok\", \"f\": \"read\", \"key\": \"x\", \"value\": 7}\n".to_string());
    assert!(!judge(lines.concat().as_bytes())?.is_linearizable);
    Ok(fs::remove_dir_all(room)?)
}

#[test]
fn programs_take_turns() -> Told<()> {
    let room = room("turns")?;
    let node = Served::start(&config(1)?, &room, 0, false)?;
    let swaps = |p: u64| (1..=50).map(|k| format!("swap x {}\n", 100 * p + k)).collect::<String>();
    let told = thread::scope(|scope| {
        let socket = &node.socket;
        let programs: Vec<_> = (0..4).map(|p| scope.spawn(move || answers(socket, &swaps(p)))).collect();
        programs.into_iter().map(|it| it.join().map_err(|_| "a program failed")?).collect::<Told<Vec<_>>>()
    })?;
    // each value was there once, and was swapped away but for the last one
    let mut told: Vec<String> = told.into_iter().flatten().chain(node.answers("read x\n")?).collect();
    let mut swapped: Vec<String> =
        (0..4).flat_map(|p| (1..=50).map(move |k| format!("value {}", 100 * p + k))).collect();
    swapped.push("value 0".to_string());
    told.sort();
    swapped.sort();
    assert_eq!(told, swapped);
    node.end()?;
    Ok(fs::remove_dir_all(room)?)
}

#[test]
fn a_socket_that_is_taken_is_refused_and_one_that_was_left_is_not() -> Told<()> {
    let room = room("taken")?;
    // (a listener that is dropped leaves its socket)
    drop(UnixListener::bind(room.join("0.socket"))?);
    let node = Served::start(&config(1)?, &room, 0, false)?;
    let (bell, _hand) = UnixStream::pair()?;
    match Port::open(&node.socket, bell).map(|_| ()) {
        Err(Fault::Io(why)) => assert_eq!(why.kind(), io::ErrorKind::AddrInUse),
        other => return Err(format!("not refused: {other:?}").into()),
    }
    assert_eq!(node.answers("read x\n")?, ["value 0"]);
    node.end()?;
    Ok(fs::remove_dir_all(room)?)
}

#[test]
fn a_port_that_is_dropped_lets_nobody_in() -> Told<()> {
    let room = room("dropped")?;
    let (socket, other) = (room.join("0.socket"), room.join("other.socket"));
    let (bell, _ear) = UnixStream::pair()?;
    let port = Port::open(&socket, bell)?;
    fs::hard_link(&socket, &other)?;
    drop(port);
    assert!(!socket.exists());
    let end = Instant::now() + Duration::from_secs(5);
    while UnixStream::connect(&other).is_ok() && Instant::now() < end {
        thread::sleep(Duration::from_millis(10));
    }
    let refused = UnixStream::connect(&other).expect_err("nobody is there");
    assert_eq!(refused.kind(), io::ErrorKind::ConnectionRefused);
    Ok(fs::remove_dir_all(room)?)
}
