//! The port of a node: a Unix socket, at which programs on its machine call it.
//!
//! A program sends lines. Each is a call, as words or as an object of JSON (`calls.rs`), or asks how the node is:
//! `health`, `status`, `metrics`. It is answered by one line: how the call ended, or what was asked for. Only metrics
//! are several lines, of which the last is `# EOF` (<https://prometheus.io/docs/instrumenting/exposition_formats>).
//! Programs take turns, since a process has one operation at a time.
use crate::calls::{End, Form};
use crate::fault::{Fault, at_path};
use crate::node::Node;
use socket2::{Domain, SockAddr, SockRef, Socket, Type};
use std::fs::{self, File, Permissions, TryLockError};
use std::io::{self, BufRead, BufReader, Read, Write};
use std::net::Shutdown;
use std::os::unix::fs::{FileTypeExt, PermissionsExt};
use std::os::unix::net::{UnixListener, UnixStream};
use std::path::{Path, PathBuf};
use std::sync::Arc;
use std::sync::atomic::{AtomicBool, Ordering};
use std::sync::mpsc::{self, Receiver, Sender};
use std::thread;
use std::time::{Duration, Instant};
use tellwydar::{Answer, Front, Op};

/// Bytes of a line.
const LONGEST: usize = 4096;
/// Programs that may wait to be heard.
const WAITING: i32 = 128;
/// Before it is looked again whether there is room for a program, or whether a folder is free.
const PAUSE: Duration = Duration::from_millis(100);
/// For so long others who open a port in the same folder are waited for.
const TURN: Duration = Duration::from_secs(5);
const LOOKS: [&str; 3] = ["health", "status", "metrics"];

/// A line of a program, and where its answer goes.
struct Request {
    line: String,
    told: Sender<String>,
}

/// Hands requests to the node's thread.
struct Desk {
    calls: Sender<Request>,
    /// What asks how the node is doesn't wait for a call that goes on.
    looks: Sender<Request>,
    bell: UnixStream,
}

impl Desk {
    /// The answer to a line, None where the node is gone.
    fn ask(&self, line: String) -> Option<String> {
        let (told, answer) = mpsc::channel();
        let requests = if LOOKS.contains(&line.as_str()) { &self.looks } else { &self.calls };
        requests.send(Request { line, told }).ok()?;
        // (where there is no room, it has rung)
        let _ = (&self.bell).write(&[0]);
        answer.recv().ok()
    }

    /// Answers a program until it ends. A last line that isn't ended may be a part of one: it is no call.
    fn attend(&self, program: &UnixStream) -> io::Result<()> {
        let (mut lines, mut out) = (BufReader::new(program), program);
        loop {
            let mut line = Vec::new();
            let length = lines.by_ref().take(LONGEST as u64 + 1).read_until(b'\n', &mut line)?;
            let is_ended = line.ends_with(b"\n");
            let line = String::from_utf8_lossy(&line).trim_matches([' ', '\t', '\r', '\n']).to_string();
            if length > LONGEST {
                return writeln!(out, "{}", Form::of(&line).refusal("a line is too long"));
            }
            if !is_ended {
                return Ok(());
            }
            if !line.is_empty() {
                let Some(answer) = self.ask(line) else { return Ok(()) };
                out.write_all(format!("{answer}\n").as_bytes())?;
            }
        }
    }
}

/// Has others who open a port in this folder wait: a socket that isn't listened to yet would pass for one of a node
/// that is gone.
fn turn_in(folder: &Path) -> io::Result<File> {
    let turn = File::open(if folder.as_os_str().is_empty() { Path::new(".") } else { folder })?;
    let end = Instant::now() + TURN;
    loop {
        match turn.try_lock() {
            Ok(()) => return Ok(turn),
            Err(TryLockError::WouldBlock) if Instant::now() < end => thread::sleep(PAUSE),
            Err(TryLockError::WouldBlock) => return Err(io::Error::other("another program has locked its folder")),
            Err(TryLockError::Error(why)) => return Err(why),
        }
    }
}

/// Whether nobody listens at a socket. (One that has no room for more programs now isn't waited for.)
fn is_stale(path: &Path) -> io::Result<bool> {
    let socket = Socket::new(Domain::UNIX, Type::STREAM, None)?;
    socket.set_nonblocking(true)?;
    Ok(socket.connect(&SockAddr::unix(path)?).is_err_and(|why| why.kind() == io::ErrorKind::ConnectionRefused))
}

/// Removes the socket of a node that is gone.
fn remove_stale(path: &Path) -> io::Result<()> {
    let is_socket = fs::metadata(path).is_ok_and(|it| it.file_type().is_socket());
    if is_socket && is_stale(path)? { fs::remove_file(path) } else { Ok(()) }
}

/// A port that is open until it is dropped.
pub struct Port {
    path: PathBuf,
    listener: UnixListener,
    is_over: Arc<AtomicBool>,
    calls: Receiver<Request>,
    looks: Receiver<Request>,
}

impl Port {
    /// Opens it at this path, for the node of this bell. Nobody but this user may call there.
    pub fn open(path: &Path, bell: UnixStream) -> Result<Self, Fault> {
        let open = || {
            let _turn = turn_in(path.parent().unwrap_or(path))?;
            remove_stale(path)?;
            let socket = Socket::new(Domain::UNIX, Type::STREAM, None)?;
            socket.bind(&SockAddr::unix(path)?)?;
            // (nobody else calls: it listens only from here on)
            fs::set_permissions(path, Permissions::from_mode(0o600))?;
            socket.listen(WAITING)?;
            Ok(UnixListener::from(socket))
        };
        let listener = open().map_err(|why| at_path(path, why))?;
        let programs = listener.try_clone()?;
        let ((call, calls), (look, looks)) = (mpsc::channel(), mpsc::channel());
        let desk = Arc::new(Desk { calls: call, looks: look, bell });
        let is_over = Arc::new(AtomicBool::new(false));
        let over = Arc::clone(&is_over);
        let serve = move || {
            for program in programs.incoming() {
                if over.load(Ordering::Relaxed) {
                    return;
                }
                let desk = Arc::clone(&desk);
                match program {
                    // (a program that is gone isn't there to be told, nor is one for which there is no thread)
                    Ok(program) => drop(thread::Builder::new().spawn(move || desk.attend(&program))),
                    // (there is no room for it now)
                    Err(_) => thread::sleep(PAUSE),
                }
            }
        };
        thread::Builder::new().name("tellwydar-port".to_string()).spawn(serve)?;
        Ok(Self { path: path.to_path_buf(), listener, is_over, calls, looks })
    }

    /// Answers programs until the end is asked for.
    ///
    /// # Errors
    ///
    /// Where the node stopped.
    pub fn serve<F: Front>(&self, node: &mut Node<F>, end: &AtomicBool) -> Result<(), Fault> {
        while !end.load(Ordering::Relaxed) {
            node.serve(None)?;
            self.tell_looks(node);
            while let Ok(Request { line, told }) = self.calls.try_recv() {
                let (answer, up) = self.answer(node, &line, end);
                // (the program may be gone)
                let _ = told.send(answer);
                up?;
                self.tell_looks(node);
            }
        }
        Ok(())
    }

    /// Tells those who ask how the node is.
    fn tell_looks<F: Front>(&self, node: &Node<F>) {
        while let Ok(Request { line, told }) = self.looks.try_recv() {
            let status = node.status();
            // (the program may be gone)
            let _ = told.send(match line.as_str() {
                "health" => status.health(),
                "status" => status.json(),
                _ => status.metrics(),
            });
        }
    }

    /// The answer to a call, and why the node stopped, if it did.
    ///
    /// A call that isn't answered surely did nothing if the node counts no operation more: one that it counts is in its
    /// log, perhaps on the disk, and goes on where the node is resumed.
    fn answer<F: Front>(&self, node: &mut Node<F>, line: &str, end: &AtomicBool) -> (String, Result<(), Fault>) {
        let (form, called) = (Form::of(line), node.so_far().0);
        let op = match form.call(line, node.registers()) {
            Ok(op) => op,
            Err(why) => return (form.refusal(&why), Ok(())),
        };
        let (ended, up) = match self.answered(node, op, end) {
            Ok(answer) => (End::Answered(answer), Ok(())),
            Err(why) => {
                let words = match &why {
                    Fault::Rung => "the node ends".to_string(),
                    Fault::Refused(why) | Fault::Failed(why) => why.to_string(),
                    why => why.to_string(),
                };
                let ended = if node.so_far().0 > called { End::Unknown(words) } else { End::Refused(words) };
                (ended, if why.is_of_a_call() { Ok(()) } else { Err(why) })
            }
        };
        (form.answer(op, node.registers(), &ended), up)
    }

    /// The answer of this operation, unless the end is asked for. One that goes on is answered first, as where the node
    /// was resumed: who called it is gone. Programs that come meanwhile ring the bell too.
    fn answered<F: Front>(&self, node: &mut Node<F>, op: Op, end: &AtomicBool) -> Result<Answer, Fault> {
        let called = node.so_far().0;
        while !end.load(Ordering::Relaxed) {
            let answer = if node.so_far().1 { node.wait(None) } else { node.perform(op, None) };
            match answer {
                Ok(_) if node.so_far().0 == called => {}
                Ok(answer) => return self.kept(node, end).map(|()| answer),
                Err(Fault::Rung) => self.tell_looks(node),
                Err(why) => return Err(why),
            }
        }
        Err(Fault::Rung)
    }

    /// What is told is in the log before. While the disk writes it others are told how the node is.
    fn kept<F: Front>(&self, node: &mut Node<F>, end: &AtomicBool) -> Result<(), Fault> {
        while !node.is_kept() {
            if end.load(Ordering::Relaxed) {
                return Err(Fault::Rung);
            }
            node.serve(None)?;
            self.tell_looks(node);
        }
        Ok(())
    }
}

impl Drop for Port {
    /// (While it listens, nobody else takes the path. Who lets programs in is woken then.)
    fn drop(&mut self) {
        let _ = fs::remove_file(&self.path);
        self.is_over.store(true, Ordering::Relaxed);
        let _ = SockRef::from(&self.listener).shutdown(Shutdown::Both);
    }
}

/// Has the node at this port answer lines, and writes what it answers.
///
/// # Errors
///
/// Where nobody is there, or a stream fails.
pub fn ask(path: &Path, lines: impl BufRead, mut out: impl Write) -> io::Result<()> {
    let node = UnixStream::connect(path)?;
    let (mut told, mut send) = (BufReader::new(&node), &node);
    for line in lines.split(b'\n') {
        let line = line?;
        let line = line.trim_ascii();
        let mut is_last = line.is_empty();
        if !is_last {
            send.write_all(&[line, b"\n"].concat())?;
        }
        while !is_last {
            let mut answer = Vec::new();
            told.read_until(b'\n', &mut answer)?;
            if !answer.ends_with(b"\n") {
                return Err(io::Error::new(io::ErrorKind::UnexpectedEof, "the node ended"));
            }
            out.write_all(&answer)?;
            is_last = line != b"metrics" || answer == b"# EOF\n" || answer.starts_with(b"refused: ");
        }
        out.flush()?;
    }
    Ok(())
}
