//! The road of ZeroMQ: a node binds one PULL, in which it hears all others, and connects one PUSH to each of them.
//!
//! With keys (CURVE) both ends are known: the listener lets in only keys of its list, and the key says which process a
//! message is from; the sender talks only to the key that it was told.
use crate::fault::Fault;
use crate::keys::Keys;
use crate::message::{Complaint, Kind};
use crate::road::{Arrived, BATCH, Bell, Message, Road, poll};
use std::time::Duration;
use zmq::{Context, DONTWAIT, POLLIN, PollItem, SNDMORE, Socket, SocketType};

const MOST_BYTES: usize = 4096;
/// Messages to or from one peer.
const MOST_QUEUED: i32 = 1000;
/// After so many batches in a row without a wait, the door and the bell are looked at.
const MOST_UNPOLLED: u32 = 16;

/// A road over TCP, by ZeroMQ.
pub struct ZeroMq {
    pull: Socket,
    /// It is asked who may come in (ZAP, RFC 27).
    door: Socket,
    push: Vec<Option<Socket>>,
    keys: Option<Keys>,
    bell: Bell,
    unpolled: u32,
}

/// What is received or sent, unless there is nothing or a signal came between.
fn there<T>(received: Result<T, zmq::Error>) -> Result<Option<T>, zmq::Error> {
    match received {
        Err(zmq::Error::EAGAIN | zmq::Error::EINTR) => Ok(None),
        received => received.map(Some),
    }
}

/// A socket within its limits.
fn socket(context: &Context, kind: SocketType, is_ipv6: bool) -> Result<Socket, zmq::Error> {
    let socket = context.socket(kind)?;
    socket.set_linger(0)?;
    socket.set_maxmsgsize(MOST_BYTES as i64)?;
    socket.set_sndhwm(MOST_QUEUED)?;
    socket.set_rcvhwm(MOST_QUEUED)?;
    socket.set_handshake_ivl(5000)?;
    socket.set_heartbeat_ivl(2000)?;
    socket.set_heartbeat_timeout(6000)?;
    socket.set_reconnect_ivl(50)?;
    socket.set_reconnect_ivl_max(2000)?;
    socket.set_ipv6(is_ipv6)?;
    Ok(socket)
}

impl ZeroMq {
    /// The road of the process `me`.
    ///
    /// # Errors
    ///
    /// Where the own address can't be listened to, or another one is none.
    pub fn open(me: u8, addresses: &[String], keys: Option<Keys>, bell: Bell) -> Result<Self, Fault> {
        let is_ipv6 = addresses.iter().any(|it| it.contains('['));
        let (context, own) = (Context::new(), usize::from(me));
        let failed = |at: usize| move |why| Fault::Road(format!("{}: {why}", addresses[at]));
        let door = context.socket(zmq::REP)?;
        door.set_linger(0)?;
        door.bind("inproc://zeromq.zap.01")?;
        let pull = socket(&context, zmq::PULL, is_ipv6)?;
        pull.set_zap_domain("tellwydar")?;
        if let Some(keys) = &keys {
            pull.set_curve_server(true)?;
            pull.set_curve_secretkey(&keys.secret.0)?;
        }
        pull.bind(&addresses[own]).map_err(failed(own))?;
        let mut push = Vec::new();
        for at in 0..addresses.len() {
            if at == own {
                push.push(None);
                continue;
            }
            let sender = socket(&context, zmq::PUSH, is_ipv6)?;
            // (nothing is kept for a peer that isn't there)
            sender.set_immediate(true)?;
            if let Some(keys) = &keys {
                sender.set_curve_secretkey(&keys.secret.0)?;
                sender.set_curve_publickey(&keys.known[own].0)?;
                sender.set_curve_serverkey(&keys.known[at].0)?;
            }
            sender.connect(&addresses[at]).map_err(failed(at))?;
            push.push(Some(sender));
        }
        Ok(Self { pull, door, push, keys, bell, unpolled: 0 })
    }

    /// Takes what is there, and tells whether that was anything.
    fn take(&mut self, into: &mut Vec<Arrived>) -> Result<bool, Fault> {
        let before = into.len();
        while into.len() < before + BATCH {
            let Some(mut message) = there(self.pull.recv_msg(DONTWAIT))? else { break };
            if message.get_more() {
                let text = "a message of several parts is dropped".to_string();
                into.push(Err(Complaint { kind: Kind::Parts, text }));
                while self.pull.get_rcvmore()? {
                    there(self.pull.recv_msg(DONTWAIT))?;
                }
                continue;
            }
            let key = self.keys.as_ref().and_then(|_| message.gets("User-Id")?.parse().ok());
            if self.keys.is_none() || key.is_some() {
                into.push(Ok(Message { key, bytes: message.to_vec() }));
            }
        }
        Ok(into.len() > before)
    }

    /// Says who may come in.
    fn answer(&mut self, into: &mut Vec<Arrived>) -> Result<(), Fault> {
        let Some(parts) = there(self.door.recv_multipart(DONTWAIT))? else { return Ok(()) };
        let part = |at: usize| parts.get(at).map_or(b"".as_slice(), Vec::as_slice);
        let who = match (&self.keys, part(5)) {
            (None, b"NULL") => Some("-".to_string()),
            (Some(keys), b"CURVE") => keys.known.iter().position(|it| it.0 == part(6)).map(|it| it.to_string()),
            _ => None,
        };
        let (code, word) = if who.is_some() { ("200", "") } else { ("400", "unknown") };
        if who.is_none() {
            let text = format!("{}: no known key; refused", String::from_utf8_lossy(part(3)));
            into.push(Err(Complaint { kind: Kind::Key, text }));
        }
        let who = who.unwrap_or_default();
        for it in [part(0), part(1), code.as_bytes(), word.as_bytes(), who.as_bytes()] {
            while there(self.door.send(it, SNDMORE))?.is_none() {}
        }
        while there(self.door.send("", 0))?.is_none() {}
        Ok(())
    }
}

impl Road for ZeroMq {
    fn most_bytes(&self) -> usize {
        MOST_BYTES
    }

    fn send(&mut self, to: u8, message: &[u8]) {
        if let Some(Some(push)) = self.push.get(usize::from(to)) {
            // (what finds no room is put again by a tick)
            let _ = push.send(message, DONTWAIT);
        }
    }

    fn receive(&mut self, wait: Option<Duration>, into: &mut Vec<Arrived>) -> Result<bool, Fault> {
        let has_some = self.take(into)?;
        if has_some && self.unpolled < MOST_UNPOLLED {
            self.unpolled += 1;
            return Ok(false);
        }
        self.unpolled = 0;
        let mut items = [
            self.pull.as_poll_item(POLLIN),
            self.door.as_poll_item(POLLIN),
            PollItem::from_fd(self.bell.descriptor(), POLLIN),
        ];
        poll(&mut items, if has_some { Some(Duration::ZERO) } else { wait })?;
        let [pull, door, bell] = items.map(|it| it.is_readable());
        if door {
            self.answer(into)?;
        }
        if pull && !has_some {
            self.take(into)?;
        }
        Ok(bell && self.bell.rang())
    }
}

#[cfg(test)]
mod tests {
    use super::*;

    #[test]
    fn a_signal_is_no_fault_of_a_road() {
        for why in [zmq::Error::EAGAIN, zmq::Error::EINTR] {
            assert_eq!(there::<()>(Err(why)), Ok(None));
        }
        assert_eq!(there(Ok(5)), Ok(Some(5)));
        assert_eq!(there::<()>(Err(zmq::Error::ETERM)), Err(zmq::Error::ETERM));
    }
}
