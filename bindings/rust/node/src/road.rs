//! Roads between nodes. A road may lose, repeat and reorder what it carries; what it must not do is invent it, and if
//! it does the judge of the logs says so.
use crate::config::{Config, Options};
use crate::fault::Fault;
use crate::keys::Keys;
use crate::lossy::LossyRoad;
use crate::message::Complaint;
use crate::zeromq::ZeroMq;
use std::io::{self, Read, Write};
use std::net::IpAddr;
use std::os::fd::{AsRawFd, RawFd};
use std::os::unix::net::UnixStream;
use std::sync::Arc;
use std::sync::atomic::{AtomicUsize, Ordering};
use std::time::{Duration, Instant};
use zmq::PollItem;

/// How many messages are taken at once.
pub const BATCH: usize = 64;

/// A message, with the process that its key names, where there are keys.
#[derive(Debug)]
pub struct Message {
    pub key: Option<u8>,
    pub bytes: Vec<u8>,
}

/// What came by a road, or what was dropped there.
pub type Arrived = Result<Message, Complaint>;

/// Carries messages to the other nodes, and from them. Nothing waits on a road: what finds no room or no connection is
/// dropped, and is put again by a tick.
pub trait Road {
    /// How long a message may be.
    fn most_bytes(&self) -> usize;

    /// Sends a message, or drops it.
    fn send(&mut self, to: u8, message: &[u8]);

    /// Waits until something comes, the bell rings or the time is up, and tells whether the bell rang.
    fn receive(&mut self, wait: Option<Duration>, into: &mut Vec<Arrived>) -> Result<bool, Fault>;

    /// Sends what was kept back until now, and tells when something is due next.
    fn pump(&mut self, _now: Instant) -> Option<Instant> {
        None
    }
}

/// The road that the addresses of the configuration name.
pub fn road_of(config: &Config, options: &Options, bell: Bell) -> Result<Box<dyn Road>, Fault> {
    let addresses: Vec<String> = config.nodes.iter().map(|it| it.address.clone()).collect();
    let keys = Keys::of(config, options)?;
    // (without keys only loopback addresses are taken)
    if let Some(address) = addresses.iter().find(|it| keys.is_none() && !is_loopback(it)) {
        return Err(Fault::Road(format!("{address} is no loopback address: between machines give keys")));
    }
    let road: Box<dyn Road> = match addresses[usize::from(options.me)].starts_with("udp://") {
        false => Box::new(ZeroMq::open(options.me, &addresses, keys, bell)?),
        #[cfg(feature = "datagrams")]
        true => Box::new(crate::datagrams::Datagrams::open(options.me, &addresses, keys, bell)?),
        #[cfg(not(feature = "datagrams"))]
        true => return Err(Fault::Road("this program was built without datagrams".to_string())),
    };
    Ok(match options.losses {
        Some(losses) => Box::new(LossyRoad::new(road, losses, options.me)),
        None => road,
    })
}

/// By it a node is woken that waits on a road.
#[derive(Debug)]
pub struct Bell {
    ear: UnixStream,
    /// How many bytes of those that came or come are the node's own, and no ring.
    own: Arc<AtomicUsize>,
}

/// What wakes the node without a ring that anybody is told of.
#[derive(Debug)]
pub struct Ringer {
    hand: UnixStream,
    own: Arc<AtomicUsize>,
}

impl Bell {
    /// A bell, and what one writes a byte to for it to ring. (Where there is no room for the byte, it has rung.)
    pub fn new() -> io::Result<(Self, UnixStream)> {
        let (ear, hand) = UnixStream::pair()?;
        ear.set_nonblocking(true)?;
        hand.set_nonblocking(true)?;
        Ok((Self { ear, own: Arc::default() }, hand))
    }

    /// What wakes this bell's node, by the same hand.
    pub fn ringer(&self, hand: &UnixStream) -> io::Result<Ringer> {
        Ok(Ringer { hand: hand.try_clone()?, own: Arc::clone(&self.own) })
    }

    /// Whether it has rung since the last time. (Which byte is whose doesn't matter: where one of the node's own is
    /// still to come, it stands for a ring then.)
    pub fn rang(&mut self) -> bool {
        let came = self.ear.read(&mut [0; 64]).unwrap_or(0);
        let own = self.own.load(Ordering::Acquire).min(came);
        self.own.fetch_sub(own, Ordering::Release);
        came > own
    }

    pub fn descriptor(&self) -> RawFd {
        self.ear.as_raw_fd()
    }
}

impl Ringer {
    pub fn ring(&self) {
        self.own.fetch_add(1, Ordering::Release);
        if (&self.hand).write(&[0]).is_err() {
            // (where there is no room, it has rung, and where nobody hears, the node is gone)
            let _ = self.own.fetch_update(Ordering::AcqRel, Ordering::Acquire, |it| it.checked_sub(1));
        }
    }
}

/// The milliseconds of a poll, rounded up; -1 is for ever.
fn milliseconds(wait: Option<Duration>) -> i64 {
    wait.map_or(-1, |it| i64::try_from(it.as_micros().div_ceil(1000)).unwrap_or(i64::MAX))
}

/// Waits until one of these is ready, or the time is up.
pub fn poll(items: &mut [PollItem<'_>], wait: Option<Duration>) -> Result<(), Fault> {
    match zmq::poll(items, milliseconds(wait)) {
        Ok(_) | Err(zmq::Error::EINTR) => Ok(()),
        Err(why) => Err(why.into()),
    }
}

fn is_loopback(address: &str) -> bool {
    let Some((scheme, rest)) = address.split_once("://") else { return false };
    let host = rest.rsplit_once(':').map_or(rest, |(host, _)| host);
    // (a name, or a star, is no number)
    scheme == "ipc" || host.trim_matches(['[', ']']).parse().is_ok_and(|it: IpAddr| it.is_loopback())
}

#[cfg(test)]
mod tests {
    use super::*;

    #[test]
    fn loopback() {
        for address in ["tcp://127.0.0.1:1", "tcp://127.9.9.9:1", "tcp://[::1]:1", "ipc://x"] {
            assert!(is_loopback(address), "{address}");
        }
        for address in [
            "udp://0.0.0.0:1",
            "tcp://0.0.0.0:1",
            "tcp://*:1",
            "tcp://10.0.0.1:1",
            "tcp://localhost.example:1",
            "tcp://[::]:1",
            "127.0.0.1:1",
        ] {
            assert!(!is_loopback(address), "{address}");
        }
    }

    #[test]
    fn a_bell_rings_for_the_bytes_of_others_alone() {
        let (mut bell, hand) = Bell::new().expect("a bell");
        let ringer = bell.ringer(&hand).expect("a bell");
        let ring = || (&hand).write_all(&[0]).expect("a bell");
        assert!(!bell.rang());
        ringer.ring();
        ringer.ring();
        assert!(!bell.rang());
        ring();
        assert!(bell.rang() && !bell.rang());
        ringer.ring();
        ring();
        ringer.ring();
        assert!(bell.rang() && !bell.rang());
        // (more than are taken at once)
        (0..100).for_each(|_| ringer.ring());
        ring();
        assert!(!bell.rang() && bell.rang() && !bell.rang());
    }

    #[test]
    fn nobody_who_rings_waits_for_a_node_that_does_not_hear() {
        let (mut bell, hand) = Bell::new().expect("a bell");
        let (ringer, other) = (bell.ringer(&hand).expect("a bell"), hand.try_clone().expect("a hand"));
        let ringing = std::thread::spawn(move || {
            for _ in 0..10_000 {
                ringer.ring();
                // (where it finds no room the bell has rung)
                let _ = (&other).write(&[0]);
            }
        });
        let end = Instant::now() + Duration::from_secs(10);
        while !ringing.is_finished() && Instant::now() < end {
            std::thread::sleep(Duration::from_millis(1));
        }
        assert!(ringing.is_finished());
        assert!((0..10_000).any(|_| bell.rang()));
        (0..10_000).for_each(|_| _ = bell.rang());
        (&hand).write_all(&[0]).expect("a bell");
        assert!(bell.rang());
    }

    #[test]
    fn polls_are_rounded_up() {
        assert_eq!(milliseconds(None), -1);
        assert_eq!(milliseconds(Some(Duration::ZERO)), 0);
        assert_eq!(milliseconds(Some(Duration::from_micros(1))), 1);
        assert_eq!(milliseconds(Some(Duration::from_millis(7))), 7);
    }
}
