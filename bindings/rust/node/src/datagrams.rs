//! The road of UDP datagrams. A process wants no order and no repetition from a network, so where many packets are lost
//! nothing waits behind a lost one, as it does with TCP.
//!
//! With keys each datagram is a NaCl box, made with the same keys as ZeroMQ's CURVE: so it is read by its receiver
//! alone, and comes from the process whose key opens it. A datagram that is recorded and sent again is a repeated
//! message, which changes nothing.
//!
//! Each peer has a socket of its own, to which the system brings what comes from the peer's address. All else comes to
//! the socket for strangers, of which few datagrams are opened before the peers are heard again: a flood from elsewhere
//! takes no peer's room, and little of its time.
use crate::fault::Fault;
use crate::keys::{Key, Keys};
use crate::message::{Complaint, Kind};
use crate::road::{Arrived, BATCH, Bell, Message, Road, poll};
use libsodium_sys as sodium;
use socket2::{Domain, SockRef, Socket, Type};
use std::io;
use std::net::{SocketAddr, ToSocketAddrs, UdpSocket};
use std::os::fd::AsRawFd;
use std::time::Duration;
use zmq::{POLLIN, PollItem};

/// Of a message, so that a datagram fits into one packet of most networks.
const MOST_BYTES: usize = 1200;
const MOST_READ: usize = 2048;
/// Datagrams of strangers that are opened at once.
const FEW: usize = 16;
const NONCE: usize = sodium::crypto_box_NONCEBYTES as usize;
const SEAL: usize = sodium::crypto_box_MACBYTES as usize;

/// What two processes share who know each other's public key.
struct Shared([u8; sodium::crypto_box_BEFORENMBYTES as usize]);

impl Shared {
    fn of(secret: &Key, other: &Key) -> Result<Self, Fault> {
        let mut shared = Self([0; _]);
        // SAFETY: the three arrays have the lengths that the library names: 32 bytes each.
        let code = unsafe { sodium::crypto_box_beforenm(shared.0.as_mut_ptr(), other.0.as_ptr(), secret.0.as_ptr()) };
        if code == 0 { Ok(shared) } else { Err(Fault::Road("a key that is no point of the curve".to_string())) }
    }

    /// A nonce and the box of a message.
    fn sealed(&self, message: &[u8]) -> Vec<u8> {
        let mut sealed = vec![0; NONCE + SEAL + message.len()];
        let (nonce, sealing) = sealed.split_at_mut(NONCE);
        // SAFETY: the nonce has its length, and the box that of its message and of the seal.
        unsafe {
            sodium::randombytes_buf(nonce.as_mut_ptr().cast(), NONCE);
            sodium::crypto_box_easy_afternm(
                sealing.as_mut_ptr(),
                message.as_ptr(),
                message.len() as u64,
                nonce.as_ptr(),
                self.0.as_ptr(),
            );
        }
        sealed
    }

    /// The message in a box after its nonce, or none where it was made with another key.
    fn opened(&self, sealed: &[u8]) -> Option<Vec<u8>> {
        let (nonce, sealing) = sealed.split_at_checked(NONCE)?;
        let mut message = vec![0; sealing.len().checked_sub(SEAL)?];
        // SAFETY: the nonce has its length, and the message that of the box without the seal.
        let code = unsafe {
            sodium::crypto_box_open_easy_afternm(
                message.as_mut_ptr(),
                sealing.as_ptr(),
                sealing.len() as u64,
                nonce.as_ptr(),
                self.0.as_ptr(),
            )
        };
        (code == 0).then_some(message)
    }
}

/// A road over UDP.
pub struct Datagrams {
    me: u8,
    strangers: UdpSocket,
    /// For each process, but for the own one.
    peers: Vec<Option<UdpSocket>>,
    /// For each process; without keys for none.
    shared: Option<Vec<Shared>>,
    bell: Bell,
}

/// The place of an address. All are of one family: IPv4 unless some address of the cluster is written as one of IPv6.
fn place_of(address: &str, is_ipv6: bool) -> Result<SocketAddr, Fault> {
    let place = address.strip_prefix("udp://").unwrap_or(address);
    let mut found = place.to_socket_addrs().map_err(|why| Fault::Road(format!("{address}: {why}")))?;
    found.find(|it| it.is_ipv6() == is_ipv6).ok_or_else(|| Fault::Road(format!("{address}: no such place")))
}

/// A socket for what comes to an address. Before it was bound, one that somebody else has was refused: from here on
/// others may have its address.
fn for_strangers(own: SocketAddr) -> io::Result<UdpSocket> {
    let socket = UdpSocket::bind(own)?;
    SockRef::from(&socket).set_reuse_address(true)?;
    socket.set_nonblocking(true)?;
    Ok(socket)
}

/// A socket for what goes to and comes from a peer.
fn for_peer(own: SocketAddr, peer: SocketAddr) -> io::Result<UdpSocket> {
    let socket = Socket::new(Domain::for_address(own), Type::DGRAM, None)?;
    socket.set_reuse_address(true)?;
    socket.bind(&own.into())?;
    socket.connect(&peer.into())?;
    socket.set_nonblocking(true)?;
    Ok(socket.into())
}

impl Datagrams {
    /// The road of the process `me`.
    ///
    /// # Errors
    ///
    /// Where an address is none, or the own one can't be listened to.
    pub fn open(me: u8, addresses: &[String], keys: Option<Keys>, bell: Bell) -> Result<Self, Fault> {
        // SAFETY: it may be called at any time, from any thread, as often as one likes.
        if unsafe { sodium::sodium_init() } < 0 {
            return Err(Fault::Road("libsodium has no random bytes".to_string()));
        }
        let shared = |keys: Keys| keys.known.iter().map(|it| Shared::of(&keys.secret, it)).collect();
        let shared = keys.map(shared).transpose()?;
        let is_ipv6 = addresses.iter().any(|it| it.contains('['));
        let to: Vec<SocketAddr> = addresses.iter().map(|it| place_of(it, is_ipv6)).collect::<Result<_, _>>()?;
        let own = usize::from(me);
        let failed = |why: io::Error| Fault::Road(format!("{}: {why}", addresses[own]));
        let strangers = for_strangers(to[own]).map_err(failed)?;
        let peer = |(p, &place): (usize, &SocketAddr)| (p != own).then(|| for_peer(to[own], place)).transpose();
        let peers = to.iter().enumerate().map(peer).collect::<io::Result<_>>().map_err(failed)?;
        Ok(Self { me, strangers, peers, shared, bell })
    }

    /// The message of a datagram, with the process whose key opens it.
    fn opened(&self, datagram: &[u8]) -> Option<Message> {
        let Some(shared) = &self.shared else {
            return Some(Message { key: None, bytes: datagram.to_vec() });
        };
        let (&from, sealed) = datagram.split_first()?;
        let bytes = shared.get(usize::from(from)).filter(|_| from != self.me)?.opened(sealed)?;
        Some(Message { key: Some(from), bytes })
    }

    /// Opens some of what has come to a socket.
    fn take(&self, socket: &UdpSocket, most: usize, into: &mut Vec<Arrived>) {
        let mut room = [0; MOST_READ];
        for _ in 0..most {
            match socket.recv_from(&mut room) {
                Ok((length, place)) => into.push(self.opened(&room[..length]).ok_or_else(|| {
                    let text = format!("{}: a datagram that no known key opens; dropped", place.ip());
                    Complaint { kind: Kind::Key, text }
                })),
                Err(why) if why.kind() == io::ErrorKind::WouldBlock => break,
                // (what a datagram of this node met at a port where nobody is)
                Err(_) => {}
            }
        }
    }
}

impl Road for Datagrams {
    fn most_bytes(&self) -> usize {
        MOST_BYTES
    }

    fn send(&mut self, to: u8, message: &[u8]) {
        let to = usize::from(to);
        let Some(Some(peer)) = self.peers.get(to) else { return };
        let sealed = self.shared.as_ref().map(|it| [&[self.me], &it[to].sealed(message)[..]].concat());
        // (where there is no room, or nobody there, a tick puts it again)
        let _ = peer.send(sealed.as_deref().unwrap_or(message));
    }

    fn receive(&mut self, wait: Option<Duration>, into: &mut Vec<Arrived>) -> Result<bool, Fault> {
        let sockets: Vec<&UdpSocket> = self.peers.iter().flatten().chain([&self.strangers]).collect();
        let descriptors = sockets.iter().map(|it| it.as_raw_fd()).chain([self.bell.descriptor()]);
        let mut items: Vec<PollItem> = descriptors.map(|it| PollItem::from_fd(it, POLLIN)).collect();
        poll(&mut items, wait)?;
        // (what a datagram met at a port where nobody is would be heard again and again, if nobody took it)
        let has_come = |it: &PollItem| it.is_readable() || it.is_error();
        for (place, socket) in sockets.iter().enumerate().filter(|it| has_come(&items[it.0])) {
            self.take(socket, if place + 1 < sockets.len() { BATCH } else { FEW }, into);
        }
        Ok(items.last().is_some_and(PollItem::is_readable) && self.bell.rang())
    }
}

#[cfg(test)]
mod tests {
    use super::*;
    use std::os::unix::net::UnixStream;
    use std::time::Instant;

    fn pair() -> (Key, Key) {
        let pair = zmq::CurveKeyPair::new().expect("a pair of keys");
        (Key(pair.public_key), Key(pair.secret_key))
    }

    #[test]
    fn a_box_is_opened_by_its_two_processes_alone() {
        let ((a, secret_a), (b, secret_b), (_, stranger)) = (pair(), pair(), pair());
        let (from, to) = (Shared::of(&secret_a, &b).expect("keys"), Shared::of(&secret_b, &a).expect("keys"));
        let sealed = from.sealed(b"a message");
        assert_eq!(to.opened(&sealed).as_deref(), Some(b"a message".as_slice()));
        assert_eq!(Shared::of(&stranger, &a).expect("keys").opened(&sealed), None);
        for at in [0, NONCE, sealed.len() - 1] {
            let mut changed = sealed.clone();
            changed[at] ^= 1;
            assert_eq!(to.opened(&changed), None);
        }
        for length in [0, 1, NONCE, NONCE + SEAL - 1] {
            assert_eq!(to.opened(&sealed[..length]), None);
        }
    }

    /// An address of loopback that nobody has.
    fn free_address() -> String {
        let place = UdpSocket::bind("127.0.0.1:0").and_then(|it| it.local_addr()).expect("a port");
        format!("udp://{place}")
    }

    /// A road, with what keeps its bell still.
    fn road(me: u8, addresses: &[String]) -> (Datagrams, UnixStream) {
        let (bell, hand) = Bell::new().expect("a bell");
        (Datagrams::open(me, addresses, None, bell).expect("a road"), hand)
    }

    #[test]
    fn a_peer_that_is_gone_wakes_nobody_again_and_again() {
        let (mut here, _hand) = road(0, &[free_address(), free_address()]);
        here.send(1, &[7]);
        let mut came = Vec::new();
        // (the first time it hears that nobody is there)
        here.receive(Some(Duration::from_secs(1)), &mut came).expect("received");
        let (began, wait) = (Instant::now(), Duration::from_millis(200));
        here.receive(Some(wait), &mut came).expect("received");
        assert!(began.elapsed() >= wait);
        assert!(came.is_empty());
    }

    #[test]
    fn a_name_is_of_the_family_of_all_addresses() {
        for (is_ipv6, address) in [(false, "udp://127.0.0.1:5"), (true, "udp://[::1]:5")] {
            assert_eq!(place_of(address, is_ipv6).expect("a place").is_ipv6(), is_ipv6);
            assert!(place_of(address, !is_ipv6).is_err());
        }
        assert!(place_of("udp://localhost:5", false).expect("a place").is_ipv4());
    }

    #[test]
    fn what_a_stranger_sends_takes_no_room_of_a_peer() {
        let addresses = [free_address(), free_address()];
        let ((mut here, _hand), (mut there, _other)) = (road(0, &addresses), road(1, &addresses));
        let stranger = UdpSocket::bind("127.0.0.1:0").expect("a port");
        let place = place_of(&addresses[0], false).expect("a place");
        // (far more than the system keeps for one socket)
        for _ in 0..20_000 {
            stranger.send_to(&[7; MOST_BYTES], place).expect("sent");
        }
        (0..50).for_each(|number| there.send(0, &[number]));
        let mut came = Vec::new();
        for _ in 0..100 {
            here.receive(Some(Duration::ZERO), &mut came).expect("received");
        }
        let is_of_peer = |it: &&Arrived| it.as_ref().is_ok_and(|it| it.bytes.len() == 1);
        assert_eq!(came.iter().filter(is_of_peer).count(), 50);
    }
}
