//! One process a machine: a node carries the frames of a [`tellwydar::LoggedNode`] over ZeroMQ, and writes down the
//! bytes by which its log grows before its frames go out. What the logs of all nodes say is put into one order and
//! judged by the library ([`merge`]), whatever the network and the machines did.
//!
//! A [`Node`] is for one thread, as its process is: it does its work inside of [`Node::perform`] and [`Node::serve`].
//! Its configuration and its messages are those of the Python package `tellwydar.net`, so nodes of both are in one
//! cluster. The form of a message stands in `message.rs`, that of a log in docs/FORMATS.md of the repository.
//!
//! ```no_run
//! use tellwydar::{LocalRead, Op};
//! use tellwydar_node::{Config, Node, Options};
//!
//! let config: Config = std::fs::read_to_string("cluster.toml")?.parse()?;
//! let mut node = Node::<LocalRead>::open(&config, &Options::new(0, "0.log"))?;
//! let answer = node.perform(Op::Write { register: 0, value: 5 }, None)?;
//! # Ok::<(), Box<dyn std::error::Error>>(())
//! ```

mod calls;
mod config;
#[cfg(feature = "datagrams")]
mod datagrams;
mod disk;
mod fault;
mod keys;
mod log_file;
mod log_text;
mod lossy;
mod merge;
mod message;
mod node;
mod parcels;
mod port;
mod road;
mod script;
mod status;
mod story;
mod zeromq;

pub use config::{Config, Most, Options, Peer};
pub use fault::{Fault, say};
pub use keys::{Key, Keys, write_new_keys};
pub use lossy::Losses;
pub use merge::merge;
pub use node::Node;
pub use port::{Port, ask};
pub use script::Script;
pub use status::{PeerStatus, Status};
pub use tellwydar::FrontEnd;
