//! The configuration of a cluster, which is the same on all machines, and how one of its nodes starts.
use crate::fault::Fault;
use crate::keys::Key;
use crate::lossy::Losses;
use std::collections::HashSet;
use std::path::PathBuf;
use std::str::FromStr;
use std::time::Duration;
use tellwydar::{FrontEnd, NoRoom, Room};
use toml::Value;

const MOST_PROCESSES: usize = 64;
const MOST_REGISTERS: usize = 4096;

/// A process: where it is heard, and its public key.
#[derive(Clone, Debug, PartialEq, Eq)]
pub struct Peer {
    /// `tcp://HOST:PORT`, or `udp://HOST:PORT` at all.
    pub address: String,
    /// Of all processes or of none.
    pub key: Option<Key>,
}

/// What ends a chapter: so many operations of a process, or so many entries of all logs together.
#[derive(Clone, Copy, Debug, PartialEq, Eq)]
pub struct Most {
    pub operations: u32,
    pub entries: u32,
}

/// What all nodes of a cluster know. It is parsed from the text of `cluster.toml`.
#[derive(Clone, Debug, PartialEq, Eq)]
pub struct Config {
    /// The same at all nodes of a cluster, and at no other cluster's: 1 to 2^63 - 1.
    pub cluster: u64,
    pub front: FrontEnd,
    pub registers: Vec<String>,
    /// Whether each entry is on the disk before its frames go out.
    pub sync: bool,
    /// How often links are looked at; about the time of a round trip.
    pub look: Duration,
    pub most: Most,
    /// The processes, from 0.
    pub nodes: Vec<Peer>,
}

/// Which process a node is, and how it starts.
#[derive(Clone, Debug)]
pub struct Options {
    pub me: u8,
    /// A new file, or with `resume` the log of this process, which goes on.
    pub log: PathBuf,
    pub resume: bool,
    /// Where the configuration has keys, the secret one of this process.
    pub secret: Option<Key>,
    /// Each entry is on the disk before its frames go out, also where the configuration doesn't say so.
    pub sync: bool,
    /// For tests: what happens to messages.
    pub losses: Option<Losses>,
}

impl Options {
    /// A new log, and no more.
    pub fn new(me: u8, log: impl Into<PathBuf>) -> Self {
        Self { me, log: log.into(), resume: false, secret: None, sync: false, losses: None }
    }
}

/// What `of` makes of the value of this name, if there is one; `what` says what it should be.
fn given<'a, T>(
    table: &'a Value,
    name: &str,
    what: &str,
    of: impl Fn(&'a Value) -> Option<T>,
) -> Result<Option<T>, Fault> {
    let wrong = || Fault::Config(format!("{name} should be {what}"));
    table.get(name).map(|it| of(it).ok_or_else(wrong)).transpose()
}

/// The same, of a value that has to be there.
fn needed<'a, T>(table: &'a Value, name: &str, what: &str, of: impl Fn(&'a Value) -> Option<T>) -> Result<T, Fault> {
    given(table, name, what, of)?.ok_or_else(|| Fault::Config(format!("{name} is missing")))
}

fn number(it: &Value) -> Option<u32> {
    it.as_integer().and_then(|it| it.try_into().ok())
}

fn cluster(it: &Value) -> Option<u64> {
    it.as_integer().and_then(|it| it.try_into().ok()).filter(|&it| it > 0)
}

fn milliseconds(it: &Value) -> Option<Duration> {
    let time = it.as_float().or_else(|| number(it).map(f64::from))?;
    (0.1..=60_000.0).contains(&time).then(|| Duration::from_secs_f64(time / 1000.0))
}

/// Whether a log can have a register of this name.
fn is_name(text: &str) -> bool {
    (1..=16).contains(&text.len()) && text.bytes().all(|it| it.is_ascii_lowercase())
}

fn names(it: &Value) -> Option<Vec<String>> {
    let names: Vec<String> = it.as_array()?.iter().map(|it| it.as_str().map(str::to_string)).collect::<Option<_>>()?;
    let different: HashSet<&String> = names.iter().filter(|it| is_name(it)).collect();
    ((1..=MOST_REGISTERS).contains(&names.len()) && different.len() == names.len()).then_some(names)
}

fn peer(table: &Value) -> Result<Peer, Fault> {
    let address = needed(table, "address", "a text", Value::as_str)?.to_string();
    let key = given(table, "key", "a key of 40 characters", |it| it.as_str()?.parse().ok())?;
    Ok(Peer { address, key })
}

impl FromStr for Config {
    type Err = Fault;

    fn from_str(text: &str) -> Result<Self, Fault> {
        let table: Value = text.parse().map_err(|why: toml::de::Error| Fault::Config(why.to_string()))?;
        let nodes: Vec<Peer> =
            needed(&table, "node", "a list of tables", Value::as_array)?.iter().map(peer).collect::<Result<_, _>>()?;
        if nodes.is_empty() || nodes.len() > MOST_PROCESSES {
            return Err(Fault::Config(format!("there are 1 to {MOST_PROCESSES} nodes")));
        }
        if nodes.iter().any(|it| it.key.is_some() != nodes[0].key.is_some()) {
            return Err(Fault::Config("a key is of all nodes or of none".to_string()));
        }
        let front = needed(&table, "front", "linear, local-read or local-write", |it| it.as_str()?.parse().ok())?;
        let registers = needed(&table, "registers", "different names of 1 to 16 letters from a to z", names)?;
        let look = given(&table, "look_ms", "a number of milliseconds from 0.1 to 60000", milliseconds)?;
        let operations = given(&table, "chapter_operations", "a number", number)?;
        let entries = given(&table, "chapter_entries", "a number", number)?;
        let room = room(nodes.len(), registers.len(), operations, entries)?;
        Ok(Self {
            front,
            sync: given(&table, "sync", "true or false", Value::as_bool)?.unwrap_or(false),
            look: look.unwrap_or(Duration::from_millis(10)),
            most: Most { operations: room.operations as u32, entries: room.total as u32 },
            cluster: needed(&table, "cluster", "a number from 1 to 2^63 - 1", cluster)?,
            registers,
            nodes,
        })
    }
}

impl Config {
    /// What a node has of a chapter.
    pub(crate) fn room(&self) -> Result<Room, Fault> {
        room(self.nodes.len(), self.registers.len(), Some(self.most.operations), Some(self.most.entries))
    }
}

/// The room in chapters of so many processes and registers that end at these numbers, or else as usual.
fn room(processes: usize, registers: usize, operations: Option<u32>, entries: Option<u32>) -> Result<Room, Fault> {
    let of = format!("with {processes} processes and {registers} registers");
    let room = tellwydar::room(processes as u32, registers as u32, operations.map(u64::from), entries.map(u64::from));
    room.map_err(|why| {
        Fault::Config(match (why, operations, entries) {
            (NoRoom::NoBeginning { least, most }, ..) => {
                format!("{of} a chapter needs {least} entries to begin, and has {most}")
            }
            (NoRoom::BadOperations { least, most }, Some(operations), _) => {
                format!("chapter_operations is {operations}; with {registers} registers it can be {least} to {most}")
            }
            (NoRoom::BadEntries { least, most }, _, Some(entries)) => {
                format!("chapter_entries is {entries}; {of} it can be {least} to {most}")
            }
            _ => format!("{of} there is no cluster"),
        })
    })
}

#[cfg(test)]
mod tests {
    use super::*;

    const NODES: &str = "[[node]]\naddress = \"tcp://127.0.0.1:7101\"\n[[node]]\naddress = \"tcp://127.0.0.1:7102\"\n";

    #[test]
    fn the_rest_is_as_the_python_package_has_it() {
        let text = format!("cluster = 7\nfront = \"linear\"\nregisters = [\"x\", \"y\"]\n{NODES}");
        let config: Config = text.parse().expect("a configuration");
        assert_eq!(
            (config.cluster, config.front, config.registers, config.sync),
            (7, FrontEnd::Linear, vec!["x".to_string(), "y".to_string()], false)
        );
        assert_eq!(
            (config.look, config.most),
            (Duration::from_millis(10), Most { operations: 65_000, entries: 786_432 })
        );
        assert_eq!(config.nodes[1], Peer { address: "tcp://127.0.0.1:7102".to_string(), key: None });
    }

    #[test]
    fn what_is_wrong_is_told() {
        let refused = |text: &str| text.parse::<Config>().expect_err("no configuration").to_string();
        assert_eq!(refused(&format!("registers = [\"x\"]\n{NODES}")), "front is missing");
        assert_eq!(refused(&format!("front = \"linear\"\nregisters = [\"x\"]\n{NODES}")), "cluster is missing");
        for cluster in ["0", "-1", "9223372036854775808", "\"7\"", "7.0"] {
            let told = refused(&format!("cluster = {cluster}\nfront = \"linear\"\nregisters = [\"x\"]\n{NODES}"));
            assert!(told.starts_with("cluster should be") || cluster.len() > 18, "{told}");
        }
        assert_eq!(refused(&format!("front = \"linear\"\n{NODES}")), "registers is missing");
        assert_eq!(refused("front = \"linear\"\nregisters = [\"x\"]\n"), "node is missing");
        assert!(refused(&format!("front = \"other\"\n{NODES}")).starts_with("front should be linear"));
        assert!(
            refused(&format!("front = \"linear\"\nregisters = [\"x\", \"x\"]\n{NODES}"))
                .starts_with("registers should be")
        );
        assert!(
            refused(&format!("front = \"linear\"\nregisters = [\"X\"]\n{NODES}")).starts_with("registers should be")
        );
        assert!(
            refused(&format!("front = \"linear\"\nregisters = [\"x\"]\nlook_ms = -1.0\n{NODES}"))
                .starts_with("look_ms should be")
        );
        assert!(
            refused(&format!("front = \"linear\"\nregisters = [\"x\"]\nchapter_operations = 1\n{NODES}"))
                .starts_with("chapter_operations is 1; with 1 registers")
        );
        let key = "key = \"Yne@$w-vo<fVvi]a<NY6T1ed:M$fCG*[IaLV{hID\"\n";
        assert!(
            refused(&format!("front = \"linear\"\nregisters = [\"x\"]\n{NODES}{key}")).starts_with("a key is of all")
        );
    }

    /// The room, or why there is none.
    fn room_of(processes: usize, registers: usize, most: [Option<u32>; 2]) -> Result<Room, String> {
        room(processes, registers, most[0], most[1]).map_err(|why| why.to_string())
    }

    #[test]
    fn rooms_are_as_worked_by_hand() {
        let usual = |processes, registers| room_of(processes, registers, [None, None]);
        let total = 786_432;
        // 13 entries an operation, so 39 for one of each process; 262,144 / 39 = 6,721
        assert_eq!(usual(3, 2), Ok(Room { operations: 65_000, total, entries: 262_144, ahead: 6_721 }));
        assert_eq!(usual(1, 1), Ok(Room { operations: 65_000, total, entries: 786_432, ahead: 262_144 }));
        // 8,065 entries an operation, and 516,160 for one of each process
        assert_eq!(usual(64, 2), Ok(Room { operations: 65_000, total: 532_416, entries: 8_319, ahead: 1 }));
        let begin = "with 64 processes and 66 registers a chapter needs 540355 entries to begin, and has 532416";
        assert_eq!(usual(64, 66), Err(begin.to_string()));
        for (entries, is_room) in [(38, false), (39, true), (1_048_537, true), (1_048_538, false)] {
            let told =
                format!("chapter_entries is {entries}; with 3 processes and 2 registers it can be 39 to 1048537");
            assert_eq!(room_of(3, 2, [None, Some(entries)]).err(), (!is_room).then_some(told));
        }
        for (operations, is_room) in [(2, false), (3, true), (65_535, true), (65_536, false)] {
            let told = format!("chapter_operations is {operations}; with 2 registers it can be 3 to 65535");
            assert_eq!(room_of(3, 2, [Some(operations), None]).err(), (!is_room).then_some(told));
        }
    }
}
