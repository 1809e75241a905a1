//! How a node is, for people and programs that watch over it.
use std::fmt::Write;
use std::time::Duration;
use tellwydar::FrontEnd;

/// What a node knows of another one.
#[derive(Clone, Copy, Debug, PartialEq, Eq)]
pub struct PeerStatus {
    pub process: u8,
    /// Whether it was heard in this run of its program and in this chapter.
    pub is_heard: bool,
    /// For how long nothing came from it; None where nothing came in this chapter.
    pub silent: Option<Duration>,
    /// How many bodies it hasn't acknowledged.
    pub unacknowledged: u64,
    /// Something waits for it, and it is silent for long.
    pub is_missing: bool,
}

/// How far a node has come, and what it knows of the others.
#[derive(Clone, Debug, PartialEq, Eq)]
pub struct Status {
    pub process: u8,
    pub front: FrontEnd,
    pub chapter: u64,
    /// How many operations its callers called, in earlier runs and chapters too.
    pub operations: u64,
    /// How many entries this chapter's log has.
    pub entries: u64,
    /// Whether an operation goes on.
    pub is_running: bool,
    pub peers: Vec<PeerStatus>,
}

impl PeerStatus {
    fn json(&self) -> String {
        let silent = self.silent.map_or("null".to_string(), |it| format!("{:.3}", it.as_secs_f64()));
        format!(
            "{{\"process\": {}, \"heard\": {}, \"silent\": {silent}, \"unacknowledged\": {}}}",
            self.process, self.is_heard, self.unacknowledged
        )
    }
}

impl Status {
    /// It as an object of JSON.
    pub fn json(&self) -> String {
        let peers: Vec<String> = self.peers.iter().map(PeerStatus::json).collect();
        format!(
            "{{\"process\": {}, \"front\": \"{}\", \"chapter\": {}, \"operations\": {}, \"entries\": {}, \
             \"running\": {}, \"peers\": [{}]}}",
            self.process,
            self.front,
            self.chapter,
            self.operations,
            self.entries,
            self.is_running,
            peers.join(", ")
        )
    }

    /// `ok`, or for which processes the node waits.
    pub fn health(&self) -> String {
        let is_waited_for = |it: &&PeerStatus| it.is_missing || !it.is_heard;
        let missing: Vec<String> = self.peers.iter().filter(is_waited_for).map(|it| it.process.to_string()).collect();
        if missing.is_empty() { "ok".to_string() } else { format!("waits for {}", missing.join(", ")) }
    }

    /// It in the text form of Prometheus, without the line feed behind its last line.
    pub fn metrics(&self) -> String {
        let mut text = String::new();
        for (name, kind, value) in [
            ("operations_total", "counter", self.operations),
            ("chapter", "gauge", self.chapter),
            ("entries", "gauge", self.entries),
            ("running", "gauge", self.is_running.into()),
        ] {
            // (a `String` takes all that is written)
            let _ = writeln!(text, "# TYPE tellwydar_{name} {kind}\ntellwydar_{name} {value}");
        }
        let silent = |it: &PeerStatus| it.silent.map_or("NaN".to_string(), |it| format!("{:.3}", it.as_secs_f64()));
        for (name, value) in [
            ("heard", &(|it: &PeerStatus| u8::from(it.is_heard).to_string()) as &dyn Fn(&PeerStatus) -> String),
            ("silent_seconds", &silent),
            ("unacknowledged", &|it| it.unacknowledged.to_string()),
        ] {
            let _ = writeln!(text, "# TYPE tellwydar_{name} gauge");
            for peer in &self.peers {
                let _ = writeln!(text, "tellwydar_{name}{{process=\"{}\"}} {}", peer.process, value(peer));
            }
        }
        text + "# EOF"
    }
}

#[cfg(test)]
mod tests {
    use super::*;

    fn status() -> Status {
        let here = PeerStatus {
            process: 1,
            is_heard: true,
            silent: Some(Duration::from_millis(12)),
            unacknowledged: 0,
            is_missing: false,
        };
        let gone = PeerStatus { process: 2, is_heard: false, silent: None, unacknowledged: 3, is_missing: true };
        Status {
            process: 0,
            front: FrontEnd::LocalRead,
            chapter: 4,
            operations: 70_000,
            entries: 90,
            is_running: true,
            peers: vec![here, gone],
        }
    }

    #[test]
    fn it_is_told_as_worked_by_hand() {
        let json = "{\"process\": 0, \"front\": \"local-read\", \"chapter\": 4, \"operations\": 70000, \
                    \"entries\": 90, \"running\": true, \"peers\": [\
                    {\"process\": 1, \"heard\": true, \"silent\": 0.012, \"unacknowledged\": 0}, \
                    {\"process\": 2, \"heard\": false, \"silent\": null, \"unacknowledged\": 3}]}";
        assert_eq!(status().json(), json);
        assert_eq!(status().health(), "waits for 2");
        let mut other = status();
        other.peers[1].is_missing = false;
        assert_eq!(other.health(), "waits for 2");
        other.peers.truncate(1);
        assert_eq!(other.health(), "ok");
        other.peers[0].is_missing = true;
        assert_eq!(other.health(), "waits for 1");
        let metrics = "\
# TYPE tellwydar_operations_total counter
tellwydar_operations_total 70000
# TYPE tellwydar_chapter gauge
tellwydar_chapter 4
# TYPE tellwydar_entries gauge
tellwydar_entries 90
# TYPE tellwydar_running gauge
tellwydar_running 1
# TYPE tellwydar_heard gauge
tellwydar_heard{process=\"1\"} 1
tellwydar_heard{process=\"2\"} 0
# TYPE tellwydar_silent_seconds gauge
tellwydar_silent_seconds{process=\"1\"} 0.012
tellwydar_silent_seconds{process=\"2\"} NaN
# TYPE tellwydar_unacknowledged gauge
tellwydar_unacknowledged{process=\"1\"} 0
tellwydar_unacknowledged{process=\"2\"} 3
# EOF";
        assert_eq!(status().metrics(), metrics);
    }
}
