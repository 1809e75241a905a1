use super::*;
use crate::log_text::tests::{sealed, unsealed};
use std::fs;
use tellwydar::check;

/// What is done with these logs, each in a file named by its place.
fn stored<T>(test: &str, logs: &[Vec<u8>], act: impl FnOnce(&[PathBuf]) -> Result<T, Fault>) -> Result<T, String> {
    let room = std::env::temp_dir().join(format!("tellwydar-{test}-{}", std::process::id()));
    fs::create_dir_all(&room).expect("a folder");
    let paths: Vec<PathBuf> = (0..logs.len()).map(|at| room.join(format!("{at}.log"))).collect();
    for (path, log) in paths.iter().zip(logs) {
        fs::write(path, log).expect("a log");
    }
    let told = act(&paths).map_err(|why| why.to_string().replace(&format!("{}/", room.display()), ""));
    fs::remove_dir_all(&room).expect("a folder");
    told
}

/// The report of these logs, or why there is none.
fn merged(test: &str, logs: &[Vec<u8>], cut: bool) -> Result<Vec<u8>, String> {
    stored(test, logs, |paths| merge(paths, cut))
}

/// The record of these logs in the order that the library finds, or why there is none.
fn ordered(test: &str, logs: &[Vec<u8>]) -> Result<String, String> {
    stored(test, logs, |paths| record(paths, false)).map(|it| String::from_utf8_lossy(&it).into_owned())
}

/// A log whose lines have another text in place of this one.
fn relined(log: &[u8], from: &str, to: &str) -> Vec<u8> {
    sealed(&String::from_utf8_lossy(&unsealed(log).concat()).replace(from, to))
}

/// A log of two processes, with this head of its own.
fn log(own: &str, entries: &str) -> Vec<u8> {
    sealed(&format!(
        "tellwydar log 1\n{own}begun 12\ntellwydar record 1\nfront linear\nprocesses 2\nregisters x\n{entries}"
    ))
}

/// A write of the value 5 by the first of two processes, as worked by hand.
const CALL: &str = "0 call write x 5\n";
const ANSWERED: &str =
    "0 take 1 000a01020000000000000001\n0 take 1 001301010000000000000000020000000000000002 = done 0\n";
const CAST_TAKEN: &str = "1 take 0 001e010100000000000000000100000000000000010200000000000000000005\n";
const FIRST: &str = "cluster 7\nprocess 0\nchapter 0\n";
const SECOND: &str = "cluster 7\nprocess 1\nchapter 0\n";

fn logs() -> Vec<Vec<u8>> {
    vec![log(FIRST, &[CALL, ANSWERED].concat()), log(SECOND, CAST_TAKEN)]
}

#[test]
fn a_run_has_its_report() {
    assert!(logs()[0].starts_with(b"e009c6ff tellwydar log 1\n69771c8e cluster 7\n"));
    for logs in [logs(), logs().into_iter().rev().collect()] {
        let report = merged("report", &logs, false).expect("a report");
        assert_eq!(check(&report).answer, b"serial yes\npoints yes\n");
    }
}

#[test]
fn the_record_is_one_text() {
    let wanted = "tellwydar record 1\nfront linear\nprocesses 2\nregisters x\n0 call write x 5\n\
        1 take 0 001e010100000000000000000100000000000000010200000000000000000005\n\
        0 take 1 000a01020000000000000001\n0 take 1 001301010000000000000000020000000000000002 = done 0\n";
    assert_eq!(ordered("record", &logs()), Ok(wanted.to_string()));
}

#[test]
fn what_was_never_put_finds_no_place() {
    let told = merged("never", &[log(FIRST, ""), log(SECOND, CAST_TAKEN)], false);
    assert_eq!(told, Err("1.log: line 10: unfaithful".to_string()));
    // (what was never queued can't be counted)
    let told = merged("never", &[log(FIRST, ANSWERED), log(SECOND, CAST_TAKEN)], false);
    assert_eq!(told, Err("0.log: line 10: no step of its process".to_string()));
    // (reads are cast by linear alone)
    let cast = "1 take 0 001601010000000000000000010000000000000001010000\n";
    let read = |front: &str, call: &str| {
        let of = |own: &str, entry: &str| relined(&log(own, entry), "front linear", &format!("front {front}"));
        ordered("reads", &[of(FIRST, call), of(SECOND, cast)])
    };
    assert!(read("linear", "0 call read x\n").is_ok());
    let told = read("local-read", "0 call read x = value 0 0\n");
    assert_eq!(told, Err("1.log: line 10: unfaithful".to_string()));
}

#[test]
fn the_count_0_is_put_by_an_early_frame_alone() {
    let wrote = [CALL.replace('5', "0 = done 0"), CALL.replace('5', "0 = done 0")].concat();
    let early = "0 take 1 000a01020000000000000000\n";
    let cast = |number: u8, time: u8| {
        format!("1 take 0 001e01010000000000000{number:03}01000000000000{time:04}0200000000000000000000\n")
    };
    let ordered = |taken: &str| {
        let of = |own: &str, entries: &str| relined(&log(own, entries), "front linear", "front local-write");
        ordered("early", &[of(FIRST, &[&wrote, early].concat()), of(SECOND, taken)])
    };
    let order = ordered(&cast(1, 2)).expect("an order");
    assert!(order.ends_with(&[&wrote, &cast(1, 2), early].concat()), "{order}");
    assert_eq!(ordered(&cast(0, 1)), Err("0.log: line 12: unfaithful".to_string()));
}

#[test]
fn what_is_no_run_is_refused_at_its_line() {
    let first = log(FIRST, &[CALL, &ANSWERED.replace("done 0", "value 5 0")].concat());
    let told = merged("refused", &[first, log(SECOND, CAST_TAKEN)], false);
    assert_eq!(told, Err("0.log: line 12: no step of its process".to_string()));
    let second = log(SECOND, &CAST_TAKEN.replace("05\n", "06\n"));
    let told = merged("refused", &[logs().remove(0), second], false);
    // (the frame with the value 6 was never put, and so the answers to it weren't either)
    let lines = ["1.log: line 10: unfaithful".to_string(), "0.log: line 11: unfaithful".to_string()];
    assert!(lines.contains(&told.clone().expect_err("no run")), "{told:?}");
    let told = merged("refused", &[logs().remove(0), log(SECOND, CALL)], false);
    assert_eq!(told, Err("1.log: line 10: of another process".to_string()));
}

#[test]
fn what_is_in_no_run_is_cut_where_one_asks_for_that() {
    let logs = [log(FIRST, ""), log(SECOND, &[CAST_TAKEN, "1 call read x\n"].concat())];
    assert_eq!(merged("cut", &logs, false), Err("1.log: line 10: unfaithful".to_string()));
    let report = String::from_utf8(merged("cut", &logs, true).expect("a report")).expect("a text");
    assert!(report.contains("\nhistory 0\n"), "{report}");
    let logs = [log(FIRST, &[CALL, ANSWERED].concat()), log(SECOND, "1 call read x\n")];
    let report = String::from_utf8(merged("cut", &logs, true).expect("a report")).expect("a text");
    assert!(report.contains("\nhistory 2\n") && report.contains("write x 5"), "{report}");
}

#[test]
fn each_changed_bit_and_dropped_line_is_told_at_its_line() {
    let (good, second) = (logs().remove(0), logs().remove(1));
    let line_of = |at: usize| good[..at].iter().filter(|&&it| it == b'\n').count() + 1;
    let told = |log: Vec<u8>| merged("bits", &[log, second.clone()], false).expect_err("a changed log");
    for at in 0..good.len() - 1 {
        for bit in [1, 0x10, 0x80] {
            let mut changed = good.clone();
            changed[at] ^= bit;
            let told = told(changed);
            assert!(told.starts_with(&format!("0.log: line {}: ", line_of(at))), "{at}: {told}");
        }
    }
    let lines: Vec<&[u8]> = good.split_inclusive(|&it| it == b'\n').collect();
    for at in 0..lines.len() - 1 {
        let told = told([&lines[..at], &lines[at + 1..]].concat().concat());
        assert!(told.starts_with(&format!("0.log: line {}: ", at + 1)), "{at}: {told}");
    }
}

#[test]
fn what_a_crash_left_is_dropped() {
    let mut torn = logs();
    let length = torn[0].len();
    torn[0].truncate(length - 5);
    let report = merged("torn", &torn, false).expect("a report");
    assert_eq!(check(&report).answer, b"serial yes\npoints yes\n");
    torn[1].extend([0; 5000]);
    assert_eq!(merged("torn", &torn, false), Ok(report));
}

#[test]
fn logs_of_other_clusters_are_told() {
    let [first, second] = [0, 1].map(|at| logs().remove(at));
    let told = |logs: &[&Vec<u8>]| {
        merged("others", &logs.iter().map(|it| it.to_vec()).collect::<Vec<_>>(), false).expect_err("no cluster")
    };
    assert_eq!(told(&[]), "no log");
    assert_eq!(told(&[&first]), "no log of process 1");
    assert_eq!(told(&[&first, &second, &first]), "2.log and 0.log are both of process 0");
    for (mine, other_one) in [
        ("cluster 7", "cluster 8"),
        ("chapter 0", "chapter 1"),
        ("front linear", "front local-read"),
        ("processes 2", "processes 3"),
        ("registers x", "registers x y"),
    ] {
        let wanted = format!("1.log is of {other_one}, and 0.log of {mine}");
        assert_eq!(told(&[&first, &relined(&second, mine, other_one)]), wanted);
    }
}
