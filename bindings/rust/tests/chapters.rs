//! What nodes tell of themselves in a chapter, and its room.
use tellwydar::{FrontEnd, LogHead, LoggedNode, NoRoom, Refused, Room, room};

/// The bytes of a state, by hand.
fn state(is_quiet: bool, is_at_rest: bool, put: u64, accepted: &[u64]) -> Vec<u8> {
    let numbers = std::iter::once(&put).chain(accepted).flat_map(|it| it.to_be_bytes());
    std::iter::once(u8::from(is_quiet) + 2 * u8::from(is_at_rest)).chain(numbers).collect()
}

fn node(processes: u8) -> LoggedNode {
    let (names, front) = (vec!["x".to_string()], FrontEnd::Linear);
    let head = LogHead { cluster: 7, chapter: 0, begun: 12, front, processes, process: 0, names };
    LoggedNode::open(&LoggedNode::begin(&head).expect("a log"), 0).expect("a node")
}

/// Whether a chapter of these processes is over, by the states that they told one after the other.
fn is_over(told: &[(u8, &[u8])]) -> bool {
    let mut node = node(2);
    for (sender, bytes) in told {
        node.hear_state(*sender, bytes).expect("a state");
    }
    node.is_over()
}

#[test]
fn states_are_read_as_they_were_told() {
    let mut node = node(3);
    assert_eq!(node.tell_state(false), Ok(&state(false, true, 0, &[0, 0, 0])[..]));
    assert_eq!(node.tell_state(true), Ok(&state(true, true, 0, &[0, 0, 0])[..]));
    for told in [state(true, false, 1 << 48, &[0, 7, 1 << 40]), state(false, true, 0, &[1, 2, 3])] {
        assert_eq!(node.hear_state(1, &told), Ok(()));
        let flags = [&[4], &told[1..]].concat();
        for bad in [&told[..told.len() - 8], &told[..told.len() - 1], &flags[..], &[]] {
            assert_eq!(node.hear_state(1, bad), Err(Refused::NoState));
        }
    }
    assert_eq!(node.hear_state(3, &state(true, true, 0, &[0, 0, 0])), Err(Refused::NoProcess));
}

#[test]
fn a_chapter_is_over_only_where_each_number_is_read_as_it_was_told() {
    let numbers = [[0, 7, (1 << 40) + 1], [1 << 48, 0, (1 << 40) + 1], [1 << 48, 7, 0]];
    let put = [1 << 48, 7, (1 << 40) + 1];
    let is_over = |numbers: [[u64; 3]; 3], put: [u64; 3]| {
        let mut node = node(3);
        for process in 0..3 {
            let told = state(true, true, put[process], &numbers[process]);
            node.hear_state(process as u8, &told).expect("a state");
        }
        node.is_over()
    };
    assert!(is_over(numbers, put));
    for (process, of) in [(0, 1), (0, 2), (1, 0), (1, 2), (2, 0), (2, 1)] {
        for other in [0, 1, numbers[process][of] + 1, numbers[process][of].swap_bytes()] {
            let mut changed = numbers;
            changed[process][of] = other;
            assert!(!is_over(changed, put), "{changed:?}");
        }
    }
    for process in 0..3 {
        let mut changed = put;
        changed[process] += 1;
        assert!(!is_over(numbers, changed), "{changed:?}");
    }
}

#[test]
fn a_later_state_counts() {
    let (last, other) = (state(true, true, 1, &[0, 1]), state(true, true, 1, &[1, 0]));
    for earlier in [state(false, true, 0, &[0, 0]), state(false, false, 1, &[0, 0]), state(true, false, 1, &[0, 1])] {
        assert!(is_over(&[(1, &other), (0, &earlier), (0, &last)]));
        assert!(is_over(&[(1, &other), (0, &last), (0, &earlier)]));
    }
}

#[test]
fn a_chapter_is_over_where_all_is_accepted() {
    let (first, second) = (state(true, true, 2, &[0, 1]), state(true, true, 1, &[2, 0]));
    // (as the Python package tells it)
    assert_eq!(first, [3, 0, 0, 0, 0, 0, 0, 0, 2, 0, 0, 0, 0, 0, 0, 0, 0, 0, 0, 0, 0, 0, 0, 0, 1]);
    assert!(is_over(&[(0, &first), (1, &second)]));
    assert!(!is_over(&[(0, &first)]));
    for other in [
        state(false, true, 1, &[2, 0]),
        state(true, false, 1, &[2, 0]),
        state(true, true, 1, &[1, 0]),
        state(true, true, 2, &[2, 0]),
    ] {
        assert!(!is_over(&[(0, &first), (1, &other)]));
    }
}

#[test]
fn rooms_are_as_worked_by_hand() {
    let usual = Room { operations: 65_000, total: 786_432, entries: 262_144, ahead: 6_721 };
    assert_eq!(room(3, 2, None, None), Ok(usual));
    assert_eq!(room(64, 66, None, None), Err(NoRoom::NoBeginning { least: 540_355, most: 532_416 }));
    assert_eq!(room(3, 2, Some(2), None), Err(NoRoom::BadOperations { least: 3, most: 65_535 }));
    assert_eq!(room(3, 2, None, Some(38)), Err(NoRoom::BadEntries { least: 39, most: 1_048_537 }));
    assert_eq!(room(65, 2, None, None), Err(NoRoom::NoShape));
}
