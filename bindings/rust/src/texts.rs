//! The commands of `awreg` over texts, and `verify`, `merge` and `judge` of `awshow`.
use crate::foreign::{self, Command, Lengths};

/// What a command told.
#[derive(Clone, Debug, PartialEq, Eq)]
pub struct Told {
    /// 0, or 1 where something was refused or judged no.
    pub status: u8,
    /// What the program writes to its standard output.
    pub answer: Vec<u8>,
    /// The line of a fault, which the program writes to its error stream.
    pub line: Vec<u8>,
}

/// Tells what a function tells that puts an answer and a line into two rooms, in rooms that are large enough.
fn told_by(room: usize, call: impl Fn(&mut [u8], &mut [u8], &mut Lengths) -> u8) -> Told {
    let mut answer = vec![0; room.max(1 << 12)];
    let mut line = vec![0; 256];
    loop {
        let mut lengths = Lengths::default();
        let status = call(&mut answer, &mut line, &mut lengths);
        if lengths.output <= answer.len() && lengths.errors <= line.len() {
            answer.truncate(lengths.output);
            line.truncate(lengths.errors);
            return Told { status, answer, line };
        }
        answer.resize(lengths.output.max(answer.len()), 0);
        line.resize(lengths.errors.max(line.len()), 0);
    }
}

fn tell(command: Command, text: &[u8]) -> Told {
    // SAFETY: each pointer and length are those of one slice, the rooms are apart, and no pointer is null.
    told_by(text.len(), |answer, line, lengths| unsafe {
        command(text.as_ptr(), text.len(), answer.as_mut_ptr(), answer.len(), line.as_mut_ptr(), line.len(), lengths)
    })
}

/// What the judge of histories tells of a text: with `report`, of a linearizable one its report. `first` is the first
/// value of registers, as JSON has it, or none for the usual one.
pub(crate) fn judged(history: &[u8], first: Option<&str>, report: bool) -> Told {
    let report = report.into();
    // SAFETY: as in `tell`.
    told_by(history.len(), |answer, line, lengths| unsafe {
        let (text, length) = (history.as_ptr(), history.len());
        let (room, size, errors, errors_size) = (answer.as_mut_ptr(), answer.len(), line.as_mut_ptr(), line.len());
        match first {
            None => foreign::tellwydar_judge(text, length, report, room, size, errors, errors_size, lengths),
            Some(first) => {
                let (first, first_length) = (first.as_ptr(), first.len());
                foreign::tellwydar_judge_from(
                    text,
                    length,
                    first,
                    first_length,
                    report,
                    room,
                    size,
                    errors,
                    errors_size,
                    lengths,
                )
            }
        }
    })
}

/// Runs a schedule: the answer is the report of its run.
pub fn replay(schedule: &[u8]) -> Told {
    tell(foreign::tellwydar_replay, schedule)
}

/// Judges a report: the answer is the verdicts on its order and, where it has points, on them.
pub fn check(report: &[u8]) -> Told {
    tell(foreign::tellwydar_check, report)
}

/// Plays a workload as the words of its seed say: the answer is the report of the play.
pub fn play(workload: &[u8]) -> Told {
    tell(foreign::tellwydar_play, workload)
}

/// Plays a workload fairly.
pub fn play_fair(workload: &[u8]) -> Told {
    tell(foreign::tellwydar_play_fair, workload)
}

/// Judges a record of processes that ran apart: the answer is the report of the run that it is.
pub fn verify(record: &[u8]) -> Told {
    tell(foreign::tellwydar_verify, record)
}

/// Judges the reports of chapters, one behind another: status 0 where they are one story, and else the answer names the
/// first report with which they go wrong, or the line says why they weren't judged.
pub fn story(reports: &[u8]) -> Told {
    tell(foreign::tellwydar_story, reports)
}

/// Puts the steps of a record into an order that is a run, those of each process in their own order: the answer is the
/// record in that order. Where there is none, the line names a step that is in none.
pub fn merge(record: &[u8]) -> Told {
    tell(foreign::tellwydar_merge, record)
}
