//! Histories of any system, judged.
use crate::texts::judged;
use std::fmt::{self, Display, Formatter, Write};

/// A name or a value of a history. Two are the same if they are equal here: `Integer(1)` and `Text("1")` are two.
#[derive(Clone, Debug, PartialEq, Eq, Hash)]
pub enum Word {
    /// A value: what was never written. A key: a register too.
    Null,
    /// An integer of 64 bits, with a sign or without.
    Integer(i128),
    Text(String),
}

impl From<i32> for Word {
    fn from(value: i32) -> Self {
        Self::Integer(value.into())
    }
}

impl From<i64> for Word {
    fn from(value: i64) -> Self {
        Self::Integer(value.into())
    }
}

impl From<u64> for Word {
    fn from(value: u64) -> Self {
        Self::Integer(value.into())
    }
}

impl From<&str> for Word {
    fn from(value: &str) -> Self {
        Self::Text(value.to_owned())
    }
}

/// As JSON has it.
impl Display for Word {
    fn fmt(&self, f: &mut Formatter<'_>) -> fmt::Result {
        match self {
            Self::Null => f.write_str("null"),
            Self::Integer(value) => write!(f, "{value}"),
            Self::Text(text) => {
                f.write_char('"')?;
                for letter in text.chars() {
                    match letter {
                        '"' | '\\' => write!(f, "\\{letter}")?,
                        '\0'..='\x1f' => write!(f, "\\u{:04x}", u32::from(letter))?,
                        _ => f.write_char(letter)?,
                    }
                }
                f.write_char('"')
            }
        }
    }
}

/// What a client calls.
#[derive(Clone, Debug, PartialEq, Eq, Hash)]
pub enum Call {
    Read,
    Write {
        value: Word,
    },
    /// Writes, and answers what was there.
    Swap {
        value: Word,
    },
    /// Writes if the expected value is there, and answers whether it was.
    CompareAndSwap {
        expected: Word,
        value: Word,
    },
}

/// What a client is told of its call.
#[derive(Clone, Debug, PartialEq, Eq, Hash)]
pub enum End {
    /// It is done: of a read or a swap with this value, which is not looked at of others.
    Done { value: Word },
    /// It did not happen.
    Failed,
    /// Of a compare-and-swap: another value was there than the expected one.
    Unequal,
    /// Nobody knows: it may have taken effect, may do so later, or never.
    Unknown,
}

/// An event of a history: a client calls at a key, or is told the end of that call.
#[derive(Clone, Debug, PartialEq, Eq, Hash)]
pub struct Row {
    pub process: Word,
    pub key: Word,
    pub call: Call,
    /// None at the call itself.
    pub end: Option<End>,
}

impl Row {
    /// What is called, and whether it is called or how it ends, as JSON has the words; and the value that is said.
    fn words(&self) -> (&'static str, &'static str, String) {
        let (name, called) = match &self.call {
            Call::Read => ("read", "null".to_owned()),
            Call::Write { value } => ("write", value.to_string()),
            Call::Swap { value } => ("swap", value.to_string()),
            Call::CompareAndSwap { expected, value } => ("cas", format!("[{expected}, {value}]")),
        };
        match (&self.end, &self.call) {
            (None, _) => (name, "invoke", called),
            (Some(End::Done { value }), Call::Read | Call::Swap { .. }) => (name, "ok", value.to_string()),
            (Some(End::Done { .. }), _) => (name, "ok", called),
            (Some(End::Failed | End::Unequal), _) => (name, "fail", called),
            (Some(End::Unknown), _) => (name, "info", called),
        }
    }
}

/// As a line of JSON, with no line feed.
impl Display for Row {
    fn fmt(&self, f: &mut Formatter<'_>) -> fmt::Result {
        let (name, kind, value) = self.words();
        write!(
            f,
            r#"{{"process": {}, "type": "{kind}", "f": "{name}", "key": {}, "value": {value}"#,
            self.process, self.key
        )?;
        f.write_str(if self.end == Some(End::Unequal) { r#", "error": "unequal"}"# } else { "}" })
    }
}

/// What the judge says of a history.
#[derive(Clone, Debug, PartialEq, Eq)]
pub struct Judgement {
    /// Whether each operation gets a moment between its call and its answer, such that one
    /// memory answers all of them so.
    pub is_linearizable: bool,
    /// What `awshow judge` prints: a word, and lines that say more; or the report that was asked for.
    pub text: String,
}

/// How a history is to be judged.
#[derive(Clone, Debug, Default, PartialEq, Eq)]
pub struct Judging {
    /// The first value of registers, or none for the usual one: null if some answer is null or a
    /// compare-and-swap expects null, and else 0.
    pub first: Option<Word>,
    /// Whether the text of a linearizable history is a report with the points that were found,
    /// which `check` judges anew.
    pub report: bool,
}

/// Judges what a system answered its clients: lines of JSON, EDN as Jepsen writes it, or a report, whose registers
/// begin with 0, so that one with a first value is refused.
///
/// # Errors
///
/// The line of the refusal: it names the first line that is wrong, and what was wanted; or
/// says that memory was refused.
pub fn judge_with(history: &[u8], judging: &Judging) -> Result<Judgement, String> {
    let first = judging.first.as_ref().map(Word::to_string);
    let told = judged(history, first.as_deref(), judging.report);
    let text = |bytes: &[u8]| String::from_utf8_lossy(bytes).into_owned();
    let is_linearizable = told.status == 0;
    if told.line.is_empty() && (is_linearizable || told.answer.starts_with(b"no\n")) {
        return Ok(Judgement { is_linearizable, text: text(&told.answer) });
    }
    let line = text(told.line.trim_ascii_end());
    Err(if line.is_empty() { "refused: out of memory".to_owned() } else { line })
}

/// Judges what a system answered its clients: lines of JSON, EDN as Jepsen writes it, or a report.
///
/// # Errors
///
/// As of `judge_with`.
pub fn judge(history: &[u8]) -> Result<Judgement, String> {
    judge_with(history, &Judging::default())
}

/// The same, but the text of a linearizable history is a report with the points that were
/// found: `check` judges it anew.
///
/// # Errors
///
/// As of `judge`.
pub fn judge_report(history: &[u8]) -> Result<Judgement, String> {
    judge_with(history, &Judging { report: true, ..Judging::default() })
}

/// Judges rows, in the order in which they happened. They are written as lines of JSON.
///
/// # Errors
///
/// As of `judge`: the line has the number of the row, from 1.
pub fn judge_rows<'a>(rows: impl IntoIterator<Item = &'a Row>) -> Result<Judgement, String> {
    let lines: String = rows.into_iter().map(|row| format!("{row}\n")).collect();
    judge(lines.as_bytes())
}
