//! Calls as lines, of a script and of a program at a node's port, and what is answered.
//!
//! A line is either words, as `write x 5`, or an object in the words of a history (docs/JUDGE.md of the repository), so
//! that what went over a port can be judged: `{"f": "write", "key": "x", "value": 5}`.
use serde::Deserializer;
use serde::de::{MapAccess, Visitor};
use serde_json::from_str;
use serde_json::value::RawValue;
use std::fmt;
use tellwydar::{Answer, Op, Word};

/// So many brackets stand within one another at most, as in what the judge reads.
const DEEPEST: usize = 127;

/// How a call is spelled, and so the answer to it.
#[derive(Clone, Copy, Debug, PartialEq, Eq)]
pub enum Form {
    Words,
    Object,
}

/// How a call ended.
#[derive(Clone, Debug, PartialEq, Eq)]
pub enum End {
    Answered(Answer),
    /// It surely did nothing, and why.
    Refused(String),
    /// Nobody knows whether it takes effect, and why.
    Unknown(String),
}

impl Form {
    pub fn of(line: &str) -> Self {
        if line.starts_with('{') { Self::Object } else { Self::Words }
    }

    /// The call of a register of these names that a line is, or why it is none.
    pub fn call(self, line: &str, names: &[String]) -> Result<Op, String> {
        match self {
            Self::Words => of_words(line, names).ok_or("no call of a register of this cluster".to_string()),
            Self::Object => of_object(line, names),
        }
    }

    /// The line that tells how a call ended.
    pub fn answer(self, op: Op, names: &[String], end: &End) -> String {
        match (self, end) {
            (Self::Words, End::Answered(answer)) => answer_line(*answer),
            (Self::Words, End::Refused(why)) => self.refusal(why),
            (Self::Words, End::Unknown(why)) => format!("unknown: {why}"),
            (Self::Object, end) => told(op, names, end),
        }
    }

    /// The line that refuses one that is no call.
    pub fn refusal(self, why: &str) -> String {
        match self {
            Self::Words => format!("refused: {why}"),
            Self::Object => format!("{{\"type\": \"fail\", \"error\": {}}}", Word::from(why)),
        }
    }
}

/// An answer as words.
pub fn answer_line(answer: Answer) -> String {
    match answer {
        Answer::Done => "done".to_string(),
        Answer::Value(value) => format!("value {value}"),
        Answer::Unequal => "unequal".to_string(),
    }
}

fn register_of(name: &str, names: &[String]) -> Option<u16> {
    names.iter().position(|it| it == name).map(|it| it as u16)
}

fn of_words(line: &str, names: &[String]) -> Option<Op> {
    let words: Vec<&str> = line.split_whitespace().collect();
    let register = register_of(words.get(1)?, names)?;
    Some(match *words {
        ["read", _] => Op::Read { register },
        ["write", _, value] => Op::Write { register, value: value.parse().ok()? },
        ["swap", _, value] => Op::Swap { register, value: value.parse().ok()? },
        ["cas", _, expected, value] => {
            Op::CompareAndSwap { register, expected: expected.parse().ok()?, value: value.parse().ok()? }
        }
        _ => return None,
    })
}

fn of_object(line: &str, names: &[String]) -> Result<Op, String> {
    let members = Members::of(line).ok_or("wanted a JSON object")?;
    let [f, key, value] = [members.one("f")?, members.one("key")?, members.one("value")?];
    let f = text(f).unwrap_or_default();
    let wanted = wanted_of(&f).ok_or("wanted f, one of read, write, swap and cas")?;
    let register = text(key).and_then(|it| register_of(&it, names)).ok_or("wanted key, the name of a register")?;
    op_of(&f, register, value).ok_or_else(|| format!("wanted value, {wanted}"))
}

/// The members of an object in their order: how the name and the value of each are spelled.
struct Members<'a>(Vec<(&'a RawValue, &'a RawValue)>);

impl<'a> Members<'a> {
    /// The object that a line is.
    fn of(line: &'a str) -> Option<Self> {
        let mut reader = serde_json::Deserializer::from_str(line);
        let members = reader.deserialize_map(Self(Vec::new())).ok()?;
        (reader.end().is_ok() && depth(line) <= DEEPEST).then_some(members)
    }

    /// How those of this name are spelled.
    fn all(&self, name: &str) -> impl Iterator<Item = &'a str> {
        self.0.iter().filter(move |it| text(it.0.get()).is_some_and(|it| it == name)).map(|it| it.1.get())
    }

    /// How the member of this name is spelled, or null. One that stands twice is refused, since readers of JSON take it
    /// in several ways.
    fn one(&self, name: &str) -> Result<&'a str, String> {
        let mut found = self.all(name);
        let first = found.next().unwrap_or("null");
        if found.next().is_some() { Err(format!("wanted one {name}")) } else { Ok(first) }
    }
}

impl<'a> Visitor<'a> for Members<'a> {
    type Value = Self;

    fn expecting(&self, f: &mut fmt::Formatter<'_>) -> fmt::Result {
        f.write_str("an object")
    }

    fn visit_map<M: MapAccess<'a>>(mut self, mut map: M) -> Result<Self, M::Error> {
        while let Some(member) = map.next_entry()? {
            self.0.push(member);
        }
        Ok(self)
    }
}

/// How many brackets of a value stand within one another.
fn depth(line: &str) -> usize {
    let (mut open, mut most, mut is_string, mut bytes) = (0usize, 0, false, line.bytes());
    while let Some(it) = bytes.next() {
        match it {
            b'"' => is_string = !is_string,
            b'\\' if is_string => drop(bytes.next()),
            b'{' | b'[' if !is_string => open += 1,
            b'}' | b']' if !is_string => open -= 1,
            _ => {}
        }
        most = most.max(open);
    }
    most
}

/// The text that this spells, if it is one.
fn text(spelled: &str) -> Option<String> {
    from_str(spelled).ok()
}

/// Which value the operation of this name has.
fn wanted_of(f: &str) -> Option<&'static str> {
    match f {
        "read" => Some("null or nothing"),
        "write" | "swap" => Some("an integer from 0 to 18446744073709551615"),
        "cas" => Some("an array of two, each an integer from 0 to 18446744073709551615"),
        _ => None,
    }
}

fn op_of(f: &str, register: u16, value: &str) -> Option<Op> {
    Some(match f {
        "read" if value == "null" => Op::Read { register },
        "write" => Op::Write { register, value: from_str(value).ok()? },
        "swap" => Op::Swap { register, value: from_str(value).ok()? },
        "cas" => {
            let [expected, value] = from_str(value).ok()?;
            Op::CompareAndSwap { register, expected, value }
        }
        _ => return None,
    })
}

/// How a call ended, as an object.
fn told(op: Op, names: &[String], end: &End) -> String {
    let (f, register, given) = match op {
        Op::Read { register } => ("read", register, "null".to_string()),
        Op::Write { register, value } => ("write", register, value.to_string()),
        Op::Swap { register, value } => ("swap", register, value.to_string()),
        Op::CompareAndSwap { register, expected, value } => ("cas", register, format!("[{expected}, {value}]")),
    };
    let (kind, value, error) = match end {
        End::Answered(Answer::Done) => ("ok", given, None),
        End::Answered(Answer::Value(value)) => ("ok", value.to_string(), None),
        End::Answered(Answer::Unequal) => ("fail", given, Some("unequal")),
        End::Refused(why) => ("fail", given, Some(why.as_str())),
        End::Unknown(why) => ("info", given, Some(why.as_str())),
    };
    let name = &names[usize::from(register)];
    let error = error.map_or(String::new(), |it| format!(", \"error\": {}", Word::from(it)));
    format!("{{\"type\": \"{kind}\", \"f\": \"{f}\", \"key\": \"{name}\", \"value\": {value}{error}}}")
}

#[cfg(test)]
mod tests {
    use super::*;

    /// Whether an object can have this value; it has no other member then.
    fn is_value(value: &str) -> bool {
        let line = format!("{{\"it\": {value}}}");
        Members::of(&line).is_some_and(|it| it.0.len() == 1 && it.all("it").count() == 1)
    }

    fn write(value: &str) -> Result<Op, String> {
        Form::Object.call(&format!("{{\"f\": \"write\", \"key\": \"x\", \"value\": {value}}}"), &["x".to_string()])
    }

    #[test]
    fn values_are_read() {
        for (text, number) in [("0", 0), ("18446744073709551615", u64::MAX)] {
            assert_eq!(write(text), Ok(Op::Write { register: 0, value: number }), "{text}");
        }
        for text in [
            "null",
            "18446744073709551616",
            "-0",
            "1.0",
            "-1.5e+400",
            "false",
            "{}",
            "{\"a\": {\"b\" :[ ]} , \"a\":1}",
            "\"\"",
            "\"\\ud83d\\ude00\"",
            "[1, [\"x\"]\t,null]",
        ] {
            assert!(is_value(text), "{text}");
            assert_eq!(
                write(text),
                Err("wanted value, an integer from 0 to 18446744073709551615".to_string()),
                "{text}"
            );
        }
        assert_eq!(text("\"\\u0078\\n\\\"\\/ é\"").as_deref(), Some("x\n\"/ é"));
    }

    #[test]
    fn what_is_none_is_refused() {
        for text in [
            "",
            "NaN",
            "-Infinity",
            "True",
            "nul",
            "nulll",
            "01",
            "-",
            "+1",
            "1.",
            ".5",
            "1e",
            "1e+",
            "1.e5",
            "0x1",
            "1 2",
            "1,",
            "[",
            "]",
            "[1",
            "[1,]",
            "[,1]",
            "[1 2]",
            "{",
            "{1: 2}",
            "{\"a\"}",
            "{\"a\": 1,}",
            "{\"a\" 1}",
            "{a: 1}",
            "[1}",
            "\"",
            "'x'",
            "\"\\\"",
            "\"\\x\"",
            "\"\\u12\"",
            "\"\\u+041\"",
            "\"\t\"",
            "\u{a0}1",
            "1 // one",
        ] {
            assert!(!is_value(text), "{text}");
        }
    }

    #[test]
    fn what_is_no_object_is_refused() {
        for text in
            ["", "[]", "1", "{} {}", "{}x", "{", "\u{feff}{}", "{1: 2}", "{\"a\": 01}", "{\"a\": 1,}", "{'a': 1}"]
        {
            assert!(Members::of(text).is_none(), "{text}");
        }
        assert!(Members::of(" \t{ } \r\n").is_some_and(|it| it.0.is_empty()));
    }

    #[test]
    fn members_stay_as_often_as_they_stand() {
        let members = Members::of(" {\"a\": 1, \"b\": [null], \"a\": 18446744073709551615}\r\n").expect("an object");
        let of = |name| members.all(name).collect::<Vec<_>>();
        assert_eq!(of("a"), ["1", "18446744073709551615"]);
        assert_eq!((of("b"), members.one("a")), (vec!["[null]"], Err("wanted one a".to_string())));
        assert!(of("c").is_empty());
    }

    #[test]
    fn brackets_stand_within_one_another_up_to_the_depth_of_the_judge() {
        let nested = |count| format!("{{\"it\": {}{}}}", "[".repeat(count), "]".repeat(count));
        assert!(Members::of(&nested(126)).is_some());
        assert!(Members::of(&nested(127)).is_none());
    }

    #[test]
    fn brackets_stand_within_one_another_up_to_a_depth() {
        let nested = |count| format!("{}{}", "[".repeat(count), "]".repeat(count));
        assert!(is_value(&nested(126)) && !is_value(&nested(127)));
        assert!(!is_value(&"[".repeat(4000)));
        assert!(is_value(&format!("[{}[]]", "[],".repeat(500))));
        assert!(is_value(&format!("[\"{}\\\"\"]", "[".repeat(500))));
    }
}
