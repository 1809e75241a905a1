pub const MAX_PROCESSES: usize = 64;
pub const MAX_REGISTERS: usize = 4096;
pub const MAX_TIME: u64 = 1 << 48;
pub const MAX_NUMBER: u64 = (1 << 48) - 1;
pub const MAX_COUNT: u64 = 1 << 48;
pub const MAX_EVENTS: usize = 1_048_576;
pub const MAX_OPS: u32 = 65_535;
pub const RESEND: u64 = 16;
pub const MAX_INPUT: u64 = 268_435_456;

#[derive(Clone, Copy, PartialEq, Eq, Debug)]
pub struct Shape {
    pub processes: usize,
    pub registers: usize,
}

#[derive(Clone, Copy, PartialEq, Eq, PartialOrd, Ord, Debug)]
pub struct Stamp {
    pub time: u64,
    pub process: u8,
}

#[derive(Clone, Copy, PartialEq, Eq, Debug)]
pub enum Op {
    Read { register: u16 },
    Write { register: u16, value: u64 },
    Swap { register: u16, value: u64 },
    CompareAndSwap { register: u16, expected: u64, value: u64 },
}

impl Op {
    pub fn register(&self) -> u16 {
        match *self {
            Op::Read { register }
            | Op::Write { register, .. }
            | Op::Swap { register, .. }
            | Op::CompareAndSwap { register, .. } => register,
        }
    }
    /// Whether it may change the registers.
    pub fn updates(&self) -> bool {
        !matches!(self, Op::Read { .. })
    }
    pub fn can_answer(&self, answer: Answer) -> bool {
        match self {
            Op::Read { .. } | Op::Swap { .. } => matches!(answer, Answer::Value(_)),
            Op::Write { .. } => answer == Answer::Done,
            Op::CompareAndSwap { .. } => matches!(answer, Answer::Done | Answer::Unequal),
        }
    }
}

#[derive(Clone, Copy, PartialEq, Eq, Debug)]
pub enum Answer {
    Done,
    Value(u64),
    /// Of a compare-and-swap that found another value, and changed nothing.
    Unequal,
}

#[derive(Clone, Copy, PartialEq, Eq, PartialOrd, Ord, Debug)]
pub struct OpId {
    pub process: u8,
    pub number: u32,
}

#[inline]
pub fn apply(registers: &mut [u64], op: &Op) -> Answer {
    let held = &mut registers[op.register() as usize];
    match *op {
        Op::Read { .. } => Answer::Value(*held),
        Op::Swap { value, .. } => Answer::Value(std::mem::replace(held, value)),
        Op::CompareAndSwap { expected, .. } if *held != expected => Answer::Unequal,
        Op::Write { value, .. } | Op::CompareAndSwap { value, .. } => {
            *held = value;
            Answer::Done
        }
    }
}

#[derive(Clone, Copy, PartialEq, Eq, Debug)]
pub enum Front {
    Linear,
    LocalRead,
    LocalWrite,
}

#[derive(Clone, Copy, PartialEq, Eq, Debug)]
pub enum Start {
    Cast,
    CastAndAnswer,
    Look,
    Hold,
}

impl Front {
    pub fn from_name(name: &[u8]) -> Option<Front> {
        match name {
            b"linear" => Some(Front::Linear),
            b"local-read" => Some(Front::LocalRead),
            b"local-write" => Some(Front::LocalWrite),
            _ => None,
        }
    }
    pub fn name(self) -> &'static str {
        match self {
            Front::Linear => "linear",
            Front::LocalRead => "local-read",
            Front::LocalWrite => "local-write",
        }
    }
    #[inline]
    pub fn start(self, op: &Op, unsettled: u32) -> Start {
        match (self, op) {
            (Front::LocalWrite, Op::Write { .. }) => Start::CastAndAnswer,
            (Front::LocalRead | Front::LocalWrite, Op::Read { .. }) if unsettled == 0 => Start::Look,
            (Front::LocalRead | Front::LocalWrite, Op::Read { .. }) => Start::Hold,
            _ => Start::Cast,
        }
    }
}

/// Register names: kept in order, and found by a packed key.
#[derive(Clone, Debug, Default)]
pub struct Names {
    names: Vec<String>,
    keys: Vec<(u128, u16)>,
}

#[derive(Clone, Copy, PartialEq, Eq, Debug)]
pub enum NamesFault {
    NoName,
    TooManyNames,
    BadName(usize),
    SameName(usize),
}

fn key(name: &[u8]) -> Option<u128> {
    if name.is_empty() || name.len() > 16 {
        return None;
    }
    let mut k = 0u128;
    for &b in name {
        if !b.is_ascii_lowercase() {
            return None;
        }
        k = k << 8 | b as u128;
    }
    Some(k)
}

impl Names {
    pub fn new(names: Vec<String>) -> Result<Names, NamesFault> {
        if names.is_empty() {
            return Err(NamesFault::NoName);
        }
        if names.len() > MAX_REGISTERS {
            return Err(NamesFault::TooManyNames);
        }
        if let Some(i) = names.iter().position(|n| key(n.as_bytes()).is_none()) {
            return Err(NamesFault::BadName(i));
        }
        let mut all = Names::default();
        for (i, n) in names.into_iter().enumerate() {
            if !all.add(n.as_bytes()) {
                return Err(NamesFault::SameName(i));
            }
        }
        Ok(all)
    }
    /// Adds one name; false where it is misspelt or stands already.
    pub fn add(&mut self, name: &[u8]) -> bool {
        let Some(k) = key(name) else { return false };
        match self.keys.binary_search_by_key(&k, |e| e.0) {
            Ok(_) => false,
            Err(at) => {
                self.keys.insert(at, (k, self.names.len() as u16));
                self.names.push(String::from_utf8(name.to_vec()).unwrap());
                true
            }
        }
    }
    pub fn count(&self) -> usize {
        self.names.len()
    }
    pub fn name(&self, i: u16) -> &str {
        &self.names[i as usize]
    }
    #[inline]
    pub fn number(&self, name: &[u8]) -> Option<u16> {
        let k = key(name)?;
        self.keys.binary_search_by_key(&k, |e| e.0).ok().map(|i| self.keys[i].1)
    }
}
