//! Front ends by their names, as texts, logs and configurations have them.
use std::fmt;
use std::str::FromStr;

/// How operations start, as a value: [`Linear`](crate::Linear), [`LocalRead`](crate::LocalRead) or
/// [`LocalWrite`](crate::LocalWrite).
#[derive(Clone, Copy, Debug, PartialEq, Eq, Hash)]
pub enum FrontEnd {
    Linear,
    LocalRead,
    LocalWrite,
}

impl FrontEnd {
    const ALL: [Self; 3] = [Self::Linear, Self::LocalRead, Self::LocalWrite];

    /// The front end of this number.
    pub fn of_number(number: u8) -> Option<Self> {
        Self::ALL.get(usize::from(number)).copied()
    }

    /// Its number in the library, and in messages of nodes.
    pub fn number(self) -> u8 {
        self as u8
    }

    /// Its name in texts.
    pub fn name(self) -> &'static str {
        match self {
            Self::Linear => "linear",
            Self::LocalRead => "local-read",
            Self::LocalWrite => "local-write",
        }
    }
}

impl fmt::Display for FrontEnd {
    fn fmt(&self, f: &mut fmt::Formatter<'_>) -> fmt::Result {
        f.write_str(self.name())
    }
}

/// A text that names no front end.
#[derive(Clone, Copy, Debug, PartialEq, Eq)]
pub struct NoFrontEnd;

impl FromStr for FrontEnd {
    type Err = NoFrontEnd;

    fn from_str(text: &str) -> Result<Self, NoFrontEnd> {
        Self::ALL.into_iter().find(|it| it.name() == text).ok_or(NoFrontEnd)
    }
}
