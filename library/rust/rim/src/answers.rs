//! What calls answer, as values.

use std::fmt;

use crate::Error;

/// A Realm Initial Measurement, by the realm's hash algorithm.
#[derive(Debug, Clone, Copy, PartialEq, Eq, Hash)]
pub enum Rim {
    Sha256([u8; 32]),
    Sha512([u8; 64]),
}

impl Rim {
    /// `sha256` or `sha512`.
    pub fn algorithm(&self) -> &'static str {
        match self {
            Rim::Sha256(_) => "sha256",
            Rim::Sha512(_) => "sha512",
        }
    }

    /// Its 32 or 64 bytes.
    pub fn bytes(&self) -> &[u8] {
        match self {
            Rim::Sha256(bytes) => bytes,
            Rim::Sha512(bytes) => bytes,
        }
    }

    /// That of an algorithm's name and of hexadecimal digits.
    fn of(algorithm: &str, digits: &str) -> Option<Rim> {
        let byte = |at: usize| u8::from_str_radix(digits.get(at..at + 2)?, 16).ok();
        let bytes = (0..digits.len()).step_by(2).map(byte).collect::<Option<Vec<u8>>>()?;
        match algorithm {
            "sha256" => bytes.try_into().ok().map(Rim::Sha256),
            "sha512" => bytes.try_into().ok().map(Rim::Sha512),
            _ => None,
        }
    }
}

impl fmt::Display for Rim {
    /// The algorithm, a space, and the digits: as a line of a report has them after the name.
    fn fmt(&self, out: &mut fmt::Formatter) -> fmt::Result {
        write!(out, "{} ", self.algorithm())?;
        self.bytes().iter().try_for_each(|byte| write!(out, "{:02x}", byte))
    }
}

/// A launch of a report: its measurement, or why it is refused.
#[derive(Debug, Clone, PartialEq, Eq)]
pub struct Launch {
    pub name: String,
    pub rim: Result<Rim, Error>,
}

impl Launch {
    /// The launch of a line of a report.
    pub(crate) fn of_line(line: &str) -> Option<Launch> {
        let mut words = line.split(' ');
        let (name, word, rest) = (words.next()?, words.next()?, words.next()?);
        let rim = if word == "refused" { Err(Error::of_word(rest)?) } else { Ok(Rim::of(word, rest)?) };
        Some(Launch { name: name.into(), rim })
    }
}

/// The launch of a name.
fn found<'a>(launches: &'a [Launch], name: &str) -> Result<&'a Launch, Error> {
    launches.iter().find(|each| each.name == name).ok_or(Error::NoSuchLaunch)
}

/// The report of all launches of a manifest, in its order.
#[derive(Debug, Clone, PartialEq, Eq)]
pub struct Report {
    /// As `rim measure` prints it.
    pub text: String,
    pub launches: Vec<Launch>,
    /// How many different pages of 4096 bytes are hashed.
    pub pages: u64,
}

impl Report {
    pub(crate) fn of(text: String) -> Option<Report> {
        let mut lines = text.lines().skip(1).collect::<Vec<_>>();
        let pages = lines.pop()?.strip_prefix("pages ")?.parse().ok()?;
        let launches = lines.into_iter().map(Launch::of_line).collect::<Option<_>>()?;
        Some(Report { text, launches, pages })
    }

    /// The launch of a name; `Error::NoSuchLaunch` where there is none.
    pub fn launch(&self, name: &str) -> Result<&Launch, Error> {
        found(&self.launches, name)
    }

    /// The measurement of the launch of a name. It is an error that there is none, or that it is refused.
    pub fn rim(&self, name: &str) -> Result<Rim, Error> {
        self.launch(name)?.rim
    }
}

/// What the monitor holds after each launch's own commands.
#[derive(Debug, Clone, PartialEq, Eq)]
pub struct Audit {
    /// As `rim audit` prints it.
    pub text: String,
    pub launches: Vec<Launch>,
}

impl Audit {
    pub(crate) fn of(text: String) -> Option<Audit> {
        let launches = text.lines().skip(1).map(Launch::of_line).collect::<Option<_>>()?;
        Some(Audit { text, launches })
    }

    /// The launch of a name; `Error::NoSuchLaunch` where there is none.
    pub fn launch(&self, name: &str) -> Result<&Launch, Error> {
        found(&self.launches, name)
    }
}

/// What `rim check` says of a manifest, its files and its launches.
#[derive(Debug, Clone, PartialEq, Eq)]
pub struct Check {
    /// What is wrong, and what is rarely meant: lines, or JSON.
    pub text: String,
    pub found: Found,
}

/// What is wrong.
#[derive(Debug, Clone, Copy, PartialEq, Eq)]
pub enum Found {
    Nothing,
    /// A launch is refused.
    Refused,
    /// A report cannot be made.
    Faulty,
}

/// Where everything of a launch lies, and what is measured: lines, or JSON. It goes as far as it can where the launch is refused.
#[derive(Debug, Clone, PartialEq, Eq)]
pub struct Map {
    pub text: String,
    pub is_refused: bool,
}

/// Whether a listing is what it says: `text` is `yes`, or `no` and why, and a newline.
#[derive(Debug, Clone, PartialEq, Eq)]
pub struct Replay {
    pub text: String,
    pub is_right: bool,
}
