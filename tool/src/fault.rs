//! Why a command does not end well: what the library refused, or what the tool itself cannot take.
use crate::image::JsonTable;
use crate::listing::{JsonEntry, Listed};
use crate::place::Spelled;
use crate::text::JsonPath;
use serde::Serialize;
use std::fmt;
use std::io;
use xdvdfs_tables::{Error, Table};

#[derive(Debug)]
pub enum Fault {
    /// The library refused; `what` says what was asked. Of a path that rule one does not find, what rule two finds there.
    Refused { what: String, error: Error, rule_two: Option<Box<FoundByTwo>> },
    /// A file, a manifest or a path that the tool cannot take, in words.
    Unfit(String),
    /// The command line asks for what cannot be.
    Usage(String),
    /// The output took no more.
    Output(io::Error),
}

/// What rule two finds where rule one finds nothing, as `--json` has it.
#[derive(Debug, Serialize)]
pub struct FoundByTwo {
    #[serde(flatten)]
    path: JsonPath,
    table: JsonTable,
    entry: JsonEntry,
    #[serde(skip)]
    shown: String,
}

impl FoundByTwo {
    pub fn new(path: &Spelled, table: Table, listed: Listed) -> FoundByTwo {
        FoundByTwo { path: JsonPath::of(path.bytes()), table: table.into(), entry: listed.into(), shown: path.shown() }
    }
}

impl fmt::Display for FoundByTwo {
    fn fmt(&self, f: &mut fmt::Formatter<'_>) -> fmt::Result {
        let FoundByTwo { table, entry, shown, .. } = self;
        write!(f, "{shown} is there, and rule two finds it: {}, sector {}, size {}, ", entry.kind, entry.sector, entry.size)?;
        write!(f, "offset {} in the table at sector {}", entry.offset, table.sector)
    }
}

impl Fault {
    pub fn refused(what: impl Into<String>, error: Error) -> Fault {
        Fault::Refused { what: what.into(), error, rule_two: None }
    }

    pub fn not_found_by_one(what: impl Into<String>, error: Error, rule_two: Option<FoundByTwo>) -> Fault {
        Fault::Refused { what: what.into(), error, rule_two: rule_two.map(Box::new) }
    }

    /// What rule two finds where rule one refused.
    pub fn rule_two(&self) -> Option<&FoundByTwo> {
        match self {
            Fault::Refused { rule_two, .. } => rule_two.as_deref(),
            _ => None,
        }
    }

    pub fn status(&self) -> u8 {
        match self {
            Fault::Usage(_) => crate::USAGE,
            _ => crate::REFUSED,
        }
    }

    pub fn is_closed_pipe(&self) -> bool {
        matches!(self, Fault::Output(e) if e.kind() == io::ErrorKind::BrokenPipe)
    }

    /// As `--json` has it.
    pub fn told<'a>(&'a self, command: &'a str) -> impl Serialize + 'a {
        #[derive(Serialize)]
        struct Told<'a> {
            command: &'a str,
            refused: Refused<'a>,
        }
        #[derive(Serialize)]
        struct Refused<'a> {
            number: Option<u32>,
            message: String,
            offset: Option<u32>,
            headers: Option<u32>,
            rule_two: Option<&'a FoundByTwo>,
        }
        let error = match self {
            Fault::Refused { error, .. } => Some(*error),
            _ => None,
        };
        let headers = match error {
            Some(Error::DoesNotExist { headers }) => headers,
            _ => None,
        };
        let (number, offset) = (error.map(Error::number), error.and_then(offset_of));
        Told { command, refused: Refused { number, message: self.to_string(), offset, headers, rule_two: self.rule_two() } }
    }
}

impl fmt::Display for Fault {
    fn fmt(&self, f: &mut fmt::Formatter<'_>) -> fmt::Result {
        match self {
            Fault::Refused { what, error, .. } => write!(f, "{what}: {}", words(*error)),
            Fault::Unfit(words) | Fault::Usage(words) => f.write_str(words),
            Fault::Output(e) => write!(f, "cannot write the output: {e}"),
        }
    }
}

impl From<io::Error> for Fault {
    fn from(e: io::Error) -> Fault {
        Fault::Output(e)
    }
}

/// A refusal in words with its number.
pub fn words(error: Error) -> String {
    format!("{error} (refusal {})", error.number())
}

/// The offset in a table that a refusal carries.
pub fn offset_of(error: Error) -> Option<u32> {
    match error {
        Error::OutOfBounds { offset } | Error::Truncated { offset } => offset,
        Error::Shared { offset } | Error::OutOfOrder { offset } | Error::BadPlace { offset } => Some(offset),
        _ => None,
    }
}
