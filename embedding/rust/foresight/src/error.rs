use std::fmt;

/// Why a call did nothing.
#[derive(Clone, Debug, PartialEq, Eq)]
pub enum Error {
    /// A file or a line breaks a rule, of which the message names the first one.
    Refused(String),
    /// There would be more names than the session may have.
    TooManyNames,
    /// An open ticket is in the way: the lowest number of one.
    Delayed(u64),
    /// All numbers of tickets are used up, or more than 256 symbols are declared.
    Full,
    /// The ticket isn't open.
    NoTicket,
    /// The ticket hasn't declared this.
    Undeclared,
    /// There is no such table, it has no such operation, or a symbol is no name of the session.
    Misfit,
    /// A line has a line feed in it.
    ManyLines,
    /// Memory ran out in the library.
    NoMemory,
    /// A status that this version of the package doesn't know.
    Status(u8),
}

impl fmt::Display for Error {
    fn fmt(&self, f: &mut fmt::Formatter<'_>) -> fmt::Result {
        match self {
            Error::Refused(why) => f.write_str(why),
            Error::TooManyNames => f.write_str("too many names"),
            Error::Delayed(older) => write!(f, "ticket {older} is in the way"),
            Error::Full => f.write_str("no number is left, or too many symbols"),
            Error::NoTicket => f.write_str("the ticket is not open"),
            Error::Undeclared => f.write_str("the ticket has not declared this"),
            Error::Misfit => f.write_str("no such table, operation or name"),
            Error::ManyLines => f.write_str("more than one line"),
            Error::NoMemory => f.write_str("out of memory"),
            Error::Status(status) => write!(f, "status {status}"),
        }
    }
}

impl std::error::Error for Error {}

/// Why some lines weren't all served: the replies of those before, and why the next one has none.
#[derive(Clone, Debug, PartialEq, Eq)]
pub struct Unserved {
    pub replies: Vec<String>,
    pub why: Error,
}

impl fmt::Display for Unserved {
    fn fmt(&self, f: &mut fmt::Formatter<'_>) -> fmt::Result {
        write!(f, "after {} replies: {}", self.replies.len(), self.why)
    }
}

impl std::error::Error for Unserved {}

impl From<Unserved> for Error {
    fn from(unserved: Unserved) -> Error {
        unserved.why
    }
}

/// The error of a status, with the message and the ticket that came with it.
pub(crate) fn error_of(status: u8, message: &[u8], older: u64) -> Error {
    match status {
        1 => Error::Refused(String::from_utf8_lossy(message).trim_end().to_owned()),
        3 => Error::NoMemory,
        12 => Error::Full,
        13 => Error::NoTicket,
        15 => Error::TooManyNames,
        20 => Error::Delayed(older),
        21 => Error::Undeclared,
        22 => Error::Misfit,
        other => Error::Status(other),
    }
}
