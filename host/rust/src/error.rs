//! What may go wrong: a refusal of the library, by number, or the system.
use std::ffi::CStr;
use std::fmt;

use crate::sys;

/// Why the library refused a call. What was refused did not happen.
#[derive(Clone, Copy, Debug, PartialEq, Eq)]
#[repr(u64)]
pub enum Refusal {
    ImageLength = 1,
    NotOpen = 2,
    DirectoryWrong = 3,
    EntryWrong = 4,
    BlockWrong = 5,
    TopsDisagree = 6,
    TableFull = 7,
    Unfinished = 8,
    TooLong = 9,
    BatchFull = 10,
    KeyAbsent = 11,
    VersionSpent = 12,
    NoSpace = 13,
    NothingStaged = 14,
    BatchStaged = 15,
    NotCleanable = 16,
    OtherVersion = 17,
}

impl Refusal {
    const ALL: [Refusal; 17] = [
        Refusal::ImageLength,
        Refusal::NotOpen,
        Refusal::DirectoryWrong,
        Refusal::EntryWrong,
        Refusal::BlockWrong,
        Refusal::TopsDisagree,
        Refusal::TableFull,
        Refusal::Unfinished,
        Refusal::TooLong,
        Refusal::BatchFull,
        Refusal::KeyAbsent,
        Refusal::VersionSpent,
        Refusal::NoSpace,
        Refusal::NothingStaged,
        Refusal::BatchStaged,
        Refusal::NotCleanable,
        Refusal::OtherVersion,
    ];

    /// The refusal of a number, 1 to 17.
    pub fn of_number(number: u64) -> Option<Refusal> {
        Refusal::ALL.into_iter().find(|r| r.number() == number)
    }

    pub fn number(self) -> u64 {
        self as u64
    }
}

impl fmt::Display for Refusal {
    fn fmt(&self, f: &mut fmt::Formatter<'_>) -> fmt::Result {
        // Safety: the library answers a text that lasts, for every number.
        let sentence = unsafe { CStr::from_ptr(sys::zkv_sentence(self.number())) };
        write!(f, "refused {}: {}", self.number(), sentence.to_string_lossy())
    }
}

/// Why a call of this crate failed.
#[derive(Clone, Debug, PartialEq, Eq)]
pub enum Error {
    /// The library refused it; the register is as it was.
    Refused(Refusal),
    /// The system said no to something about the file: what, in words.
    File(String),
    /// The register was opened to be read alone.
    ReadOnly,
    /// A fence failed in the middle of a write: what is durable is not known, and nothing may be acknowledged. Every
    /// later call that writes, looks up or lists is refused (8); open the register again and look.
    NotDurable,
    /// The library that is linked is of another version than this crate.
    Version(String),
    /// The library answered what it never answers: its memory was altered.
    Odd(String),
}

impl fmt::Display for Error {
    fn fmt(&self, f: &mut fmt::Formatter<'_>) -> fmt::Result {
        match self {
            Error::Refused(refusal) => refusal.fmt(f),
            Error::File(what) => f.write_str(what),
            Error::ReadOnly => f.write_str("the register was opened to be read alone"),
            Error::NotDurable => f.write_str("a fence failed: what was written may not be durable"),
            Error::Version(found) => write!(f, "the library is version {found} and not {}", sys::VERSION),
            Error::Odd(what) => f.write_str(what),
        }
    }
}

impl std::error::Error for Error {}

impl From<Refusal> for Error {
    fn from(refusal: Refusal) -> Error {
        Error::Refused(refusal)
    }
}

/// The error of a refusal's number.
pub(crate) fn refused(number: u64) -> Error {
    Refusal::of_number(number).map_or_else(|| Error::Odd(format!("refused {number}, which is no refusal")), Error::Refused)
}
