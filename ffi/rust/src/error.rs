//! Why a call has no answer.

use crate::library;
use std::fmt;

/// The faults of a file, each with its number.
macro_rules! file_faults {
    ($($(#[$doc:meta])* $name:ident = $number:literal,)*) => {
        /// A fault of a file. `docs/FORMAT.md` of the repository says what each means, and which is told of several.
        #[derive(Debug, Clone, Copy, PartialEq, Eq, PartialOrd, Ord, Hash)]
        #[non_exhaustive]
        pub enum FileFault {
            $($(#[$doc])* $name = $number,)*
        }

        impl FileFault {
            /// All of them, by their numbers.
            pub const ALL: &'static [FileFault] = &[$(FileFault::$name,)*];

            /// Its number in `docs/FORMAT.md`: 1 to 23, 28 or 29.
            pub fn number(self) -> u32 {
                self as u32
            }

            /// Its name in `docs/FORMAT.md`, which is that of the variant.
            pub fn name(self) -> &'static str {
                match self {
                    $(FileFault::$name => stringify!($name),)*
                }
            }

            /// What it means, and what usually causes it, as the library tells it.
            pub fn explanation(self) -> String {
                library::explanation(self.number())
            }

            /// The fault of a number.
            pub(crate) fn numbered(number: u32) -> Option<FileFault> {
                match number {
                    $($number => Some(FileFault::$name),)*
                    _ => None,
                }
            }
        }
    };
}

file_faults! {
    /// The line is not UTF-8 text.
    NotUtf8 = 1,
    /// The line has a character that no line may have.
    BannedCharacter = 2,
    /// The line is empty.
    EmptyLine = 3,
    /// The line does not begin with a level and one space.
    BadLevel = 4,
    /// The level is above 99.
    LevelTooLarge = 5,
    /// What follows the level begins with @ but is not an identifier with a space behind it.
    BadXref = 6,
    /// What stands where the tag belongs is not a tag.
    BadTag = 7,
    /// The value begins with a single @ but is not a pointer.
    BadValue = 8,
    /// The level is two or more above that of the line before, or the first line's is not 0.
    LevelJump = 9,
    /// A line that is not a record has an identifier.
    XrefNotAllowed = 10,
    /// A CONT continues no text or is a pointer, or something stands below a CONT.
    MisplacedCont = 11,
    /// The first line is not HEAD.
    NoHeader = 12,
    /// The file has a second HEAD.
    SecondHeader = 13,
    /// TRLR, the end of the file, has a value or a line below it.
    TrailerNotEmpty = 14,
    /// A record or a second TRLR stands after TRLR, the end of the file.
    AfterTrailer = 15,
    /// The file ends without TRLR.
    NoTrailer = 16,
    /// Two records have the same identifier.
    DuplicateXref = 17,
    /// A pointer names a record that is not in the file.
    DanglingPointer = 18,
    /// The file does not say that it is GEDCOM 7.0.
    WrongVersion = 19,
    /// The value is not of the kind that belongs there.
    BadPayload = 20,
    /// A pointer leads to the wrong kind of record.
    WrongTarget = 21,
    /// A line that may stand once stands twice.
    TooMany = 22,
    /// A line that has to stand below this one is missing.
    Missing = 23,
    /// A person points to a family that does not point back, or the other way round: HUSB or WIFE answers FAMS, and CHIL answers FAMC.
    OneWayLink = 28,
    /// A tag that does not begin with _ stands where the structure tables do not list it.
    UnlistedTag = 29,
}

impl fmt::Display for FileFault {
    /// Its name.
    fn fmt(&self, f: &mut fmt::Formatter<'_>) -> fmt::Result {
        f.write_str(self.name())
    }
}

/// Why there is no answer for a file. It is displayed as the program tells it: `fault 22 at line 9: TooMany`.
#[derive(Debug, Clone, Copy, PartialEq, Eq, Hash)]
#[non_exhaustive]
pub enum Error {
    /// The file is not accepted; this is its first fault.
    InFile {
        /// The fault's line, counted from 1.
        line: u64,
        /// Which fault it is.
        kind: FileFault,
    },
    /// The file has more than [`LIMIT`](crate::LIMIT) bytes.
    TooLong,
    /// Memory was refused. The call may be made again.
    Memory,
}

impl Error {
    /// The number of the fault in `docs/FORMAT.md`.
    pub fn number(&self) -> u32 {
        match self {
            Error::InFile { kind, .. } => kind.number(),
            Error::TooLong => 24,
            Error::Memory => 27,
        }
    }

    /// The name of the fault in `docs/FORMAT.md`.
    pub fn name(&self) -> &'static str {
        match self {
            Error::InFile { kind, .. } => kind.name(),
            Error::TooLong => "TooLong",
            Error::Memory => "Memory",
        }
    }

    /// The line of the fault, counted from 1. `TooLong` and `Memory` have none.
    pub fn line(&self) -> Option<u64> {
        match self {
            Error::InFile { line, .. } => Some(*line),
            Error::TooLong | Error::Memory => None,
        }
    }

    /// What the fault means, and what usually causes it, as the library tells it.
    pub fn explanation(&self) -> String {
        library::explanation(self.number())
    }

    /// The error of a status of the library that is neither 0 nor about room.
    pub(crate) fn of_status(status: u32, line: u64) -> Error {
        match (status, FileFault::numbered(status)) {
            (_, Some(kind)) => Error::InFile { line, kind },
            (24, None) => Error::TooLong,
            (27, None) => Error::Memory,
            _ => unreachable!("the library has no status {status}"),
        }
    }
}

impl fmt::Display for Error {
    fn fmt(&self, f: &mut fmt::Formatter<'_>) -> fmt::Result {
        match self.line() {
            Some(line) => write!(f, "fault {} at line {line}: {}", self.number(), self.name()),
            None => write!(f, "fault {}: {}", self.number(), self.name()),
        }
    }
}

impl std::error::Error for Error {}

/// One of two files.
#[derive(Debug, Clone, Copy, PartialEq, Eq, Hash)]
pub enum Which {
    /// The first one.
    First,
    /// The second one.
    Second,
}

impl fmt::Display for Which {
    /// `first` or `second`.
    fn fmt(&self, f: &mut fmt::Formatter<'_>) -> fmt::Result {
        f.write_str(match self {
            Which::First => "first",
            Which::Second => "second",
        })
    }
}

/// Why two files cannot be compared. It is displayed as `second file: fault 5 at line 6: LevelTooLarge`.
#[derive(Debug, Clone, Copy, PartialEq, Eq, Hash)]
pub struct SameError {
    /// The file of which the error tells.
    pub which: Which,
    /// What is wrong with it.
    pub error: Error,
}

impl fmt::Display for SameError {
    fn fmt(&self, f: &mut fmt::Formatter<'_>) -> fmt::Result {
        write!(f, "{} file: {}", self.which, self.error)
    }
}

impl std::error::Error for SameError {}

#[cfg(test)]
mod tests {
    use super::{Error, FileFault};
    use crate::library::name;

    #[test]
    fn faults_have_the_numbers_and_names_of_the_library() {
        let of_files = FileFault::ALL.iter().map(|&kind| Error::InFile { line: 1, kind });
        for error in of_files.chain([Error::TooLong, Error::Memory]) {
            assert_eq!(name(error.number()).as_deref(), Some(error.name()));
        }
        // the others are of reading and writing, which no call does
        let numbers: Vec<_> = (0..300).filter(|&number| name(number).is_some()).collect();
        let known: Vec<_> = FileFault::ALL.iter().map(|kind| kind.number()).chain([24, 25, 26, 27]).collect();
        assert!(known.len() == numbers.len() && numbers.iter().all(|number| known.contains(number)));
    }
}
