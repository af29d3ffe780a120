//! What may be wrong, and how it is told.

use std::fmt::{Display, Formatter, Result};

/// What may be wrong with a file, or with reading and writing it. The last two are faults where the strict
/// profile is asked for.
#[derive(Clone, Copy, Debug, PartialEq, Eq)]
pub enum Fault {
    NotUtf8 = 1,
    BannedCharacter,
    EmptyLine,
    BadLevel,
    LevelTooLarge,
    BadXref,
    BadTag,
    BadValue,
    LevelJump,
    XrefNotAllowed,
    MisplacedCont,
    NoHeader,
    SecondHeader,
    TrailerNotEmpty,
    AfterTrailer,
    NoTrailer,
    DuplicateXref,
    DanglingPointer,
    WrongVersion,
    BadPayload,
    WrongTarget,
    TooMany,
    Missing,
    TooLong,
    ReadFailed,
    WriteFailed,
    OneWayLink = 28,
    UnlistedTag,
}

/// A fault of a file and its line, counted from 1.
#[derive(Clone, Copy)]
pub struct FaultAt {
    pub line: usize,
    pub fault: Fault,
}

impl Display for FaultAt {
    fn fmt(&self, out: &mut Formatter<'_>) -> Result {
        write!(out, "fault {} at line {}: {:?}", self.fault as u8, self.line, self.fault)
    }
}
