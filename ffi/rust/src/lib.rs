//! Judges, canonicalises and compares FamilySearch GEDCOM 7.0 files.
//!
//! The work is done by the proved library of gedtool, which is linked statically. A file is given as its bytes, which are read where
//! they stand:
//!
//! ```
//! use gedtool::{canon, same, Settings};
//!
//! let file = b"0 HEAD\r\n1 GEDC\r\n2 VERS 7.0\r\n0 TRLR";
//! let canonical = canon(file, Settings::new())?;
//! assert_eq!(canonical, b"\xef\xbb\xbf0 HEAD\n1 GEDC\n2 VERS 7.0\n0 TRLR\n");
//! assert!(same(file, &canonical, Settings::new()).unwrap());
//! # Ok::<(), gedtool::Error>(())
//! ```
//!
//! For a file that is not accepted a call returns its first fault, an [`Error`] with a number, a name and a line:
//!
//! ```
//! use gedtool::{canon, Error, FileFault, Settings};
//!
//! let error = canon(b"0 HEAD\n1 GEDC\n2 VERS 5.5.1\n0 TRLR\n", Settings::new()).unwrap_err();
//! assert_eq!(error, Error::InFile { line: 3, kind: FileFault::WrongVersion });
//! assert_eq!(error.to_string(), "fault 19 at line 3: WrongVersion");
//! ```
//!
//! Any number of threads may call at once. Where memory is refused a call answers [`Error::Memory`]. What it takes, but for its
//! answer, it gives back before it returns.

#![warn(missing_docs)]

mod error;
mod library;
mod notices;
mod settings;

pub use error::{Error, FileFault, SameError, Which};
pub use notices::{Notice, NoticeKind};
pub use settings::Settings;

use library::Call;

/// The most bytes that a file may have.
pub const LIMIT: usize = 1_073_741_824;

/// The lines of a file in their canonical spelling, after a byte order mark.
///
/// Only the lines are judged, faults 1 to 8, and nothing but their spelling is changed.
///
/// # Errors
/// `InFile` where one of faults 1 to 8 is in the file, `TooLong`, `Memory`.
///
/// ```
/// let lines = gedtool::lines(b"0 HEAD \r1 NOTE")?;
/// assert_eq!(lines, b"\xef\xbb\xbf0 HEAD\n1 NOTE\n");
/// # Ok::<(), gedtool::Error>(())
/// ```
pub fn lines(file: &[u8]) -> Result<Vec<u8>, Error> {
    library::answer(Call::Lines, Settings::new(), file)
}

/// The notices of an accepted file, by line. Under the strict profile an accepted file has none.
///
/// # Errors
/// `InFile` where the file is not accepted under the profile of the settings, `TooLong`, `Memory`.
///
/// ```
/// use gedtool::{check, Notice, NoticeKind, Settings};
///
/// let file = b"0 HEAD\n1 GEDC\n2 VERS 7.0\n0 INDI\n1 AFN 1234\n0 TRLR\n";
/// assert_eq!(check(file, Settings::new())?, [Notice { line: 5, kind: NoticeKind::UnlistedTag }]);
///
/// let error = check(file, Settings::new().strict()).unwrap_err();
/// assert_eq!(error.to_string(), "fault 29 at line 5: UnlistedTag");
/// # Ok::<(), gedtool::Error>(())
/// ```
pub fn check(file: &[u8], settings: Settings) -> Result<Vec<Notice>, Error> {
    notices::read_notices(&library::answer(Call::Check, settings, file)?)
}

/// A line for each structure of an accepted file: its level, its tag, and what the tables ask of its payload, or `-` where they do not
/// list it.
///
/// # Errors
/// `InFile` where the file is not accepted under the profile of the settings, `TooLong`, `Memory`.
///
/// ```
/// use gedtool::{show, Settings};
///
/// let file = b"0 HEAD\n1 GEDC\n2 VERS 7.0\n0 INDI\n1 AFN 1234\n0 TRLR\n";
/// let shown = "0 HEAD Nothing\n1 GEDC Nothing\n2 VERS Version\n0 INDI Nothing\n1 AFN -\n";
/// assert_eq!(show(file, Settings::new())?, shown.as_bytes());
/// # Ok::<(), gedtool::Error>(())
/// ```
pub fn show(file: &[u8], settings: Settings) -> Result<Vec<u8>, Error> {
    library::answer(Call::Show, settings, file)
}

/// The canonical form of an accepted file, in the edition of the settings.
///
/// # Errors
/// `InFile` where the file is not accepted under the profile of the settings, `TooLong`, `Memory`.
///
/// ```
/// use gedtool::{canon, Settings};
///
/// let file = b"0 HEAD\n1 GEDC\n2 VERS 7.0\n0 @ANNA@ INDI\n1 FAMS @VOID@\n1 BIRT\n2 DATE 03 MAY 1871\n0 TRLR\n";
/// let canonical = "\u{feff}0 HEAD\n1 GEDC\n2 VERS 7.0\n0 INDI\n1 BIRT\n2 DATE 3 MAY 1871\n1 FAMS @VOID@\n0 TRLR\n";
/// assert_eq!(canon(file, Settings::new().second())?, canonical.as_bytes());
/// # Ok::<(), gedtool::Error>(())
/// ```
pub fn canon(file: &[u8], settings: Settings) -> Result<Vec<u8>, Error> {
    library::answer(Call::Canon, settings, file)
}

/// Whether two accepted files have the same canonical form. A fault of the first file is told before one of the second.
///
/// # Errors
/// The error of the first file that has one, and which it is.
///
/// ```
/// use gedtool::{same, Settings, Which};
///
/// let file = b"0 HEAD\n1 GEDC\n2 VERS 7.0\n0 TRLR\n";
/// assert!(same(file, b"\xef\xbb\xbf0 HEAD\r1 GEDC\r2 VERS 7.0\r0 TRLR", Settings::new())?);
///
/// let error = same(file, b"", Settings::new()).unwrap_err();
/// assert_eq!(error.which, Which::Second);
/// assert_eq!(error.to_string(), "second file: fault 12 at line 1: NoHeader");
/// # Ok::<(), gedtool::SameError>(())
/// ```
pub fn same(first: &[u8], second: &[u8], settings: Settings) -> Result<bool, SameError> {
    library::same(settings, first, second)
}

/// The SHA-256 of the canonical form. Two accepted files that are the same have the same digest.
///
/// # Errors
/// `InFile` where the file is not accepted under the profile of the settings, `TooLong`, `Memory`.
///
/// ```
/// use gedtool::{digest, Settings};
///
/// let digest = digest(b"0 HEAD\r1 GEDC\r2 VERS 7.0\r0 TRLR", Settings::new())?;
/// let text: String = digest.iter().map(|byte| format!("{byte:02x}")).collect();
/// assert_eq!(text, "5cacae0e09e7df567ff2141fa92e4ad7c507de890f049b090e8f1867904ad16d");
/// # Ok::<(), gedtool::Error>(())
/// ```
pub fn digest(file: &[u8], settings: Settings) -> Result<[u8; 32], Error> {
    library::digest(settings, file)
}

/// The version of the linked library: major, minor and patch.
///
/// ```
/// assert_eq!(gedtool::version(), (0, 1, 0));
/// ```
pub fn version() -> (u32, u32, u32) {
    library::version()
}

#[cfg(doctest)]
#[doc = include_str!("../../../docs/RUST.md")]
mod page {}
