//! The notices of an accepted file.

use crate::Error;
use std::fmt;

/// What [`check`](crate::check) tells of an accepted file. It refuses nothing. It is displayed as `line 20: unlisted tag`.
#[derive(Debug, Clone, Copy, PartialEq, Eq, Hash)]
pub struct Notice {
    /// The line of the file, counted from 1.
    pub line: u64,
    /// What is told of it.
    pub kind: NoticeKind,
}

/// What a notice says.
#[derive(Debug, Clone, Copy, PartialEq, Eq, Hash)]
#[non_exhaustive]
pub enum NoticeKind {
    /// A person points to a family that does not point back, or the other way round: HUSB or WIFE answers FAMS, and CHIL answers FAMC.
    OneWayLink,
    /// A standard tag stands where the tables do not list it.
    UnlistedTag,
}

impl fmt::Display for NoticeKind {
    fn fmt(&self, f: &mut fmt::Formatter<'_>) -> fmt::Result {
        f.write_str(match self {
            NoticeKind::OneWayLink => "one-way link",
            NoticeKind::UnlistedTag => "unlisted tag",
        })
    }
}

impl fmt::Display for Notice {
    fn fmt(&self, f: &mut fmt::Formatter<'_>) -> fmt::Result {
        write!(f, "line {}: {}", self.line, self.kind)
    }
}

/// The notices of the library's text: a row `line N: KIND` for each, and then the row `accepted`.
pub(crate) fn read_notices(text: &[u8]) -> Result<Vec<Notice>, Error> {
    let rows = || text.split(|&byte| byte == b'\n').filter_map(read_notice);
    let mut notices = Vec::new();
    notices.try_reserve_exact(rows().count()).map_err(|_| Error::Memory)?;
    notices.extend(rows());
    Ok(notices)
}

fn read_notice(row: &[u8]) -> Option<Notice> {
    let (line, kind) = std::str::from_utf8(row).ok()?.strip_prefix("line ")?.split_once(": ")?;
    Some(Notice {
        line: line.parse().ok()?,
        kind: match kind {
            "one-way link" => NoticeKind::OneWayLink,
            "unlisted tag" => NoticeKind::UnlistedTag,
            _ => return None,
        },
    })
}
