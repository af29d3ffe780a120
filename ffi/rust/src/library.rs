//! The calls of the static library, as `gedtool.h` has them, behind safe ones.

use crate::{Error, SameError, Settings, Which, LIMIT};

const OK: u32 = 0;
const ROOM_TOO_SMALL: u32 = 64;

/// Parts of what a fault means.
const MEANING: u32 = 0;
const CAUSE: u32 = 1;

/// The calls that write an answer into room.
macro_rules! writing_calls {
    ($($name:ident)*) => {
        extern "C" {
            $(fn $name(
                settings: u32,
                file: *const u8,
                file_length: usize,
                room: *mut u8,
                room_length: usize,
                length: *mut usize,
                line: *mut u64,
            ) -> u32;)*
        }
    };
}

writing_calls! { gedtool_lines gedtool_check gedtool_show gedtool_canon }

extern "C" {
    fn gedtool_same(
        settings: u32,
        first: *const u8,
        first_length: usize,
        second: *const u8,
        second_length: usize,
        same: *mut u32,
        which: *mut u32,
        line: *mut u64,
    ) -> u32;
    fn gedtool_digest(
        settings: u32,
        file: *const u8,
        file_length: usize,
        digest: *mut u8,
        digest_length: usize,
        line: *mut u64,
    ) -> u32;
    #[cfg(test)]
    fn gedtool_fault_name(fault: u32, room: *mut u8, room_length: usize, length: *mut usize) -> u32;
    fn gedtool_explain(fault: u32, part: u32, room: *mut u8, room_length: usize, length: *mut usize) -> u32;
    fn gedtool_version() -> u32;
    #[cfg(test)]
    fn gedtool_abi() -> u32;
}

/// A call that writes an answer into room.
#[derive(Clone, Copy)]
pub(crate) enum Call {
    Lines,
    Check,
    Show,
    Canon,
}

/// What the library answers of a file.
pub(crate) fn answer(call: Call, settings: Settings, file: &[u8]) -> Result<Vec<u8>, Error> {
    let call = match call {
        Call::Lines => gedtool_lines,
        Call::Check => gedtool_check,
        Call::Show => gedtool_show,
        Call::Canon => gedtool_canon,
    };
    // what a file of usual make needs; memory that is not written costs nothing
    let length = file.len().min(LIMIT);
    let mut wanted = length + length / 8 + 4096;
    loop {
        let mut answer = Vec::new();
        answer.try_reserve_exact(wanted).map_err(|_| Error::Memory)?;
        let room = answer.spare_capacity_mut();
        let (mut length, mut line) = (0, 0);
        // SAFETY: the file and the room are there with the lengths that are handed, the room is new and so no part of the file, and
        // the two numbers have places of their own. The library reads the file, writes the room and the numbers, and keeps nothing.
        let status = unsafe {
            call(
                settings.bits(),
                file.as_ptr(),
                file.len(),
                room.as_mut_ptr().cast(),
                room.len(),
                &mut length,
                &mut line,
            )
        };
        match status {
            OK => {
                // SAFETY: the answer is the first `length` bytes of the room, and they were written.
                unsafe { answer.set_len(length) };
                return Ok(answer);
            }
            ROOM_TOO_SMALL => wanted = length,
            _ => return Err(Error::of_status(status, line)),
        }
    }
}

/// What the library's `digest` answers of a file.
pub(crate) fn digest(settings: Settings, file: &[u8]) -> Result<[u8; 32], Error> {
    let (mut digest, mut line) = ([0; 32], 0);
    // SAFETY: the file and the digest are there with the lengths that are handed, and the line has a place of its own. The library
    // reads the file, writes the digest and the line, and keeps nothing.
    let status = unsafe {
        gedtool_digest(settings.bits(), file.as_ptr(), file.len(), digest.as_mut_ptr(), digest.len(), &mut line)
    };
    match status {
        OK => Ok(digest),
        _ => Err(Error::of_status(status, line)),
    }
}

/// What the library's `same` answers of two files.
pub(crate) fn same(settings: Settings, first: &[u8], second: &[u8]) -> Result<bool, SameError> {
    let (mut same, mut which, mut line) = (0, 0, 0);
    // SAFETY: the files are there with the lengths that are handed, and the three numbers have places of their own. The library
    // reads the files, writes the numbers, and keeps nothing.
    let status = unsafe {
        gedtool_same(
            settings.bits(),
            first.as_ptr(),
            first.len(),
            second.as_ptr(),
            second.len(),
            &mut same,
            &mut which,
            &mut line,
        )
    };
    if status == OK {
        return Ok(same == 1);
    }
    Err(SameError {
        which: if which == 1 { Which::First } else { Which::Second },
        error: Error::of_status(status, line),
    })
}

/// What the library's `explain` tells of a fault: what it means, and what usually causes it.
pub(crate) fn explanation(fault: u32) -> String {
    let mut explanation = part(fault, MEANING);
    explanation.push(' ');
    explanation + &part(fault, CAUSE)
}

/// A part of what a fault means. There is a text for each number that an error has.
fn part(fault: u32, part: u32) -> String {
    // SAFETY: the room is there with the length that is handed, and the length has a place of its own. The library writes both, and
    // keeps nothing.
    let text = text(|room, length| unsafe { gedtool_explain(fault, part, room.as_mut_ptr(), room.len(), length) });
    text.unwrap_or_default()
}

/// The name of a fault, or `None` where no fault has the number.
#[cfg(test)]
pub(crate) fn name(fault: u32) -> Option<String> {
    // SAFETY: as in `part`.
    text(|room, length| unsafe { gedtool_fault_name(fault, room.as_mut_ptr(), room.len(), length) })
}

/// The text that a call writes into room, telling its length; `None` where there is none.
fn text(call: impl Fn(&mut [u8], &mut usize) -> u32) -> Option<String> {
    let mut room = vec![0; 256];
    loop {
        let mut length = 0;
        match call(&mut room, &mut length) {
            OK => {
                room.truncate(length);
                return String::from_utf8(room).ok();
            }
            ROOM_TOO_SMALL => room.resize(length, 0),
            _ => return None,
        }
    }
}

/// The version of the library: major, minor and patch.
pub(crate) fn version() -> (u32, u32, u32) {
    // SAFETY: the call reads and writes nothing of ours.
    let version = unsafe { gedtool_version() };
    (version / 10_000, version / 100 % 100, version % 100)
}

#[cfg(test)]
mod tests {
    use super::gedtool_abi;

    #[test]
    fn the_library_has_the_abi_of_these_declarations() {
        // SAFETY: the call reads and writes nothing of ours.
        assert_eq!(unsafe { gedtool_abi() }, 1);
    }
}
