//! What the calls do with room, with memory that is hard to hand over, and in threads.

use gedtool::{canon, check, digest, lines, same, show, Error, FileFault, NoticeKind, Settings, Which, LIMIT};
use std::thread;

/// A file with this many structures of one line below its one record.
fn file_with(line: &str, times: usize) -> Vec<u8> {
    ["0 HEAD\n1 GEDC\n2 VERS 7.0\n0 INDI\n", &line.repeat(times), "0 TRLR\n"].concat().into_bytes()
}

#[test]
fn an_answer_is_longer_than_the_first_room() {
    // each line of 5 bytes is answered by one of 7, and the first room has an eighth more than the file, and 4096 bytes
    let shown = ["0 HEAD Nothing\n1 GEDC Nothing\n2 VERS Version\n0 INDI Nothing\n", &"1 _A -\n".repeat(9000)].concat();
    assert_eq!(show(&file_with("1 _A\n", 9000), Settings::new()), Ok(shown.into_bytes()));
}

#[test]
fn many_notices() {
    let notices = check(&file_with("1 AFN 1\n", 9000), Settings::new()).unwrap();
    assert!(notices.iter().all(|notice| notice.kind == NoticeKind::UnlistedTag));
    assert!(notices.iter().map(|notice| notice.line).eq(5..9005));
}

#[test]
fn a_file_of_no_bytes() {
    assert_eq!(lines(b""), Ok(b"\xef\xbb\xbf".to_vec()));
    assert_eq!(canon(b"", Settings::new()), Err(Error::InFile { line: 1, kind: FileFault::NoHeader }));
}

#[test]
fn a_file_that_is_too_long() {
    // nobody reads these zeros, so they take no memory
    let file = vec![0; LIMIT + 1];
    assert_eq!(lines(&file), Err(Error::TooLong));
    let error = same(b"", &file, Settings::new()).unwrap_err();
    assert_eq!((error.which, error.error), (Which::Second, Error::TooLong));
}

#[test]
fn the_limit() {
    assert_eq!(LIMIT, 1_073_741_824);
}

#[test]
fn each_call_has_its_settings() {
    let [one, other] = ["03", "3"].map(|day| file_with(&format!("1 BIRT\n2 DATE {day} MAY 1871\n"), 1));
    let second = Settings::new().second();
    assert_eq!((same(&one, &other, Settings::new()), same(&one, &other, second)), (Ok(false), Ok(true)));
    assert_ne!(digest(&one, Settings::new()), digest(&other, Settings::new()));
    assert_eq!(digest(&one, second), digest(&other, second));
    assert_ne!(canon(&one, Settings::new()), canon(&other, Settings::new()));
    assert_eq!(canon(&one, second), canon(&other, second));

    let (noted, strict) = (file_with("1 AFN 1\n", 1), Settings::new().strict());
    let refused = Error::InFile { line: 5, kind: FileFault::UnlistedTag };
    assert_eq!(check(&noted, strict), Err(refused));
    assert_eq!(show(&noted, strict), Err(refused));
    assert_eq!(canon(&noted, strict), Err(refused));
    assert_eq!(digest(&noted, strict), Err(refused));
    assert_eq!(same(&noted, &noted, strict).unwrap_err().error, refused);
}

#[test]
fn many_threads() {
    let file = file_with("1 NOTE The register was lost.\n", 2000);
    let canonical = canon(&file, Settings::new()).unwrap();
    thread::scope(|scope| {
        for _ in 0..8 {
            scope.spawn(|| assert_eq!(canon(&file, Settings::new()).as_ref(), Ok(&canonical)));
        }
    });
}

#[test]
fn errors_have_numbers_names_lines_and_explanations() {
    let error = canon(b"0 HEAD\n2 GEDC\n", Settings::new()).unwrap_err();
    assert_eq!((error.number(), error.name(), error.line()), (9, "LevelJump", Some(2)));
    assert!(error.explanation().starts_with("The level is two or more above that of the line before, or the first line's is not 0."));
    assert_eq!((Error::Memory.number(), Error::Memory.name(), Error::Memory.line()), (27, "Memory", None));
    assert_eq!(Error::TooLong.to_string(), "fault 24: TooLong");
}
