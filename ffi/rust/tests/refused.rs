//! Each request for memory of a call is refused in turn: the call tells it, and made once more it answers as before.
//!
//! `malloc` and `realloc` of this program stand in the place of the C library's, for the proved code and for Rust's vectors. What
//! is counted is what the calling thread asks for. The C library has to be glibc, whose own calls have a second name.

#![cfg(target_env = "gnu")]

use gedtool::{canon, check, digest, lines, same, show, Error, SameError, Settings, Which};
use std::cell::Cell;
use std::ffi::c_void;
use std::fmt::Debug;
use std::fs;

thread_local! {
    static REQUESTS: Cell<u64> = const { Cell::new(0) };
    /// The number of the request that is refused, counted from 1; none where it is 0.
    static REFUSED: Cell<u64> = const { Cell::new(0) };
}

extern "C" {
    fn __libc_malloc(size: usize) -> *mut c_void;
    fn __libc_realloc(block: *mut c_void, size: usize) -> *mut c_void;
}

/// Counts a request, and says whether it is refused.
fn is_refused() -> bool {
    REQUESTS.with(|requests| requests.set(requests.get() + 1));
    REQUESTS.with(Cell::get) == REFUSED.with(Cell::get)
}

#[no_mangle]
extern "C" fn malloc(size: usize) -> *mut c_void {
    if is_refused() {
        return std::ptr::null_mut();
    }
    // SAFETY: this is the C library's own `malloc`.
    unsafe { __libc_malloc(size) }
}

/// # Safety
/// As of the C library's: the block is null or one of its own.
#[no_mangle]
unsafe extern "C" fn realloc(block: *mut c_void, size: usize) -> *mut c_void {
    if is_refused() {
        return std::ptr::null_mut();
    }
    // SAFETY: the caller hands what the C library's own `realloc` wants.
    unsafe { __libc_realloc(block, size) }
}

/// Makes a call with one request refused, or none where `refused` is 0. Gives what it answers, and how many requests it made.
fn made<T>(call: &dyn Fn() -> T, refused: u64) -> (T, u64) {
    REQUESTS.with(|requests| requests.set(0));
    REFUSED.with(|number| number.set(refused));
    let answer = call();
    REFUSED.with(|number| number.set(0));
    (answer, REQUESTS.with(Cell::get))
}

/// Makes a call as often as it makes requests, each time with another one refused.
fn refuse_each<T: PartialEq + Debug>(call: &dyn Fn() -> T, is_want_of_memory: &dyn Fn(&T) -> bool) {
    let (wanted, requests) = made(call, 0);
    assert!(requests > 0 && !is_want_of_memory(&wanted));
    for refused in 1..=requests {
        let (answer, _) = made(call, refused);
        assert!(is_want_of_memory(&answer), "request {refused} of {requests}: {answer:?}");
        let (again, count) = made(call, 0);
        assert_eq!((&again, count), (&wanted, requests), "after request {refused} of {requests}");
    }
    assert_eq!(made(call, requests + 1), (wanted, requests));
}

/// A file with notices, and one with a fault.
fn files() -> [Vec<u8>; 2] {
    ["notices.ged", "two-sexes.ged"].map(|name| fs::read(format!("../../examples/{name}")).unwrap())
}

fn is_memory<T>(answer: &Result<T, Error>) -> bool {
    matches!(answer, Err(Error::Memory))
}

#[test]
fn calls_on_one_file() {
    for file in files() {
        refuse_each(&|| lines(&file), &is_memory);
        for settings in [Settings::new(), Settings::new().strict().second()] {
            refuse_each(&|| check(&file, settings), &is_memory);
            refuse_each(&|| show(&file, settings), &is_memory);
            refuse_each(&|| canon(&file, settings), &is_memory);
            refuse_each(&|| digest(&file, settings), &is_memory);
        }
    }
}

/// The same records with other line ends.
fn respelt(file: &[u8]) -> Vec<u8> {
    String::from_utf8(file.to_vec()).unwrap().replace('\n', "\r\n").into_bytes()
}

/// Whether some request of the call, refused, is told as want of memory for this file.
fn is_named(call: &dyn Fn() -> Result<bool, SameError>, which: Which) -> bool {
    (1..=made(call, 0).1)
        .any(|refused| made(call, refused).0.is_err_and(|told| told.which == which && told.error == Error::Memory))
}

#[test]
fn calls_on_two_files() {
    let [accepted, faulty] = files();
    let respelt = respelt(&accepted);
    // a copy is judged with the first file, and a second file is not judged where the first is refused
    for (first, second, judges_second) in [
        (&accepted, &respelt, true),
        (&accepted, &accepted, false),
        (&accepted, &faulty, true),
        (&faulty, &accepted, false),
    ] {
        let call = || same(first, second, Settings::new());
        refuse_each(&call, &|answer| matches!(answer, Err(told) if told.error == Error::Memory));
        assert!(is_named(&call, Which::First));
        assert_eq!(is_named(&call, Which::Second), judges_second);
    }
}
