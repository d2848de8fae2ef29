//! Which case a crash came in: told, and its input saved, before the process ends.
use std::cell::Cell;
use std::ffi::{CString, c_char, c_int, c_long, c_void};
use std::path::Path;
use std::sync::OnceLock;

use crate::case::Case;

/// SIGILL, SIGTRAP, SIGABRT, SIGBUS, SIGFPE, SIGSEGV.
const SIGNALS: [c_int; 6] = [4, 5, 6, 7, 8, 11];
const ON_ITS_OWN_STACK: c_int = 0x0800_0000;
const CREATE_TO_WRITE: c_int = 0x241;

/// glibc's struct sigaction on x86-64.
#[repr(C)]
struct Action {
    handler: extern "C" fn(c_int),
    mask: [c_long; 16],
    flags: c_int,
    restorer: usize,
}

unsafe extern "C" {
    fn sigaction(signal: c_int, action: *const Action, before: *mut Action) -> c_int;
    fn open(path: *const c_char, flags: c_int, mode: c_int) -> c_int;
    fn write(file: c_int, bytes: *const c_void, length: usize) -> isize;
    fn _exit(status: c_int) -> !;
}

/// Where the input is saved.
static SAVED: OnceLock<CString> = OnceLock::new();

thread_local! {
    /// The case in hand: its number, and its input.
    static IN_HAND: Cell<(u64, *const u8, usize)> = const { Cell::new((u64::MAX, std::ptr::null(), 0)) };
}

/// From here on a crash is told; the input is saved in the folder, if it can be.
pub fn watch(folder: &Path) {
    let _ = std::fs::create_dir_all(folder);
    let path = folder.join("crash.input");
    if let Ok(path) = CString::new(path.to_string_lossy().as_bytes()) {
        let _ = SAVED.set(path);
    }
    let action = Action {
        handler: crashed,
        mask: [0; 16],
        flags: ON_ITS_OWN_STACK,
        restorer: 0,
    };
    for signal in SIGNALS {
        unsafe { sigaction(signal, &action, std::ptr::null_mut()) };
    }
}

/// The case that this thread now has in hand.
pub fn in_hand(number: u64, case: &Case) {
    IN_HAND.set((number, case.input.as_ptr(), case.input.len()));
}

/// Only calls that a signal handler may make.
extern "C" fn crashed(signal: c_int) {
    let (number, input, length) = IN_HAND.get();
    say(b"crashed by signal ");
    say_number(signal as u64);
    if number != u64::MAX {
        say(b" in case ");
        say_number(number);
        if let Some(path) = SAVED.get() {
            unsafe {
                let file = open(path.as_ptr(), CREATE_TO_WRITE, 0o644);
                write(file, input.cast(), length);
            }
            say(b", whose input is saved as ");
            say(path.as_bytes());
        }
    }
    say(b"\n");
    unsafe { _exit(1) }
}

fn say(text: &[u8]) {
    unsafe { write(1, text.as_ptr().cast(), text.len()) };
}

fn say_number(mut n: u64) {
    let mut digits = [0; 20];
    let mut at = digits.len();
    loop {
        at -= 1;
        digits[at] = b'0' + (n % 10) as u8;
        n /= 10;
        if n == 0 {
            break;
        }
    }
    say(&digits[at..]);
}
