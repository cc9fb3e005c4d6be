//! Calls the Rust so that its panics come back as text and its standard input is ours.
use std::any::Any;
use std::cell::Cell;
use std::io::{pipe, stdin, Read, Write};
use std::os::fd::AsRawFd;
use std::panic::{catch_unwind, set_hook, take_hook, AssertUnwindSafe};
use std::sync::{Mutex, Once};

/// A pipe holds this much without a reader.
pub const LONGEST_INPUT: usize = 60_000;

thread_local!(static QUIET: Cell<bool> = const { Cell::new(false) });

/// The value, or the text of the panic on one line.
pub fn caught<T>(f: impl FnOnce() -> T) -> Result<T, String> {
    static HOOK: Once = Once::new();
    HOOK.call_once(silence_when_quiet);
    let before = QUIET.replace(true);
    let result = catch_unwind(AssertUnwindSafe(f));
    QUIET.set(before);
    result.map_err(|payload| text(&*payload).replace('\n', " "))
}

/// The usual message of a panic would come between the answers; panics that nobody catches keep it.
fn silence_when_quiet() {
    let usual = take_hook();
    set_hook(Box::new(move |info| {
        if !QUIET.get() {
            usual(info)
        }
    }));
}

fn text(payload: &(dyn Any + Send)) -> &str {
    let fixed = payload.downcast_ref::<&str>().copied();
    fixed.or_else(|| payload.downcast_ref::<String>().map(String::as_str)).unwrap_or("no text")
}

/// Runs f with this standard input: its value, or its panic, and the number of bytes consumed.
pub fn with_input<T>(input: &[u8], f: impl FnOnce() -> T) -> (Result<T, String>, usize) {
    // a process has one standard input, and its tests are threads
    static ALONE: Mutex<()> = Mutex::new(());
    let _alone = ALONE.lock().expect("no thread has failed to feed or drain it");
    feed(input);
    let result = caught(f);
    (result, input.len() - drain())
}

extern "C" {
    fn dup2(old: i32, new: i32) -> i32;
}

/// The Rust reads the process's own standard input, so that is what has to be replaced.
fn feed(input: &[u8]) {
    assert!(input.len() <= LONGEST_INPUT);
    let (reader, mut writer) = pipe().expect("a pipe");
    writer.write_all(input).expect("room in the pipe");
    // SAFETY: both numbers are open descriptors, and nothing else here owns descriptor 0
    assert_eq!(unsafe { dup2(reader.as_raw_fd(), 0) }, 0);
}

/// The number of bytes that were not read. The buffer of `stdin` outlives the pipe, so it has to be
/// empty before the next input.
fn drain() -> usize {
    stdin().lock().read_to_end(&mut vec![]).expect("the rest of the pipe")
}
