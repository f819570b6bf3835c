//! Long work shows how long it has taken, on standard error, where a person looks on: nowhere but on a terminal, and not in the first second. The making
//! of a table shows too where a search of the tool's own is, beside the library's, which tells nothing before it has ended.

use crate::search::Search;
use std::io::IsTerminal;
use std::sync::mpsc::{self, Receiver, RecvTimeoutError};
use std::thread;
use std::time::Duration;

pub fn during<T>(what: &str, work: impl FnOnce() -> T) -> T {
    watched(&|seconds| format!("{what}, {seconds} s"), work)
}

/// The same with a search beside the work; where there is one processor the search would take half of it, and is left out.
pub fn searching<T>(what: &str, search: &Search, work: impl FnOnce() -> T) -> T {
    let alone = thread::available_parallelism().map_or(true, |processors| processors.get() < 2);
    if alone || !std::io::stderr().is_terminal() {
        return during(what, work);
    }
    thread::scope(|scope| {
        scope.spawn(|| search.run());
        let value = watched(&|seconds| format!("{what}, {seconds} s; {}", search.words()), work);
        search.stop();
        value
    })
}

fn watched<T>(words: &(impl Fn(u64) -> String + Sync), work: impl FnOnce() -> T) -> T {
    if !std::io::stderr().is_terminal() {
        return work();
    }
    thread::scope(|scope| {
        let (done, waiting) = mpsc::channel();
        scope.spawn(|| watch(words, waiting));
        let value = work();
        // the watcher ends when its channel does
        drop(done);
        value
    })
}

fn watch(words: &impl Fn(u64) -> String, waiting: Receiver<()>) {
    let mut seconds = 0;
    while waiting.recv_timeout(Duration::from_secs(1)) == Err(RecvTimeoutError::Timeout) {
        seconds += 1;
        eprint!("\r\x1b[K{}", words(seconds));
    }
    if seconds > 0 {
        eprint!("\r\x1b[K");
    }
}
