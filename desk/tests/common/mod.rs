//! What the tests share: samples, a folder to work in, the tool as it is called, texts of files, what is quick; tables of every shape (`shapes`), and XML
//! read strictly (`xml`).
#![allow(dead_code)] // no test uses all of it

pub mod shapes;
pub mod xml;

use hoachulim::kinds::As;
use hoachulim::text;
use std::path::PathBuf;
use std::process::{Command, Stdio};
use std::time::{Duration, Instant};

pub fn sample_path(name: &str) -> String {
    format!("{}/../samples/{name}", env!("CARGO_MANIFEST_DIR"))
}

pub fn sample(name: &str) -> Vec<u8> {
    std::fs::read(sample_path(name)).unwrap()
}

/// A folder for a test, new and empty.
pub struct Folder(PathBuf);

impl Folder {
    pub fn new(name: &str) -> Folder {
        let folder = std::env::temp_dir().join(format!("hoachulim-{}-{name}", std::process::id()));
        std::fs::create_dir_all(&folder).unwrap();
        Folder(folder)
    }

    pub fn path(&self, name: &str) -> String {
        self.0.join(name).to_str().unwrap().to_string()
    }

    pub fn put(&self, name: &str, bytes: impl AsRef<[u8]>) -> String {
        std::fs::write(self.path(name), bytes).unwrap();
        self.path(name)
    }

    pub fn names(&self) -> Vec<String> {
        let mut names: Vec<_> = std::fs::read_dir(&self.0).unwrap().map(|entry| entry.unwrap().file_name().into_string().unwrap()).collect();
        names.sort();
        names
    }
}

impl Drop for Folder {
    fn drop(&mut self) {
        std::fs::remove_dir_all(&self.0).unwrap();
    }
}

/// The tool's exit status and what it printed.
pub fn tool(words: &[&str]) -> (i32, String, String) {
    let ran = Command::new(env!("CARGO_BIN_EXE_hoachulim")).args(words).stdin(Stdio::null()).output().unwrap();
    let text = |bytes| String::from_utf8(bytes).unwrap();
    (ran.status.code().unwrap(), text(ran.stdout), text(ran.stderr))
}

/// That the library takes a file, and that its text gives it back.
pub fn goes_round(read: As, bytes: &[u8]) {
    assert_eq!(read.verdict(), Ok(()));
    let shown = read.text();
    let said = text::read(shown.as_bytes()).unwrap_or_else(|fault| panic!("{fault} in\n{shown}"));
    assert_eq!(said.write(), bytes, "{shown}");
}

/// What some work comes to, which takes less than a second: the quickest of ten tries counts, since a busy machine may hold up any one of them.
pub fn within_a_second<T>(mut work: impl FnMut() -> T) -> T {
    let mut least = Duration::MAX;
    for _ in 0..10 {
        let began = Instant::now();
        let value = work();
        least = least.min(began.elapsed());
        if least < Duration::from_secs(1) || cfg!(debug_assertions) {
            return value;
        }
    }
    panic!("the quickest of ten tries took {least:?}");
}
