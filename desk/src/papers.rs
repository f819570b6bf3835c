//! Files on the disk: read whole, however long, since a start file's lengths may reach as far as they like; written whole or not at all.
//! Leaves out what a file says.

use std::fs::{self, File};
use std::io::{self, Write};

/// The bytes of a file; the error names it.
pub fn read(path: &str) -> Result<Vec<u8>, String> {
    fs::read(path).map_err(|error| format!("{path}: {error}"))
}

/// Bytes as NAME.part and then, once the disk has them, under their name, which is whole or as it was; where that fails the part is removed.
pub fn write(path: &str, bytes: &[u8]) -> Result<(), String> {
    let part = format!("{path}.part");
    let written = on_the_disk(&part, bytes).and_then(|()| fs::rename(&part, path));
    written.map_err(|error| {
        // the first error is the one to tell; there may be no part to remove
        let _ = fs::remove_file(&part);
        format!("{path}: {error}")
    })
}

fn on_the_disk(path: &str, bytes: &[u8]) -> io::Result<()> {
    let mut file = File::create(path)?;
    file.write_all(bytes)?;
    file.sync_all()
}
