//! The forms of tables in the commands `make`, `list` and `relay`, run as they are
//! called: of the first two the last word is the form, 1 where none is said.

mod common;
use common::*;
use second::listing::listing;
use std::io::Write;
use std::path::PathBuf;
use std::process::{Command, Stdio};

/// A file of this test's own.
fn path(name: &str) -> PathBuf {
    PathBuf::from(env!("CARGO_TARGET_TMPDIR")).join(name)
}

/// What the program prints, and whether it went well.
fn said(words: &[&str], input: &[u8]) -> (String, bool) {
    let mut second = Command::new(env!("CARGO_BIN_EXE_second"));
    second.args(words).stdin(Stdio::piped()).stdout(Stdio::piped()).stderr(Stdio::null());
    let mut child = second.spawn().expect("it runs");
    // A wrong call ends without reading its input.
    child.stdin.take().expect("a pipe").write_all(input).ok();
    let output = child.wait_with_output().expect("it ends");
    (String::from_utf8(output.stdout).expect("text"), output.status.success())
}

#[test]
fn make_is_told_a_form() {
    let (plant, table) = (path("form.plant"), path("form.table"));
    std::fs::write(&plant, P).expect("a file");
    let [plant, table] = [&plant, &table].map(|path| path.to_str().expect("a name"));
    let lengths = [2, 1, 0, 2, 1, 1, 1, 0];
    let halves = [&[3], &T1[1..]].concat();
    for (form, wanted) in [(&[][..], &T1[..]), (&["1"], &T1), (&["2"], &lengths), (&["3"], &halves)] {
        std::fs::write(table, []).expect("a file");
        assert_eq!(said(&[&["make", plant, table], form].concat(), &[]), ("done\n".into(), true));
        assert_eq!(std::fs::read(table).expect("a table"), wanted);
        assert_eq!(said(&["check", plant, table], &[]), ("done\n".into(), true));
    }
    assert_eq!(said(&["make", plant, table, "7"], &[]), ("refused 2 0 0\n".into(), true));
    for word in ["", "x", "-1", "1.0", "18446744073709551616"] {
        assert_eq!(said(&["make", plant, table, word], &[]), (String::new(), false));
    }
}

/// There and back; a refused table or form writes no file, and `relay` has to be told
/// a form.
#[test]
fn relay_is_told_a_form() {
    let [plant, one, two, back] = ["relay.plant", "relay.1", "relay.2", "relay.back"].map(path);
    let [plant, one, two, back] = [&plant, &one, &two, &back].map(|path| path.to_str().expect("a name"));
    std::fs::write(plant, P).expect("a file");
    std::fs::write(one, T1).expect("a file");
    std::fs::write(back, [9]).expect("a file");
    assert_eq!(said(&["relay", plant, one, "2", two], &[]), ("done\n".into(), true));
    assert_eq!(std::fs::read(two).expect("a table"), [2, 1, 0, 2, 1, 1, 1, 0]);
    for (form, wanted) in [("3", "refused 2 0 0\n"), ("0", "refused 2 0 0\n"), ("258", "refused 2 0 0\n")] {
        assert_eq!(said(&["relay", plant, two, form, back], &[]), (wanted.into(), true));
    }
    assert_eq!(said(&["relay", plant, plant, "3", back], &[]), ("refused 6 3 0\n".into(), true));
    for words in [&["relay", plant, two, back][..], &["relay", plant, two, "x", back], &["relay", plant, two, "", back]] {
        assert_eq!(said(words, &[]), (String::new(), false));
    }
    assert_eq!(std::fs::read(back).expect("as it was"), [9]);
    assert_eq!(said(&["relay", plant, two, "1", back], &[]), ("done\n".into(), true));
    assert_eq!(std::fs::read(back).expect("a table"), T1);
}

/// R is 64 by 4 counts, and mode k takes the k-th quarter of room 1 over all of it:
/// 16 tiles in form 1, 4 in form 3.
fn long_and_narrow() -> Vec<u8> {
    let mut fields = vec![U(1), U(2), U(4), U(1), U(1), U(2)];
    fields.extend([0, 63, 0, 63, 0, 3, 0, 3, 0, 0, 0, 0].map(S));
    fields.extend((0..4).flat_map(|k| [4, 0, -64 * k, 0, 1, 0].map(S)));
    file(&fields)
}

#[test]
fn list_is_told_a_form() {
    let plant = long_and_narrow();
    for (form, number, tiles) in [(&[][..], 1, 16), (&["1"], 1, 16), (&["2"], 2, 16), (&["3"], 3, 4)] {
        let lines = listing(&plant, number);
        assert!(lines.starts_with(&format!("table 2 {tiles} 1\n")), "{lines}");
        assert_eq!(said(&[&["list"], form].concat(), &plant), (lines, true));
    }
    assert_eq!(said(&["list", "0"], &plant), ("refused 2 0\n".into(), true));
    assert_eq!(said(&["list", "start"], &plant), (String::new(), false));
}
