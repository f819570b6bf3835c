//! The samples as they are drawn in the repository, and the commands that draw: what they print, write and answer.

mod common;

use common::{sample, Folder};
use hoachulim::kinds;
use hoachulim::library;
use std::process::{Command, Output};

fn hoachulim(folder: &Folder, words: &[&str]) -> Output {
    Command::new(env!("CARGO_BIN_EXE_hoachulim")).current_dir(folder.path("")).args(words).output().unwrap()
}

/// The status, and what was printed.
fn told(output: &Output) -> (Option<i32>, String) {
    (output.status.code(), String::from_utf8(output.stdout.clone()).unwrap())
}

/// A folder with the house, its table and one that is refused.
fn house(name: &str) -> Folder {
    let folder = Folder::new(name);
    let sheet = sample("house.sheet");
    let plant = kinds::house(&sheet).unwrap().bytes;
    folder.put("house.table", library::make(&plant, 1).unwrap());
    folder.put("house.sheet", sheet);
    folder.put("house.plant", plant);
    folder.put("bad.table", [1, 2, 1, 0]);
    folder
}

#[test]
fn the_samples_are_drawn() {
    let folder = house("drawn");
    for text in ["nursery.txt", "gallery.txt"] {
        folder.put(text, sample(text));
    }
    let calls: [(&[&str], &str); 14] = [
        (&["write", "nursery.txt", "nursery.sheet"], "done: a sheet of 117 bytes\n"),
        (&["sheet", "nursery.sheet", "nursery.plant"], "done: 2 rooms, 4 modes, 103 bytes\n"),
        (&["make", "nursery.plant", "nursery.table"], "done: 13 tiles, longest pattern 3, 44 bytes\n"),
        (&["picture", "nursery.sheet", "nursery.table", "nursery.svg"], "done: a picture of "),
        (&["picture", "house.sheet", "house.table", "house.svg"], "done: a picture of "),
        (&["release", "house.sheet", "house.table", "house.html"], "done: a release page of "),
        (&["write", "gallery.txt", "gallery.sheet"], "done: a sheet of 117 bytes\n"),
        (&["sheet", "gallery.sheet", "gallery.plant"], "done: 2 rooms, 4 modes, 99 bytes\n"),
        (&["make", "gallery.plant", "gallery.table", "3"], "done: form 3, 9 tiles, longest pattern 4, 44 bytes\n"),
        (&["make", "gallery.plant", "gallery-1.table"], "done: 55 tiles, longest pattern 4, 183 bytes\n"),
        (&["picture", "gallery.sheet", "gallery.table", "gallery.svg"], "done: a picture of "),
        (&["picture", "gallery.sheet", "gallery-1.table", "gallery-1.svg"], "done: a picture of "),
        (&["picture-run", "gallery.sheet", "gallery.table", "gallery-run.svg", "40", "1"], "done: a picture of "),
        (&["release", "gallery.sheet", "gallery.table", "gallery.html"], "done: a release page of "),
    ];
    for (words, done) in calls {
        let (status, told) = told(&hoachulim(&folder, words));
        assert!(status == Some(0) && told.starts_with(done), "{words:?}: {told}");
    }
    let readme = String::from_utf8(sample("../README.md")).unwrap();
    assert!(readme.contains(&format!("done: a release page of {} bytes\n", sample("house.html").len())), "README has what ./house prints");
    for name in ["nursery.svg", "house.svg", "house.html", "gallery.plant", "gallery.svg", "gallery-1.svg"] {
        let drawn = std::fs::read(folder.path(name)).unwrap();
        assert!(drawn == sample(name), "samples/{name} is not what is drawn: tools/drawn draws it anew");
    }
}

#[test]
fn what_is_refused_is_told_and_not_drawn() {
    let folder = house("refused");
    let refused = "refused 8 2 1: last image not in R\n\
                   8 at byte 2, step 1: tile 2000 .. 2200 by 2000 .. 2200 with modes 0: room 1 comes to 1974 .. 2171, R is 2000 .. 2200\n"
        .to_string();
    for command in ["picture", "release"] {
        assert_eq!(told(&hoachulim(&folder, &[command, "table", "house.sheet", "bad.table", "out"])), (Some(1), refused.clone()));
        assert_eq!(folder.names().contains(&"out".to_string()), command == "release");
    }
    assert_eq!(told(&hoachulim(&folder, &["picture-run", "table", "house.plant", "bad.table", "run", "10", "1"])), (Some(1), refused.clone()));
    let (status, both) = told(&hoachulim(&folder, &["picture", "house.sheet", "bad.table", "out.svg"]));
    assert_eq!(status, Some(1));
    assert!(both.starts_with(&format!("as a table:\n{refused}as a start file:\nrefused ")), "{both}");
    assert!(std::fs::read_to_string(folder.path("out")).unwrap().contains("<title>Refused: bad.table</title>"));
}

#[test]
fn wrong_calls_are_2() {
    let folder = house("wrong");
    let calls: [&[&str]; 8] = [
        &["picture", "house.sheet", "house.table"],
        &["picture", "house.sheet", "house.table", "a.svg", "more"],
        &["picture", "house.sheet", "none.table", "a.svg"],
        &["picture", "house.sheet", "house.table", "a.svg", "--degrees", "100"],
        &["picture", "house.plant", "house.table", "a.svg", "--degrees", "0"],
        &["picture-run", "house.plant", "house.table", "a.svg", "2001", "1"],
        &["picture-run", "house.plant", "house.table", "a.svg", "10", "x"],
        &["release", "house.sheet", "house.table", "none/a.html"],
    ];
    for words in calls {
        let output = hoachulim(&folder, words);
        assert_eq!(output.status.code(), Some(2), "{words:?}");
        assert!(output.stdout.is_empty() && !output.stderr.is_empty(), "{words:?}");
    }
    assert!(!folder.names().contains(&"a.svg".to_string()));
}

#[test]
fn a_run_is_the_same_for_the_same_seed() {
    let folder = house("runs");
    let run = |seed: &str| {
        assert!(hoachulim(&folder, &["picture-run", "house.plant", "house.table", "run.svg", "50", seed, "--degrees", "100"]).status.success());
        std::fs::read(folder.path("run.svg")).unwrap()
    };
    assert_eq!(run("1"), run("1"));
    assert_ne!(run("1"), run("2"));
}
