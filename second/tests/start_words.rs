//! The commands `check start` and `list start`, run as they are called: the
//! worked examples, two rooms, refusals of each kind of file, and the plain
//! `check` and `list` beside them.

mod common;
use common::*;
use second::start::start_make;
use std::path::PathBuf;
use std::process::{Command, Output, Stdio};

/// A file of this test's own.
fn put(name: &str, bytes: &[u8]) -> PathBuf {
    let path = PathBuf::from(env!("CARGO_TARGET_TMPDIR")).join(name);
    std::fs::write(&path, bytes).expect("a file");
    path
}

/// What a command says of a plant and a start file, named after the test.
fn said(command: &str, name: &str, plant: &[u8], start: &[u8]) -> String {
    let files = [put(&format!("{name}.plant"), plant), put(&format!("{name}.start"), start)];
    let output = run(&[command, "start"], &files);
    assert!(output.status.success());
    String::from_utf8(output.stdout).expect("text")
}

fn run(words: &[&str], files: &[PathBuf]) -> Output {
    let mut second = Command::new(env!("CARGO_BIN_EXE_second"));
    second.args(words).args(files).stdin(Stdio::null()).output().expect("it runs")
}

#[test]
fn the_example_of_22_bytes() {
    let start = start_make(&P, &file(&chain_fields(&[[(190, 230)]])), 1).expect("a start file");
    assert_eq!(said("check", "example", &P, &start), "done\n");
    let lines = "box 0 195 225 : 2 1\n195 210 : 1\n211 225 : 0\nbox 1 190 230 : 2 1\n190 210 : 1\n211 230 : 0\n";
    assert_eq!(said("list", "example", &P, &start), lines);
}

/// The longest pattern is each table's own.
#[test]
fn a_cold_room() {
    let start = start_make(&cold_p(), &file(&cold_chain()), 1).expect("a start file");
    assert_eq!(said("check", "cold", &cold_p(), &start), "done\n");
    let lines = "box 0 195 225 : 1 2\n195 225 : 0 1\n\
                 box 1 180 225 : 2 2\n180 202 : 1 1\n203 225 : 0 1\n\
                 box 2 160 230 : 2 2\n160 195 : 1 1\n196 230 : 0\n";
    assert_eq!(said("list", "cold", &cold_p(), &start), lines);
}

/// Two rooms, edges on both sides of zero: no box around R, then one whose
/// table, though one tile would do, is split.
#[test]
fn two_rooms_listed() {
    let plant = file(&two_rooms());
    let start = start_make(&plant, &file(&chain_fields::<[_; 2]>(&[])), 1).expect("a start file");
    let r0 = "box 0 0 9 10 19 : 1 1\n0 9 10 19 : 0\n";
    assert_eq!(said("list", "alone", &plant, &start), r0);
    let chain = chain_fields(&[[(-5, 14), (5, 24)]]);
    let split = [1, 2, 0, 2, 0, 0, 2, 0, 0, 2, 0, 0, 2, 0, 0];
    let start = file(&start_fields(&chain, &[&[1, 2, 1, 0], &split]));
    assert_eq!(said("check", "two", &plant, &start), "done\n");
    let r1 = "box 1 -5 14 5 24 : 4 2\n-5 4 5 14 : 0 0\n5 14 5 14 : 0 0\n-5 4 15 24 : 0 0\n5 14 15 24 : 0 0\n";
    assert_eq!(said("list", "two", &plant, &start), format!("{r0}{r1}"));
}

/// Both tell the checker's number and place; `check` tells the step too.
#[test]
fn refused_files() {
    let chain = chain_fields(&[[(190, 230)]]);
    let with_tables = |first: &[u8], second: &[u8]| file(&start_fields(&chain, &[first, second]));
    let sound = with_tables(&T1, &T1);
    let d_0 = file(&with(&p_fields(), 5, U(0)));
    for (name, plant, start, told) in [
        ("cut", &P[..], sound[..21].to_vec(), "3 14 0"),
        ("form", &P, with_tables(&T1, &[4, 1]), "2 15 0"),
        ("behind", &P, [&sound[..], &[0]].concat(), "3 22 0"),
        ("leaves", &P, with_tables(&T1, &[1, 1, 1, 1]), "7 17 1"),
        ("apart", &P, file(&chain_fields(&[[(196, 230)]])), "15 1 0"),
        ("shallow", &d_0, sound.clone(), "6 9 0"),
        ("empty", &[], sound.clone(), "1 0 0"),
    ] {
        assert_eq!(said("check", name, plant, &start), format!("refused {told}\n"));
        let (number_and_place, _) = told.rsplit_once(' ').expect("a step");
        assert_eq!(said("list", name, plant, &start), format!("refused {number_and_place}\n"));
    }
}

/// A table's own commands do not take a start file, nor `start` fewer files.
#[test]
fn the_plain_commands_stay() {
    let plant = put("plain.plant", &P);
    let table = put("plain.table", &T1);
    assert_eq!(run(&["check"], &[plant.clone(), table.clone()]).stdout, b"done\n");
    assert_eq!(run(&["list"], &[]).stdout, b"refused 1 0\n");
    for words in [["check", "start"], ["list", "start"]] {
        assert!(!run(&words, &[plant.clone()]).status.success());
    }
    assert!(!run(&["list"], &[plant, table]).status.success());
}
