//! The second program's command line, thin over the library: `list` prints
//! the listing of the plant on standard input; `make`, `relay`, `check` and `sheet`
//! work on named files; `check start` and `list start` take a start file beside
//! the plant; `drive` answers one controller call for each line
//! "place left x1 .. xn" on standard input. The last word of `list` and `make` is
//! the form of the table, 1 where none is said.

use second::checker::check;
use second::control::{control, State};
use second::listing::{listing, refused_line};
use second::maker::make;
use second::refusal::Refusal;
use second::relay::relay;
use second::sheet::sheet_to_plant;
use second::start::start_check;
use second::start_listing::start_listing;
use second::{LARGEST_PLANT, LARGEST_TABLE};
use std::io::{self, BufRead, Read};
use std::process::ExitCode;

const USAGE: &str = "second list [FORM] < PLANT | list start PLANT START | make PLANT TABLE [FORM] \
                     | relay PLANT TABLE FORM OUT | check PLANT TABLE | check start PLANT START \
                     | sheet SHEET PLANT | drive PLANT TABLE < CALLS";

fn main() -> ExitCode {
    let words: Vec<String> = std::env::args().skip(1).collect();
    let words: Vec<&str> = words.iter().map(String::as_str).collect();
    let done = match words[..] {
        ["list"] => list("1"),
        ["list", form] => list(form),
        ["make", plant, table] => make_file(plant, table, "1"),
        ["make", plant, table, form] => make_file(plant, table, form),
        ["relay", plant, table, form, out] => relay_file(plant, table, form, out),
        ["sheet", sheet, plant] => transform(sheet, plant, LARGEST_PLANT, sheet_to_plant),
        ["check", plant, table] => check_files(plant, table, check),
        ["check", "start", plant, start] => check_files(plant, start, start_check),
        ["list", "start", plant, start] => list_start(plant, start),
        ["drive", plant, table] => drive(plant, table),
        _ => Err(io::Error::other(USAGE)),
    };
    match done {
        Ok(()) => ExitCode::SUCCESS,
        Err(error) => {
            eprintln!("{error}");
            ExitCode::FAILURE
        }
    }
}

/// The form that a word says.
fn form_of(word: &str) -> io::Result<u64> {
    word.parse().map_err(|_| io::Error::other(USAGE))
}

/// One byte more than the largest plant decides every plant file.
fn list(form: &str) -> io::Result<()> {
    let form = form_of(form)?;
    let mut plant = Vec::new();
    io::stdin().take(LARGEST_PLANT as u64 + 1).read_to_end(&mut plant)?;
    print!("{}", listing(&plant, form));
    Ok(())
}

fn make_file(plant: &str, table: &str, form: &str) -> io::Result<()> {
    let form = form_of(form)?;
    transform(plant, table, LARGEST_TABLE, |plant, buffer| make(plant, form, buffer))
}

fn relay_file(plant: &str, table: &str, form: &str, out: &str) -> io::Result<()> {
    let form = form_of(form)?;
    let plant = std::fs::read(plant)?;
    transform(table, out, LARGEST_TABLE, |table, buffer| relay(&plant, table, form, buffer))
}

/// Makes one file of another and prints "done" or the refusal.
fn transform(
    from: &str,
    to: &str,
    largest: usize,
    by: impl Fn(&[u8], &mut [u8]) -> Result<usize, Refusal>,
) -> io::Result<()> {
    let mut buffer = vec![0; largest];
    let answer = by(&std::fs::read(from)?, &mut buffer);
    if let Ok(length) = answer {
        std::fs::write(to, &buffer[..length])?;
    }
    tell(answer.map(|_| ()))
}

/// Judges a table or a start file for a plant.
fn check_files(
    plant: &str,
    judged: &str,
    by: fn(&[u8], &[u8]) -> Result<(), Refusal>,
) -> io::Result<()> {
    tell(by(&std::fs::read(plant)?, &std::fs::read(judged)?))
}

fn list_start(plant: &str, start: &str) -> io::Result<()> {
    print!("{}", start_listing(&std::fs::read(plant)?, &std::fs::read(start)?));
    Ok(())
}

/// Prints what happened, the row's words on standard error.
fn tell(answer: Result<(), Refusal>) -> io::Result<()> {
    match answer {
        Ok(()) => println!("done"),
        Err(refusal) => {
            println!("refused {} {} {}", refusal.number, refusal.place, refusal.step);
            eprintln!("{}", refusal.words());
        }
    }
    Ok(())
}

fn drive(plant: &str, table: &str) -> io::Result<()> {
    let plant = std::fs::read(plant)?;
    let table = std::fs::read(table)?;
    for line in io::stdin().lock().lines() {
        let (state, reading) = call_of(&line?).ok_or_else(|| io::Error::other(USAGE))?;
        match control(&plant, &table, state, reading) {
            Ok((mode, next)) => println!("{mode} {} {}", next.place, next.left),
            Err(refusal) => print!("{}", refused_line(&refusal)),
        }
    }
    Ok(())
}

/// "place left x1 .. xn", numbers not given being 0.
fn call_of(line: &str) -> Option<(State, [i64; 4])> {
    let mut words = line.split_whitespace();
    let place = words.next()?.parse().ok()?;
    let left = words.next()?.parse().ok()?;
    let mut reading = [0; 4];
    for slot in &mut reading {
        if let Some(word) = words.next() {
            *slot = word.parse().ok()?;
        }
    }
    Some((State { place, left }, reading))
}
