//! The command `hoachulim`. Its exit status: 0 done or accepted, 1 refused, 2 called wrongly or a file that cannot be read or written.

use hoachulim::commands::{self, Outcome};
use std::io::{self, BufWriter, Write};
use std::process::ExitCode;

fn main() -> ExitCode {
    let words: Vec<String> = std::env::args_os().skip(1).map(|word| word.to_string_lossy().into_owned()).collect();
    let words: Vec<&str> = words.iter().map(String::as_str).collect();
    let mut out = BufWriter::new(io::stdout().lock());
    let ran = commands::run(&words, &mut out);
    let flushed = out.flush();
    match ran {
        Ok(Outcome::Done) if flushed.is_ok() => ExitCode::SUCCESS,
        Ok(Outcome::Refused) if flushed.is_ok() => ExitCode::from(1),
        Ok(_) => ExitCode::from(2),
        Err(trouble) => {
            if !trouble.is_empty() {
                eprintln!("{trouble}");
            }
            ExitCode::from(2)
        }
    }
}
