//! The commands that draw: `picture`, `picture-run` and `release`. What they need is read, judged by the library (`judged`) and drawn.
//! A refused file is drawn by none; `release` writes a page that says so.

use crate::commands::{refused_as, say, Outcome, Ran, USAGE};
use crate::files::ranges::MOST_COUNTS;
use crate::files::tables::counted;
use crate::files::House;
use crate::judged::{Judged, Not};
use crate::kinds::{Kind, Reason, CONTROLS};
use crate::papers;
use crate::refusals::Refusal;
use crate::release::{self, File, Files};
use std::io::Write;

/// The most samples of a drawn run.
const MOST_SAMPLES: usize = 2_000;

/// What the words ask for, where it is a command of this page.
pub fn run(words: &[&str], out: &mut dyn Write) -> Option<Ran> {
    let (&command, words) = words.split_first().filter(|(command, _)| ["picture", "picture-run", "release"].contains(command))?;
    let Some(asked) = Asked::of(words) else { return Some(Err(USAGE.into())) };
    Some(match (command, &asked.rest[..]) {
        ("picture", []) => asked.drawn(|judged| judged.picture(), out),
        ("picture-run", [count, seed]) => asked.picture_run(count, seed, out),
        ("release", []) => asked.release(out),
        _ => Err(USAGE.into()),
    })
}

/// The words behind a command.
struct Asked<'a> {
    kind: Option<Kind>,
    house: &'a str,
    control: &'a str,
    path: &'a str,
    rest: Vec<&'a str>,
    degrees: Option<u64>,
}

impl<'a> Asked<'a> {
    fn of(words: &[&'a str]) -> Option<Asked<'a>> {
        let (words, degrees) = match *words {
            [ref words @ .., "--degrees", r] => (words, Some(r.parse().ok().filter(|r| (1..=MOST_COUNTS as u64).contains(r))?)),
            _ => (words, None),
        };
        let kind = CONTROLS.into_iter().find(|kind| words.first() == Some(&kind.word()));
        match words[usize::from(kind.is_some())..] {
            [house, control, path, ref rest @ ..] => Some(Asked { kind, house, control, path, rest: rest.to_vec(), degrees }),
            _ => None,
        }
    }

    fn picture_run(&self, count: &str, seed: &str, out: &mut dyn Write) -> Ran {
        let wanted = || format!("COUNT is {count}, wanted 1 .. {MOST_SAMPLES}; SEED is {seed}, wanted a whole number");
        let count = count.parse().ok().filter(|count| (1..=MOST_SAMPLES).contains(count)).ok_or_else(wanted)?;
        let seed = seed.parse().map_err(|_| wanted())?;
        self.drawn(|judged| judged.run(count, seed), out)
    }

    /// A picture of files that were accepted.
    fn drawn(&self, by: impl Fn(&Judged) -> Result<String, Refusal>, out: &mut dyn Write) -> Ran {
        self.judged("picture", by, |_, _, _| Ok(()), out)
    }

    /// A page in either case: one that says what was refused releases nothing.
    fn release(&self, out: &mut dyn Write) -> Ran {
        let refused = |files: &Files, house: Option<&House>, reasons: &[Reason]| {
            papers::write(self.path, release::refused(files, house, reasons).as_bytes())
        };
        self.judged("release page", |judged| judged.page(), refused, out)
    }

    /// The files read and judged, and what becomes of them where they were accepted, and before a refusal is told.
    fn judged(
        &self,
        what: &str,
        accepted: impl Fn(&Judged) -> Result<String, Refusal>,
        refused: impl Fn(&Files, Option<&House>, &[Reason]) -> Result<(), String>,
        out: &mut dyn Write,
    ) -> Ran {
        let (house, control) = (papers::read(self.house)?, papers::read(self.control)?);
        let files = Files { house: File { name: name(self.house), bytes: &house }, control: File { name: name(self.control), bytes: &control } };
        match Judged::read(files, self.kind, self.degrees) {
            Ok(judged) if judged.house.sheet.is_some() && self.degrees.is_some() => Err(format!("{} is a sheet and has its own counts a degree", self.house)),
            Ok(judged) => match accepted(&judged) {
                Ok(text) => self.written(what, &text, out),
                // no call on an accepted file is refused, so that this would be a fault of the tool: nothing is written
                Err(refusal) => Err(format!("a call on accepted files was {refusal}")),
            },
            Err(Not::Both(trouble)) => Err(trouble),
            Err(Not::Refused(house, reasons)) => {
                refused(&files, house.as_deref(), &reasons)?;
                refused_as(&reasons, out)
            }
        }
    }

    fn written(&self, what: &str, text: &str, out: &mut dyn Write) -> Ran {
        papers::write(self.path, text.as_bytes())?;
        say(out, &format!("done: a {what} of {}", counted(text.len() as u64, "byte")))?;
        Ok(Outcome::Done)
    }
}

/// A path's last part.
fn name(path: &str) -> &str {
    path.rsplit('/').next().unwrap_or(path)
}
