//! The release page: one HTML file that needs nothing else, for those who answer for a table, fit it and live with it. Where the proved checker accepted
//! the table or start file it says what is promised, in this file's own numbers; where it did not, it says so at the top and releases nothing.
//! Relies on the verdict and the run that are handed to it, on `pictures` and `sha256`. Leaves out the date and who signs, which are written by hand.

mod figures;
mod promise;

use crate::controls::Control;
use crate::courses::Sample;
use crate::files::House;
use crate::kinds::{Kind, Reason};
use crate::pictures::svg::escape;
use crate::sha256;
use crate::units::Units;

/// A file by its name.
#[derive(Clone, Copy)]
pub struct File<'a> {
    pub name: &'a str,
    pub bytes: &'a [u8],
}

/// A house's file, which is a sheet or a plant, and the control file that is released for it.
#[derive(Clone, Copy)]
pub struct Files<'a> {
    pub house: File<'a>,
    pub control: File<'a>,
}

/// What the checker accepted, and a run to be shown.
pub struct Accepted<'a> {
    pub house: &'a House,
    pub control: &'a Control,
    pub samples: &'a [Sample],
    pub units: Units,
}

/// The page of an accepted file.
pub fn accepted(files: &Files, accepted: &Accepted) -> String {
    let kind = accepted.control.kind();
    let checker = if kind == Kind::Table { "hoachulim_check" } else { "hoachulim_start_check" };
    let of = if accepted.house.sheet.is_some() { "the plant of " } else { "the plant " };
    let verdict = format!(
        "<div class=\"verdict\"><strong>Accepted</strong> by the proved checker (<code>{checker}</code>): {} for {of}{}.</div>\n",
        escape(files.control.name),
        escape(files.house.name)
    );
    let body = [
        head(files, kind.words()),
        verdict,
        promise::promised(files, accepted),
        promise::modeller(accepted),
        figures::pictures(accepted),
        figures::tiles(accepted),
        sums(files, Some(accepted.house), kind.words()),
        signed(),
    ];
    whole(&format!("Release of {}", files.control.name), &body.concat())
}

/// The page of a file that is not released: what it could have been, and why it is not that. None of its words may be taken for a release.
pub fn refused(files: &Files, house: Option<&House>, reasons: &[Reason]) -> String {
    let reason = |Reason { kind, refusal, cause }: &Reason| {
        format!("<p>As a {}: <code>{}</code><br/>{}</p>\n", kind.words(), escape(&refusal.to_string()), escape(cause))
    };
    let reasons: String = reasons.iter().map(reason).collect();
    let verdict = format!(
        "<div class=\"verdict refused\"><strong>Refused</strong> by the proved checker.\n{reasons}<p>This page releases nothing. Run no controller with \
         these files.</p></div>\n"
    );
    let body = [head(files, "file"), verdict, sums(files, house, if house.is_some() { "refused" } else { "not judged" })];
    whole(&format!("Refused: {}", files.control.name), &body.concat())
}

fn head(files: &Files, kind: &str) -> String {
    format!(
        "<header>\n<p class=\"over\">Hoachulim, release page</p>\n<h1>{}</h1>\n<p class=\"quiet\">A {kind} for the house {}</p>\n</header>\n",
        escape(files.control.name),
        escape(files.house.name)
    )
}

/// The files with their sizes and sums; of a sheet the plant made of it too, which is what a controller is given. There is no house where it was refused.
fn sums(files: &Files, house: Option<&House>, kind: &str) -> String {
    let of_house = |kind| row(files.house.name, kind, files.house.bytes);
    let mut rows = match house {
        None => of_house("refused"),
        Some(house) if house.sheet.is_some() => of_house("sheet") + &row("the plant made of it", "plant", &house.bytes),
        Some(_) => of_house("plant"),
    };
    rows += &row(files.control.name, kind, files.control.bytes);
    format!(
        "<section>\n<h2>Files</h2>\n<p>A file with another size or sum is not the file that was judged.</p>\n<table class=\"files\">\
         <thead><tr><th>File</th><th>Kind</th><th>Size</th><th>SHA-256</th></tr></thead>\n<tbody>\n{rows}</tbody></table>\n</section>\n"
    )
}

fn row(name: &str, kind: &str, bytes: &[u8]) -> String {
    let sum = sha256::sum(bytes);
    // it may break between groups of eight, and is copied whole
    let groups: Vec<&str> = (0..8).map(|group| &sum[8 * group..8 * group + 8]).collect();
    format!("<tr><td>{}</td><td>{kind}</td><td class=\"size\">{} bytes</td><td class=\"sum\">{}</td></tr>\n", escape(name), bytes.len(), groups.join("<wbr/>"))
}

fn signed() -> String {
    let lines = [
        ("Modeller", "the plant fits the rooms"),
        ("Planner", "this is the file to be used"),
        ("Fitter", "the controller holds the files of these sums"),
    ];
    let rows: String = lines.iter().map(|(who, what)| format!("<tr><td>{who}<small>{what}</small></td><td></td><td></td></tr>\n")).collect();
    format!(
        "<section class=\"signed\">\n<h2>Signed</h2>\n<table><thead><tr><th>Who, and for what</th><th>Name and signature</th><th>Date</th></tr></thead>\n\
         <tbody>\n{rows}</tbody></table>\n</section>\n"
    )
}

fn whole(title: &str, body: &str) -> String {
    let (title, style, version) = (escape(title), include_str!("style.css"), env!("CARGO_PKG_VERSION"));
    format!(
        "<!DOCTYPE html>\n<html lang=\"en\">\n<head>\n<meta charset=\"utf-8\"/>\n<meta name=\"viewport\" content=\"width=device-width, initial-scale=1\"/>\n\
         <title>{title}</title>\n<style>\n{style}</style>\n</head>\n<body>\n<main>\n{body}<footer>\n<p>Written by hoachulim {version}. Verdict, plant and \
         modes come from the proved library; the words and pictures of this page are not proved.</p>\n</footer>\n</main>\n</body>\n</html>\n"
    )
}
