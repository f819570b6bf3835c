//! The values of a text: whole numbers, floats, sides in degrees or in counts. Degrees are decimals and are turned into counts exactly.
//! Relies on `lines`. Leaves out which values a text has.

use super::lines::{Fault, Line};
use crate::files::{boxes, Side};

/// A whole number of lo .. hi.
pub fn whole(line: &mut Line, name: &str, lo: i64, hi: i64) -> Result<i64, Fault> {
    let wanted = format!("{name}, a whole number of {lo} .. {hi}");
    line.word(&wanted, |word| digits(word)?.parse().ok().filter(|value| (lo..=hi).contains(value)))
}

/// A side of whole numbers within ±most.
pub fn band(line: &mut Line, name: &str, most: i64) -> Result<Side, Fault> {
    let lo = whole(line, name, -most, most)?;
    line.words("..")?;
    Ok(Side { lo, hi: whole(line, name, lo, most)? })
}

/// What a float has to be.
#[derive(Clone, Copy, PartialEq)]
pub enum Sign {
    Any,
    Above0,
    NotBelow0,
}

/// A float in decimals, the nearest there is.
pub fn float(line: &mut Line, name: &str, sign: Sign) -> Result<f64, Fault> {
    let wanted = match sign {
        Sign::Any => format!("{name}, a number such as 12, -0.5 or 1e-3"),
        Sign::Above0 => format!("{name}, a number above 0"),
        Sign::NotBelow0 => format!("{name}, a number not below 0"),
    };
    let keeps = |value: &f64| match sign {
        Sign::Any => true,
        Sign::Above0 => *value > 0.0,
        Sign::NotBelow0 => *value >= 0.0,
    };
    line.word(&wanted, |word| scientific(word)?.parse().ok().filter(|value: &f64| value.is_finite()).filter(keeps))
}

/// A float so that reading it gives the same bits.
pub fn float_words(value: f64) -> String {
    format!("{value:?}")
}

/// The side `LO .. HI degrees` or `LO .. HI counts`, in counts, within ±most; `counts` is how many a degree has, where that is known.
pub fn side(line: &mut Line, name: &str, counts: Option<i64>, most: i64) -> Result<Side, Fault> {
    let unit = line.clone().unit(name)?;
    let lo = edge(line, name, unit, counts, -most, most)?;
    line.words("..")?;
    let hi = edge(line, name, unit, counts, lo, most)?;
    line.words(unit.word())?;
    Ok(Side { lo, hi })
}

#[derive(Clone, Copy, PartialEq)]
enum Unit {
    Degrees,
    Counts,
}

impl Unit {
    fn word(self) -> &'static str {
        match self {
            Unit::Degrees => "degrees",
            Unit::Counts => "counts",
        }
    }
}

impl Line<'_> {
    /// The unit behind two edges, looked at before the edges are read.
    fn unit(mut self, name: &str) -> Result<Unit, Fault> {
        let decimal = format!("{name}, a number");
        self.word(&decimal, Decimal::of)?;
        self.words("..")?;
        self.word(&decimal, Decimal::of)?;
        self.word("`degrees` or `counts`", |word| [Unit::Degrees, Unit::Counts].into_iter().find(|unit| unit.word() == word))
    }
}

/// One edge of a side, of lo .. hi counts.
fn edge(line: &mut Line, name: &str, unit: Unit, counts: Option<i64>, lo: i64, hi: i64) -> Result<i64, Fault> {
    let decimal = line.word(&format!("{name}, a number"), Decimal::of)?;
    let word = line.last();
    let edge = match (unit, counts) {
        (Unit::Counts, _) => decimal.whole(1).ok_or_else(|| format!("{word} is no whole number of counts")),
        (Unit::Degrees, Some(counts)) => decimal.whole(counts).ok_or_else(|| not_whole(word, decimal, counts)),
        (Unit::Degrees, None) => Err(format!("how many counts {word} degrees are is not said: give counts, or a line `counts a degree` behind `rooms`")),
    };
    let right = |edge: i128| i64::try_from(edge).ok().filter(|edge| (lo..=hi).contains(edge));
    let edge = edge.and_then(|edge| right(edge).ok_or_else(|| format!("{name} is {edge} counts, wanted {lo} .. {hi}")));
    edge.map_err(|words| line.wrong(words))
}

/// The refusal of a temperature that no count stands for.
fn not_whole(word: &str, decimal: Decimal, counts: i64) -> String {
    let times = Decimal { mantissa: decimal.mantissa * i128::from(counts), scale: decimal.scale };
    format!("{word} degrees is {} counts at {counts} a degree", times.fixed().trim_end_matches('0'))
}

/// mantissa / 10^scale.
#[derive(Clone, Copy)]
struct Decimal {
    mantissa: i128,
    scale: u32,
}

impl Decimal {
    /// A word such as -21.05; at most 24 digits, so that no product of it wraps.
    fn of(word: &str) -> Option<Decimal> {
        let (sign, digits) = unsigned(word);
        let (whole, part) = digits.split_once('.').unwrap_or((digits, "0"));
        let all = format!("{whole}{part}");
        let right = !whole.is_empty() && !part.is_empty() && all.len() <= 24 && all.bytes().all(|byte| byte.is_ascii_digit());
        right.then(|| all.parse().ok().map(|mantissa: i128| Decimal { mantissa: sign * mantissa, scale: part.len() as u32 }))?
    }

    /// The whole number that it is `times` over.
    fn whole(self, times: i64) -> Option<i128> {
        let (product, ten) = (self.mantissa * i128::from(times), 10_i128.pow(self.scale));
        (product % ten == 0).then_some(product / ten)
    }

    /// With as many places as the scale.
    fn fixed(self) -> String {
        let digits = format!("{:0>1$}", self.mantissa.unsigned_abs(), self.scale as usize + 1);
        let (whole, part) = digits.split_at(digits.len() - self.scale as usize);
        let sign = if self.mantissa < 0 { "-" } else { "" };
        if part.is_empty() { format!("{sign}{whole}") } else { format!("{sign}{whole}.{part}") }
    }
}

/// So many counts in degrees, where every count has a decimal: with as many places as one count needs.
pub fn degrees(count: i64, counts: i64) -> Option<String> {
    let scale = (0..10).find(|&scale| 10_i64.pow(scale) % counts == 0)?;
    let mantissa = i128::from(count) * i128::from(10_i64.pow(scale) / counts);
    Some(Decimal { mantissa, scale }.fixed())
}

/// A box as a text has it, and what it is in the other unit, for a comment. Counts where `counts`, how many a degree has, is not known or has no decimal.
pub fn box_words(sides: &[Side], counts: Option<i64>) -> (String, String) {
    let by = |words: &dyn Fn(&Side) -> Option<String>| sides.iter().map(words).collect::<Option<Vec<_>>>().map(|sides| sides.join(" by "));
    let in_counts = format!("{} counts", boxes::words(sides));
    let Some(counts) = counts else {
        return (in_counts, String::new());
    };
    let about = |side: &Side| format!("{:.3} .. {:.3}", side.lo as f64 / counts as f64, side.hi as f64 / counts as f64);
    match by(&|side| Some(format!("{} .. {}", degrees(side.lo, counts)?, degrees(side.hi, counts)?))) {
        Some(exact) => (format!("{exact} degrees"), in_counts),
        None => (in_counts, format!("about {} degrees", by(&|side| Some(about(side))).unwrap_or_default())),
    }
}

/// A word's sign and what stands behind it; a minus may be the typist's or the printer's.
fn unsigned(word: &str) -> (i128, &str) {
    match word.strip_prefix(['-', '−']) {
        Some(rest) => (-1, rest),
        None => (1, word),
    }
}

/// A whole number as Rust reads it.
fn digits(word: &str) -> Option<String> {
    let (sign, digits) = unsigned(word);
    let right = !digits.is_empty() && digits.bytes().all(|byte| byte.is_ascii_digit());
    right.then(|| format!("{}{digits}", if sign < 0 { "-" } else { "" }))
}

/// A float as Rust reads it: digits, a point with digits behind it, an exponent; no words, no bare points.
fn scientific(word: &str) -> Option<String> {
    let (sign, digits_of) = unsigned(word);
    let (decimal, exponent) = digits_of.split_once('e').unwrap_or((digits_of, "0"));
    let (whole, part) = decimal.split_once('.').unwrap_or((decimal, "0"));
    let are_digits = |text: &str| !text.is_empty() && text.bytes().all(|byte| byte.is_ascii_digit());
    let exponent = digits(exponent)?;
    (are_digits(whole) && are_digits(part)).then(|| format!("{}{whole}.{part}e{exponent}", if sign < 0 { "-" } else { "" }))
}
