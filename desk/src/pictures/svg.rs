//! SVG as text: shapes and words under classes, and the one style that all pictures have. Relies on nothing.
//! Words are in a font of one width, so that what a label covers is known before it is drawn.

use std::fmt::Write;

/// The width of every picture, in pixels: narrow enough that a telephone, which shows it smaller, leaves the words to be read.
pub const WIDTH: f64 = 480.0;

/// The size of a label's letters, and how wide a letter is for its size.
pub const LETTER: f64 = 12.0;
pub const WIDE: f64 = 0.61;

/// Darker is longer or inner, in grey too: no meaning hangs on a colour alone.
const STYLE: &str = "svg.picture{font:12px 'DejaVu Sans Mono',Menlo,Consolas,monospace;fill:#1c2733;stroke:none}\
.picture .heading{font-weight:bold}.picture .quiet{fill:#56606b}\
.picture .s{fill:#f2f0ea}.picture .edge{fill:none;stroke:#1c2733;stroke-width:1.4}.picture .r{fill:none;stroke:#1c2733;stroke-width:2}\
.picture .frame{fill:none;stroke:#8a9199;stroke-width:.6}.picture .tick{fill:none;stroke:#56606b;stroke-width:.8}\
.picture .tile,.picture .key{stroke:#1c2733;stroke-width:.5}.picture .line{fill:none;stroke:#1f4e79;stroke-width:.9}\
.picture .fine .tile{stroke-width:.15}.picture .fine .line{stroke-width:.5}\
.picture .k1{fill:#fff}.picture .k2{fill:#f4e8d3}.picture .k3{fill:#e8d1a9}.picture .k4{fill:#d9b67c}.picture .k5{fill:#c6974f}.picture .k6{fill:#ab7427}\
.picture .pattern,.picture .inner{paint-order:stroke;stroke:#fff;stroke-width:3px;stroke-linejoin:round}\
.picture .run{fill:none;stroke:#1f4e79;stroke-width:1.3;stroke-linejoin:round}\
.picture .idle{fill:#1f4e79}.picture .running{fill:#fff;stroke:#1f4e79;stroke-width:1.1}.picture .on{fill:#1c2733}.picture .lane{fill:#eceae4}\
.picture .box{fill:#5d6f5c;fill-opacity:.1;stroke:#1c2733;stroke-width:.9}";

/// A rectangle of pixels.
#[derive(Clone, Copy, Debug)]
pub struct Area {
    pub x: f64,
    pub y: f64,
    pub width: f64,
    pub height: f64,
}

impl Area {
    /// Between two spans of pixels, across and down.
    pub fn between(x: (f64, f64), y: (f64, f64)) -> Area {
        Area { x: x.0, y: y.0, width: x.1 - x.0, height: y.1 - y.0 }
    }

    pub fn middle(&self) -> (f64, f64) {
        (self.x + self.width / 2.0, self.y + self.height / 2.0)
    }
}

/// Where a word stands against its point.
#[derive(Clone, Copy)]
pub enum Stands {
    Behind,
    Across,
    Before,
    /// Across, read upwards.
    Upwards,
}

/// A picture, drawn from its top on.
#[derive(Default)]
pub struct Svg {
    body: String,
}

impl Svg {
    /// A shape of a tag with its own numbers as attributes, already escaped.
    pub fn raw(&mut self, shape: &str) {
        self.body += shape;
        self.body.push('\n');
    }

    pub fn rect(&mut self, class: &str, area: Area) {
        self.raw(&format!("<rect class=\"{class}\" {}/>", at(area)));
    }

    pub fn line(&mut self, class: &str, from: (f64, f64), to: (f64, f64)) {
        self.path(class, &format!("M{} {}L{} {}", px(from.0), px(from.1), px(to.0), px(to.1)));
    }

    /// A path, where it goes anywhere.
    pub fn path(&mut self, class: &str, path: &str) {
        if !path.is_empty() {
            self.raw(&format!("<path class=\"{class}\" d=\"{path}\"/>"));
        }
    }

    pub fn dot(&mut self, class: &str, (x, y): (f64, f64), radius: f64) {
        self.raw(&format!("<circle class=\"{class}\" cx=\"{}\" cy=\"{}\" r=\"{}\"/>", px(x), px(y), px(radius)));
    }

    /// A line through points.
    pub fn through(&mut self, class: &str, points: impl Iterator<Item = (f64, f64)>) {
        let points: Vec<String> = points.map(|(x, y)| format!("{},{}", px(x), px(y))).collect();
        self.raw(&format!("<polyline class=\"{class}\" points=\"{}\"/>", points.join(" ")));
    }

    /// Words at a point, their foot on it.
    pub fn words(&mut self, class: &str, point: (f64, f64), stands: Stands, words: &str) {
        self.sized(class, point, stands, LETTER, words);
    }

    /// Words in letters of a size.
    pub fn sized(&mut self, class: &str, (x, y): (f64, f64), stands: Stands, size: f64, words: &str) {
        let (x, y) = (px(x), px(y));
        let mut text = format!("<text class=\"{class}\" x=\"{x}\" y=\"{y}\"");
        // what is the style's own is not said again
        if size != LETTER {
            let _ = write!(text, " font-size=\"{}\"", px(size));
        }
        text += match stands {
            Stands::Behind => "",
            Stands::Before => " text-anchor=\"end\"",
            Stands::Across | Stands::Upwards => " text-anchor=\"middle\"",
        };
        if let Stands::Upwards = stands {
            let _ = write!(text, " transform=\"rotate(-90 {x} {y})\"");
        }
        self.raw(&format!("{text}>{}</text>", escape(words)));
    }

    /// The file of the picture, of this height; its title says what is seen.
    pub fn close(self, height: f64, title: &str) -> String {
        let (width, height, title) = (px(WIDTH), px(height), escape(title));
        format!(
            "<svg xmlns=\"http://www.w3.org/2000/svg\" class=\"picture\" viewBox=\"0 0 {width} {height}\" width=\"{width}\" height=\"{height}\" role=\"img\">\n\
             <title>{title}</title>\n<style>{STYLE}</style>\n{}</svg>\n",
            self.body
        )
    }
}

/// How wide words are in letters of a size.
pub fn wide(words: &str, size: f64) -> f64 {
    words.chars().count() as f64 * size * WIDE
}

/// The size of letters in which words are no wider than that, a label's at most.
pub fn fitting(words: &str, most: f64) -> f64 {
    LETTER.min(LETTER * most / wide(words, LETTER))
}

/// An area's attributes.
pub fn at(area: Area) -> String {
    format!("x=\"{}\" y=\"{}\" width=\"{}\" height=\"{}\"", px(area.x), px(area.y), px(area.width), px(area.height))
}

/// Pixels to a hundredth, in as few letters as that takes.
pub fn px(value: f64) -> String {
    let text = format!("{value:.2}");
    let text = text.trim_end_matches('0').trim_end_matches('.');
    if text == "-0" { "0".into() } else { text.into() }
}

/// Words as XML and HTML take them, in text and in attributes.
pub fn escape(words: &str) -> String {
    let mut text = String::with_capacity(words.len());
    for letter in words.chars() {
        match letter {
            '&' => text += "&amp;",
            '<' => text += "&lt;",
            '>' => text += "&gt;",
            '"' => text += "&quot;",
            // no XML has other control letters, not even escaped
            '\u{0}'..='\u{8}' | '\u{b}' | '\u{c}' | '\u{e}'..='\u{1f}' | '\u{fffe}' | '\u{ffff}' => text.push('\u{fffd}'),
            _ => text.push(letter),
        }
    }
    text
}
