//! A text cut into lines of words, with a fault's line and column. Comments go from # to the line's end; `..` is a word wherever it stands.
//! Relies on nothing. Leaves out which lines a text has.

use std::fmt;

/// What is wrong with a text, and where; lines and columns count from 1, columns in characters.
#[derive(Clone, Debug, PartialEq, Eq)]
pub struct Fault {
    pub line: usize,
    pub column: usize,
    pub words: String,
}

impl fmt::Display for Fault {
    fn fmt(&self, f: &mut fmt::Formatter) -> fmt::Result {
        write!(f, "line {}, column {}: {}", self.line, self.column, self.words)
    }
}

#[derive(Clone, Copy, Debug)]
struct Word<'a> {
    text: &'a str,
    column: usize,
}

/// A line that says something, read from its first word on.
#[derive(Clone, Debug)]
pub struct Line<'a> {
    number: usize,
    words: Vec<Word<'a>>,
    /// The column behind the last word.
    end: usize,
    next: usize,
}

/// The lines of a text that say something, read from the first on.
#[derive(Debug)]
pub struct Lines<'a> {
    lines: std::iter::Peekable<std::vec::IntoIter<Line<'a>>>,
    /// The line behind the last.
    end: usize,
}

impl<'a> Lines<'a> {
    pub fn of(text: &'a [u8]) -> Result<Self, Fault> {
        let text = std::str::from_utf8(text).map_err(|error| not_text(text, error.valid_up_to()))?;
        // some editors begin a text with a mark that nobody sees
        let text = text.trim_start_matches('\u{FEFF}');
        let lines: Vec<_> = text.lines().zip(1..).map(|(line, number)| cut(line, number)).filter(|line| !line.words.is_empty()).collect();
        Ok(Lines { lines: lines.into_iter().peekable(), end: text.lines().count() + 1 })
    }

    /// The next line, whatever it says; `wanted` is what was expected where there is none.
    pub fn next(&mut self, wanted: &str) -> Result<Line<'a>, Fault> {
        let words = || format!("expected {wanted}, found the text's end");
        self.lines.next().ok_or_else(|| Fault { line: self.end, column: 1, words: words() })
    }

    /// The next line, behind the words that it has to begin with.
    pub fn line(&mut self, wanted: &str) -> Result<Line<'a>, Fault> {
        let mut line = self.next(&format!("`{wanted}`"))?;
        line.words(wanted)?;
        Ok(line)
    }

    /// The next line, where it begins with these words.
    pub fn line_if(&mut self, wanted: &str) -> Option<Line<'a>> {
        let mut line = self.lines.peek()?.clone();
        line.words(wanted).ok()?;
        self.lines.next();
        Some(line)
    }

    /// That there is no line more.
    pub fn end(mut self) -> Result<(), Fault> {
        match self.lines.next() {
            None => Ok(()),
            Some(line) => Err(line.expected("the text's end")),
        }
    }
}

impl<'a> Line<'a> {
    /// These words.
    pub fn words(&mut self, wanted: &str) -> Result<(), Fault> {
        for word in wanted.split(' ') {
            if self.words.get(self.next).map(|found| found.text) != Some(word) {
                return Err(self.expected(&format!("`{word}`{}", within(wanted, word))));
            }
            self.next += 1;
        }
        Ok(())
    }

    /// One word, made by `of` into what it stands for; where it makes nothing, `wanted` is what was expected.
    pub fn word<T>(&mut self, wanted: &str, of: impl FnOnce(&str) -> Option<T>) -> Result<T, Fault> {
        let value = self.words.get(self.next).and_then(|word| of(word.text)).ok_or_else(|| self.expected(wanted))?;
        self.next += 1;
        Ok(value)
    }

    /// That there is no word more.
    pub fn end(self) -> Result<(), Fault> {
        match self.next == self.words.len() {
            true => Ok(()),
            false => Err(self.expected("the line's end")),
        }
    }

    /// A fault of the next word, whatever it is.
    pub fn expected(&self, wanted: &str) -> Fault {
        let found = self.words.get(self.next).map_or("the line's end".into(), |word| format!("`{}`", word.text));
        self.fault(self.next, format!("expected {wanted}, found {found}"))
    }

    /// A fault of the word that was read last.
    pub fn wrong(&self, words: String) -> Fault {
        self.fault(self.next - 1, words)
    }

    /// The word that was read last.
    pub fn last(&self) -> &'a str {
        self.words[self.next - 1].text
    }

    fn fault(&self, word: usize, words: String) -> Fault {
        Fault { line: self.number, column: self.words.get(word).map_or(self.end, |word| word.column), words }
    }
}

/// What a word is a part of, where it is not all that was wanted.
fn within(wanted: &str, word: &str) -> String {
    if wanted == word { String::new() } else { format!(" of `{wanted}`") }
}

/// The words of a line before its comment.
fn cut(line: &str, number: usize) -> Line<'_> {
    let said = line.split('#').next().unwrap_or("");
    let mut words = Vec::new();
    let mut column = 1;
    for piece in said.split_inclusive(char::is_whitespace) {
        let mut at = column;
        for text in dots(piece.trim_end()) {
            words.push(Word { text, column: at });
            at += text.chars().count();
        }
        column += piece.chars().count();
    }
    let end = 1 + said.trim_end().chars().count();
    Line { number, words, end, next: 0 }
}

/// A piece without blanks as words, `..` being one.
fn dots(piece: &str) -> Vec<&str> {
    let parts = match piece.find("..") {
        Some(at) => vec![&piece[..at], &piece[at..at + 2], &piece[at + 2..]],
        None => vec![piece],
    };
    parts.into_iter().filter(|part| !part.is_empty()).collect()
}

/// The fault of a byte that is no text.
fn not_text(bytes: &[u8], at: usize) -> Fault {
    let before = String::from_utf8_lossy(&bytes[..at]);
    let line = before.matches('\n').count() + 1;
    let column = before.chars().rev().take_while(|&c| c != '\n').count() + 1;
    Fault { line, column, words: "expected text, found a byte that is no UTF-8: is this a file and not its text?".into() }
}
