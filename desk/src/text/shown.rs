//! A text as it is shown: lines, gaps between them, comments in one column.

/// The column at which comments stand, where a line leaves room.
const COMMENT: usize = 32;

/// The text so far.
#[derive(Default)]
pub struct Shown(pub String);

impl Shown {
    pub fn line(&mut self, words: impl AsRef<str>) {
        self.0 += words.as_ref();
        self.0.push('\n');
    }

    /// A line with a comment, where there is one.
    pub fn noted(&mut self, words: String, comment: String) {
        match comment.is_empty() {
            true => self.line(words),
            false => self.line(format!("{words:COMMENT$} # {comment}")),
        }
    }

    /// Lines with comments that all stand in the column behind the longest.
    pub fn list(&mut self, lines: &[(String, String)]) {
        let column = lines.iter().map(|(words, _)| words.len()).max().unwrap_or(0);
        for (words, comment) in lines {
            self.line(format!("{words:column$} # {comment}"));
        }
    }

    pub fn gap(&mut self) {
        self.line("");
    }
}
