//! Texts that people write: words with their places, and what is wrong at a place.

pub mod words;

pub use words::{Cursor, Word};

use std::fmt;

/// How many columns of a line are shown around a mistake.
const SHOWN: usize = 88;

/// A text with the name it is told by.
#[derive(Clone, Debug)]
pub struct Source {
    /// The file's name.
    pub name: String,
    /// The text.
    pub text: String,
}

/// A place in a text, both from 1.
#[derive(Clone, Copy, Debug, PartialEq, Eq, Default)]
pub struct At {
    /// The line.
    pub line: usize,
    /// The column, in signs.
    pub column: usize,
}

/// What is wrong with a text, and where.
#[derive(Clone, Debug, PartialEq, Eq)]
pub struct Mistake {
    /// Where.
    pub at: At,
    /// What is wrong.
    pub message: String,
    /// What could stand there.
    pub note: Option<String>,
}

/// Why a file cannot be read.
#[derive(Clone, Debug)]
pub enum Unread {
    /// The file itself.
    File(String),
    /// A mistake in its text.
    Text(Source, Mistake),
}

impl Unread {
    /// The message.
    pub fn show(&self) -> String {
        match self {
            Unread::File(message) => format!("{message}\n"),
            Unread::Text(source, mistake) => mistake.show(source),
        }
    }
}

impl fmt::Display for At {
    fn fmt(&self, f: &mut fmt::Formatter) -> fmt::Result {
        write!(f, "{}:{}", self.line, self.column)
    }
}

impl Mistake {
    /// A mistake at a place.
    pub fn new(at: At, message: impl Into<String>) -> Mistake {
        Mistake { at, message: message.into(), note: None }
    }

    /// With what could stand there.
    pub fn note(self, note: impl Into<String>) -> Mistake {
        Mistake { note: Some(note.into()), ..self }
    }

    /// File, place and message, the line with a mark under the place, the note.
    pub fn show(&self, source: &Source) -> String {
        let Mistake { at, message, note } = self;
        let head = format!("{}:{at}: {message}", source.name);
        let mut text = format!("{}\n", crate::print::wrap(&head, 4, 0));
        if let Some(line) = source.text.lines().nth(at.line.saturating_sub(1)) {
            let (line, before) = excerpt(line, at.column);
            text += &format!("    {line}\n    {:before$}^\n", "");
        }
        if let Some(note) = note {
            text += &format!("    {}\n", crate::print::wrap(note, 4, 4));
        }
        text
    }
}

/// The sign that some editors put before a text (the byte order mark), as bytes.
const MARK: &[u8] = &[0xEF, 0xBB, 0xBF];

/// The contents behind the mark that a text may begin with. It has no line and no column.
pub fn behind_mark(contents: &[u8]) -> &[u8] {
    contents.strip_prefix(MARK).unwrap_or(contents)
}

/// The text of a file's contents; where they are none, the place of the first wrong byte.
pub fn of_bytes(name: &str, contents: &[u8]) -> Result<String, Unread> {
    String::from_utf8(behind_mark(contents).to_vec()).map_err(|error| {
        let valid = error.utf8_error().valid_up_to();
        let text = String::from_utf8_lossy(error.as_bytes()).to_string();
        let before = &text[..valid];
        let line = before.matches('\n').count() + 1;
        let column = before.rsplit('\n').next().unwrap_or("").chars().count() + 1;
        let source = Source { name: name.to_string(), text };
        Unread::Text(source, Mistake::new(At { line, column }, "a byte that is no sign of a text"))
    })
}

/// The part of a line around a column, fit to print, and how many signs stand before the column.
fn excerpt(line: &str, column: usize) -> (String, usize) {
    let signs: Vec<char> = line.chars().collect();
    let at = column.saturating_sub(1).min(signs.len());
    let first = at.saturating_sub(SHOWN * 3 / 4).min(signs.len().saturating_sub(SHOWN));
    let last = signs.len().min(first + SHOWN);
    let plain = |&sign: &char| if sign.is_control() { ' ' } else { sign };
    (signs[first..last].iter().map(plain).collect::<String>().trim_end().to_string(), at - first)
}

/// "a, b, c"; the first dozen of many.
pub fn listed(names: &[String]) -> String {
    match names {
        [] => "none".to_string(),
        names if names.len() <= 12 => names.join(", "),
        names => format!("{} and {} more", names[..12].join(", "), names.len() - 12),
    }
}

/// A word between quotation marks, shortened if it is long.
pub fn quoted(word: &str) -> String {
    let plain: String = word.chars().map(|c| if c.is_control() { ' ' } else { c }).collect();
    match plain.char_indices().nth(24) {
        Some((end, _)) => format!("'{}..'", &plain[..end]),
        None => format!("'{plain}'"),
    }
}

#[cfg(test)]
mod tests {
    use super::*;

    #[test]
    fn a_long_line_is_cut_around_the_place() {
        let text = format!("{}X{}", "a".repeat(500), "b".repeat(500));
        let source = Source { name: "f".to_string(), text };
        let shown = Mistake::new(At { line: 1, column: 501 }, "here").show(&source);
        let lines: Vec<&str> = shown.lines().collect();
        assert_eq!(lines[1].find('X'), lines[2].find('^'));
        assert!(lines.iter().all(|line| line.chars().count() <= 100));
    }

    #[test]
    fn a_place_past_the_end_is_shown() {
        let source = Source { name: "f".to_string(), text: "ab\n".to_string() };
        assert_eq!(Mistake::new(At { line: 2, column: 1 }, "m").show(&source), "f:2:1: m\n");
        let shown = Mistake::new(At { line: 1, column: 9 }, "m").show(&source);
        assert_eq!(shown, "f:1:9: m\n    ab\n      ^\n");
    }
}
