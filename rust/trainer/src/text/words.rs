//! A text cut into words, each with its place.

use super::{quoted, At, Mistake};

/// A word, one of the signs `, ; { } -- ->`, or the end of a line.
#[derive(Clone, Copy, Debug, PartialEq, Eq)]
pub struct Word<'t> {
    /// The word; a line's end is "\n".
    pub text: &'t str,
    /// Where it begins.
    pub at: At,
    /// Its first byte in the text.
    pub offset: usize,
}

/// Signs that stand by themselves.
const SIGNS: [char; 4] = [',', ';', '{', '}'];

/// Cuts a text into words; what follows a `#` up to the end of its line is left out.
pub fn words(text: &str) -> Vec<Word<'_>> {
    let mut words = Vec::new();
    let mut offset = 0;
    for (number, line) in text.split('\n').enumerate() {
        let code = line.split('#').next().unwrap_or("");
        cut(code, number + 1, offset, &mut words);
        let column = code.chars().count() + 1;
        let end = offset + code.len();
        words.push(Word { text: "\n", at: At { line: number + 1, column }, offset: end });
        offset += line.len() + 1;
    }
    words
}

/// Cuts one line.
fn cut<'t>(line: &'t str, number: usize, offset: usize, words: &mut Vec<Word<'t>>) {
    let mut start: Option<(usize, usize)> = None;
    let mut skip = 0;
    let place = |column: usize| At { line: number, column: column + 1 };
    let mut push = |from: usize, column: usize, to: usize| {
        words.push(Word { text: &line[from..to], at: place(column), offset: offset + from });
    };
    for (column, (byte, sign)) in line.char_indices().enumerate() {
        if skip > 0 {
            skip -= 1;
            continue;
        }
        let rest = &line[byte..];
        let double = rest.starts_with("--") || rest.starts_with("->");
        let alone = double || SIGNS.contains(&sign);
        if alone || sign.is_whitespace() {
            if let Some((from, begin)) = start.take() {
                push(from, begin, byte);
            }
        } else if start.is_none() {
            start = Some((byte, column));
        }
        if alone {
            skip = usize::from(double);
            push(byte, column, byte + sign.len_utf8() + skip);
        }
    }
    if let Some((from, begin)) = start {
        push(from, begin, line.len());
    }
}

/// Goes through the words of a text, statement by statement.
#[derive(Clone, Debug)]
pub struct Cursor<'t> {
    text: &'t str,
    words: Vec<Word<'t>>,
    next: usize,
}

impl<'t> Cursor<'t> {
    /// Before the first word.
    pub fn new(text: &'t str) -> Self {
        Cursor { text, words: words(text), next: 0 }
    }

    /// The next word, which stays; the last line's end stays for ever.
    pub fn peek(&self) -> Word<'t> {
        self.words[self.next.min(self.words.len() - 1)]
    }

    /// Takes the next word.
    pub fn take(&mut self) -> Word<'t> {
        let word = self.peek();
        self.next += 1;
        word
    }

    /// Whether no word is left.
    pub fn is_done(&self) -> bool {
        self.next >= self.words.len()
    }

    /// Whether the statement ends here: at a line's end, a `;` or a brace.
    pub fn ends(&self) -> bool {
        matches!(self.peek().text, "\n" | ";" | "{" | "}")
    }

    /// Takes the next word if it is this one.
    pub fn takes(&mut self, text: &str) -> bool {
        let found = self.peek().text == text;
        self.next += usize::from(found);
        found
    }

    /// Takes a word of the statement.
    pub fn word(&mut self, wanted: &str) -> Result<Word<'t>, Mistake> {
        if self.ends() || matches!(self.peek().text, "," | "--" | "->") {
            return Err(self.expected(wanted));
        }
        Ok(self.take())
    }

    /// Takes this very word.
    pub fn keyword(&mut self, text: &str) -> Result<(), Mistake> {
        self.takes(text).then_some(()).ok_or_else(|| self.expected(&format!("'{text}'")))
    }

    /// Takes one of these words and gives its number.
    pub fn one_of(&mut self, texts: &[&str]) -> Result<usize, Mistake> {
        let found = texts.iter().position(|&text| text == self.peek().text);
        let quoted: Vec<String> = texts.iter().map(|text| format!("'{text}'")).collect();
        let at = found.ok_or_else(|| self.expected(&quoted.join(" or ")))?;
        self.next += 1;
        Ok(at)
    }

    /// Takes a number.
    pub fn number(&mut self, wanted: &str) -> Result<u32, Mistake> {
        let word = self.word(wanted)?;
        number(word.text).ok_or_else(|| {
            Mistake::new(word.at, format!("expected {wanted}, found {}", quoted(word.text)))
        })
    }

    /// Takes the end of a statement.
    pub fn end(&mut self) -> Result<(), Mistake> {
        if !self.ends() {
            return Err(self.expected("the end of the line"));
        }
        Ok(())
    }

    /// Takes all up to the next blank or `;` as it stands, as a file's name needs it.
    pub fn raw(&mut self, wanted: &str) -> Result<Word<'t>, Mistake> {
        let first = self.peek();
        if self.ends() {
            return Err(self.expected(wanted));
        }
        let rest = &self.text[first.offset..];
        let end = rest.find(|sign: char| sign.is_whitespace() || sign == ';' || sign == '#');
        let text = &rest[..end.unwrap_or(rest.len())];
        let past = first.offset + text.len();
        while !self.is_done() && self.peek().offset < past {
            self.next += 1;
        }
        Ok(Word { text, ..first })
    }

    /// How many words were taken.
    pub fn position(&self) -> usize {
        self.next
    }

    /// Goes on after so many words.
    pub fn go_to(&mut self, position: usize) {
        self.next = position;
    }

    /// What stands between a position and here, in one line.
    pub fn between(&self, from: usize) -> String {
        let words = &self.words[from..self.next.min(self.words.len())];
        let (Some(first), Some(last)) = (words.first(), words.last()) else {
            return String::new();
        };
        let text = &self.text[first.offset..last.offset + length(last)];
        text.split_whitespace().collect::<Vec<_>>().join(" ")
    }

    /// "expected X, found Y" at the next word.
    pub fn expected(&self, wanted: &str) -> Mistake {
        let word = self.peek();
        let found = match word.text {
            "\n" => "the end of the line".to_string(),
            text => quoted(text),
        };
        Mistake::new(word.at, format!("expected {wanted}, found {found}"))
    }
}

/// A word's length in the text; a line's end has none.
fn length(word: &Word) -> usize {
    if word.text == "\n" {
        0
    } else {
        word.text.len()
    }
}

/// A number in base ten, at most nine digits.
pub fn number(text: &str) -> Option<u32> {
    let digits = !text.is_empty() && text.bytes().all(|byte| byte.is_ascii_digit());
    (digits && text.len() <= 9).then(|| text.parse().ok()).flatten()
}

#[cfg(test)]
mod tests {
    use super::*;

    #[test]
    fn words_have_their_places() {
        let found = words("a  b-c--d\n  é->x,{ # no");
        let told: Vec<(&str, usize, usize)> =
            found.iter().map(|w| (w.text, w.at.line, w.at.column)).collect();
        let expected = [
            ("a", 1, 1),
            ("b-c", 1, 4),
            ("--", 1, 7),
            ("d", 1, 9),
            ("\n", 1, 10),
            ("é", 2, 3),
            ("->", 2, 4),
            ("x", 2, 6),
            (",", 2, 7),
            ("{", 2, 8),
            ("\n", 2, 10),
        ];
        assert_eq!(told, expected);
    }

    #[test]
    fn a_file_name_is_taken_as_it_stands() {
        let mut cursor = Cursor::new("plan ../a--b,c.plan # here\nx");
        cursor.take();
        assert_eq!(cursor.raw("a file").unwrap().text, "../a--b,c.plan");
        assert!(cursor.ends());
    }
}
