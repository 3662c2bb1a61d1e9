//! Blocks of calls in any order.

use super::parse::Parser;
use super::Block;
use crate::text::words::number;
use crate::text::{quoted, At, Mistake};

/// The most calls that a block may hold.
const BLOCK: usize = 6;

impl Parser<'_, '_> {
    /// "any order" and what follows.
    pub(super) fn block(&mut self, at: At) -> Result<Block, Mistake> {
        self.cursor.keyword("order")?;
        let gaps = if self.cursor.takes("spaced") { self.gaps()? } else { (0, 0) };
        self.cursor.keyword("{")?;
        let mut items = Vec::new();
        loop {
            while !self.cursor.is_done() && matches!(self.cursor.peek().text, "\n" | ";") {
                self.cursor.take();
            }
            if self.cursor.is_done() {
                return Err(Mistake::new(at, "this block has no end: '}' is missing"));
            }
            if self.cursor.takes("}") {
                break;
            }
            let word = self.cursor.take();
            if !matches!(word.text, "launch" | "reply") {
                return Err(stranger(word.at, word.text));
            }
            items.push((self.call(word.text)?, word.at));
        }
        if items.is_empty() || items.len() > BLOCK {
            let message = format!("a block has 1 to {BLOCK} calls, this one has {}", items.len());
            return Err(Mistake::new(at, message));
        }
        Ok(Block { gaps, items })
    }

    /// `3` or `0..3`.
    fn gaps(&mut self) -> Result<(usize, usize), Mistake> {
        let word = self.cursor.word("rounds between, as in 3 or 0..3")?;
        let ends = word.text.split_once("..").unwrap_or((word.text, word.text));
        let gap = |text: &str| number(text).filter(|&gap| gap <= 1_000).map(|gap| gap as usize);
        match (gap(ends.0), gap(ends.1)) {
            (Some(least), Some(most)) if least <= most => Ok((least, most)),
            _ => Err(Mistake::new(
                word.at,
                format!("expected rounds between, as in 3 or 0..3, found {}", quoted(word.text)),
            )),
        }
    }
}

/// A statement that does not stand in a block.
fn stranger(at: At, text: &str) -> Mistake {
    let message = format!("expected 'launch', 'reply' or '}}', found {}", quoted(text));
    match text {
        "wait" => Mistake::new(at, message).note(
            "a block launches, and who waits launches nothing: write 'wait' behind the block",
        ),
        _ => Mistake::new(at, message),
    }
}
