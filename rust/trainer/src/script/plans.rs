//! The plan of a script.

use super::Finder;
use crate::plan::text::hex;
use crate::plan::{PlanFile, Unread};
use crate::text::{Cursor, Mistake, Source};

/// What is wrong with a script's plan.
pub enum PlanMistake {
    /// In the script.
    Here(Mistake),
    /// In the plan's file.
    There(Unread),
}

impl PlanMistake {
    /// The message.
    pub fn show(&self, source: &Source) -> String {
        match self {
            PlanMistake::Here(mistake) => mistake.show(source),
            PlanMistake::There(unread) => unread.show(),
        }
    }
}

/// The plan of a script, which its first statement names, and the words that were taken.
pub fn plan_of(text: &str, finder: Finder) -> Result<(PlanFile, usize), PlanMistake> {
    let mut cursor = Cursor::new(text);
    while !cursor.is_done() && matches!(cursor.peek().text, "\n" | ";") {
        cursor.take();
    }
    if !cursor.takes("plan") {
        let mistake = cursor.expected("'plan' and a file, first");
        return Err(PlanMistake::Here(mistake));
    }
    if cursor.takes("bytes") {
        let bytes = plan_bytes(&mut cursor).map_err(PlanMistake::Here)?;
        return Ok((PlanFile::of_bytes("the plan", bytes), cursor.position()));
    }
    let word = cursor.raw("a plan's file, or 'bytes'").map_err(PlanMistake::Here)?;
    match finder(word.text) {
        Ok(plan) => Ok((plan, cursor.position())),
        Err(Unread::File(message)) => {
            let why = message.rsplit(": ").next().unwrap_or(&message).trim_end();
            let message = format!("the plan's file cannot be read: {why}");
            Err(PlanMistake::Here(Mistake::new(word.at, message)))
        }
        Err(unread) => Err(PlanMistake::There(unread)),
    }
}

fn plan_bytes(cursor: &mut Cursor) -> Result<Vec<u8>, Mistake> {
    let mut bytes = Vec::new();
    while !cursor.ends() {
        bytes.extend(hex(&cursor.word("bytes, two hex digits each")?)?);
    }
    Ok(bytes)
}
