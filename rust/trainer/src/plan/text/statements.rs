//! The statements of a plan's text.

use trace::plan::CAPACITIES;
use trace::Port;

use super::names::{named, no_side, port, side, unknown};
use super::{Destination, Draft};
use crate::text::{quoted, Cursor, Mistake, Word};

impl Draft {
    /// `slots`.
    pub(super) fn slots(&mut self, cursor: &mut Cursor) -> Result<(), Mistake> {
        let at = cursor.peek().at;
        let slots = bounded(cursor, "the number of slots, 2 to 32", 63)?;
        if let Some((_, before)) = self.slots {
            let message = format!("the slots are already given, in line {}", before.line);
            return Err(Mistake::new(at, message));
        }
        self.slots = Some((slots, at));
        Ok(())
    }

    /// `capacity`.
    pub(super) fn capacity(&mut self, cursor: &mut Cursor) -> Result<(), Mistake> {
        loop {
            let name = cursor.word("a queue's kind")?;
            let known = CAPACITIES.iter().position(|&known| known == name.text);
            let all = name.text == "all";
            if known.is_none() && !all {
                let message = format!("no capacity named {}", quoted(name.text));
                let names = format!("names: all, {}", CAPACITIES.join(", "));
                return Err(Mistake::new(name.at, message).note(names));
            }
            let at = cursor.peek().at;
            let capacity = bounded(cursor, "a capacity, 1 to 7", 7)?;
            match known {
                Some(number) => self.capacities[number] = (capacity, at),
                None => self.capacities = [(capacity, at); 8],
            }
            if !cursor.takes(",") {
                return Ok(());
            }
        }
    }

    /// `active` and `passive`.
    pub(super) fn interface(&mut self, cursor: &mut Cursor, active: bool) -> Result<(), Mistake> {
        let name = cursor.word("a name")?;
        if !cursor.takes("at") {
            return if cursor.ends() { Ok(()) } else { Err(cursor.expected("'at'")) };
        }
        let port = self.free_port(cursor)?;
        let (names, homes) = match active {
            true => (&self.names.actives, &mut self.actives),
            false => (&self.names.passives, &mut self.passives),
        };
        let number = names.iter().position(|other| other == name.text);
        homes[number.expect("it has its name")].0 = Some(port);
        Ok(())
    }

    /// `joint`.
    pub(super) fn joint(&mut self, cursor: &mut Cursor) -> Result<(), Mistake> {
        let at = cursor.peek().at;
        let one = self.free_port(cursor)?;
        cursor.keyword("--")?;
        let other = self.free_port(cursor)?;
        self.joints.push((one, other, at));
        Ok(())
    }

    /// A side that is not joined yet.
    fn free_port(&mut self, cursor: &mut Cursor) -> Result<Port, Mistake> {
        let word = cursor.word("a side, as in r0.1")?;
        let port = port(&self.names, &word)?;
        if let Some((_, before)) = self.taken.iter().find(|(taken, _)| *taken == port) {
            let router = self.names.router(port.router);
            let line = before.line;
            let message =
                format!("side {} of {router} is already joined, in line {line}", port.side);
            return Err(Mistake::new(word.at, message));
        }
        self.taken.push((port, word.at));
        Ok(port)
    }

    /// `serve`.
    pub(super) fn serve(&mut self, cursor: &mut Cursor) -> Result<(), Mistake> {
        if cursor.takes("all") {
            self.serve = None;
            return Ok(());
        }
        let mut pairs = self.serve.take().unwrap_or_default();
        loop {
            let at = cursor.peek().at;
            let active = named(cursor, "an active", &self.names.actives)?;
            cursor.keyword("->")?;
            let passive = named(cursor, "a passive", &self.names.passives)?;
            pairs.push((active, passive, at));
            if !cursor.takes(",") {
                break;
            }
        }
        self.serve = Some(pairs);
        Ok(())
    }

    /// `route`.
    pub(super) fn route(&mut self, cursor: &mut Cursor) -> Result<(), Mistake> {
        let at = cursor.peek().at;
        let router = named(cursor, "a router", &self.names.routers)?;
        cursor.keyword("to")?;
        let word = cursor.word("an active or a passive")?;
        let find = |names: &[String]| names.iter().position(|name| name == word.text);
        let active = find(&self.names.actives).map(Destination::Active);
        let to = active.or_else(|| find(&self.names.passives).map(Destination::Passive));
        let to = to.ok_or_else(|| {
            let names = [self.names.actives.clone(), self.names.passives.clone()].concat();
            unknown(&word, "an active or a passive", &names)
        })?;
        if cursor.takes("none") {
            self.routes.push((router, to, None, at));
            return Ok(());
        }
        cursor.one_of(&["by", "none"])?;
        let word = cursor.word("a side, 0 to 3")?;
        let side = side(word.text).ok_or_else(|| no_side(word.at, word.text))?;
        self.routes.push((router, to, Some(side), at));
        Ok(())
    }

    /// `bytes`.
    pub(super) fn bytes(&mut self, cursor: &mut Cursor) -> Result<(), Mistake> {
        let at = cursor.peek().at;
        let mut bytes = Vec::new();
        while !cursor.ends() {
            let word = cursor.word("bytes, two hex digits each")?;
            bytes.extend(hex(&word)?);
        }
        self.bytes = Some((bytes, at));
        Ok(())
    }
}

/// The bytes of a word of hex digits.
pub fn hex(word: &Word) -> Result<Vec<u8>, Mistake> {
    let digits: Option<Vec<u8>> =
        word.text.chars().map(|sign| sign.to_digit(16).map(|digit| digit as u8)).collect();
    match digits {
        Some(digits) if digits.len().is_multiple_of(2) => {
            Ok(digits.chunks_exact(2).map(|pair| 16 * pair[0] + pair[1]).collect())
        }
        _ => Err(Mistake::new(word.at, format!("{} is not a byte", quoted(word.text)))
            .note("a byte is two hex digits, as in 4C")),
    }
}

/// A number up to what its field can hold; whether it is in its range says the library.
fn bounded(cursor: &mut Cursor, wanted: &str, most: u32) -> Result<usize, Mistake> {
    let at = cursor.peek().at;
    let number = cursor.number(wanted)?;
    if number > most {
        return Err(Mistake::new(at, format!("expected {wanted}, found {number}")));
    }
    Ok(number as usize)
}

/// `router`, whose names are known already.
pub(super) fn skip_names(cursor: &mut Cursor) -> Result<(), Mistake> {
    loop {
        cursor.word("a name")?;
        if !cursor.takes(",") {
            return Ok(());
        }
    }
}
