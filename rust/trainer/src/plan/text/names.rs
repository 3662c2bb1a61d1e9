//! Names in a plan's text: who has one, and what a word names.

use trace::{Names, Port};

use super::Draft;
use crate::text::{listed, quoted, At, Cursor, Mistake, Word};

impl Draft {
    /// Gives routers and interfaces their numbers first, so that statements may come in any order.
    pub(super) fn name_all(&mut self, text: &str) -> Result<(), Mistake> {
        let mut cursor = Cursor::new(text);
        while !cursor.is_done() {
            if !cursor.ends() {
                let word = cursor.take();
                self.name(word.text, &mut cursor)?;
            }
            while !cursor.ends() {
                cursor.take();
            }
            cursor.take();
        }
        Ok(())
    }

    /// The names that a statement gives.
    fn name(&mut self, statement: &str, cursor: &mut Cursor) -> Result<(), Mistake> {
        let active = match statement {
            "router" => return self.name_routers(cursor),
            "active" => true,
            "passive" => false,
            _ => return Ok(()),
        };
        let name = self.new_name(cursor)?;
        let (names, places) = match active {
            true => (&mut self.names.actives, &mut self.actives),
            false => (&mut self.names.passives, &mut self.passives),
        };
        names.push(name.text.to_string());
        places.push((None, name.at));
        Ok(())
    }

    fn name_routers(&mut self, cursor: &mut Cursor) -> Result<(), Mistake> {
        loop {
            let name = self.new_name(cursor)?;
            self.names.routers.push(name.text.to_string());
            self.routers.push(name.at);
            if !cursor.takes(",") {
                return Ok(());
            }
        }
    }

    /// A name that is not used yet.
    fn new_name<'t>(&self, cursor: &mut Cursor<'t>) -> Result<Word<'t>, Mistake> {
        let word = cursor.word("a name")?;
        if !is_name(word.text) {
            let message = format!("{} is not a name", quoted(word.text));
            return Err(Mistake::new(word.at, message)
                .note("a name begins with a letter; letters, digits, '_' and '-' follow"));
        }
        let places = [&self.names.routers, &self.names.actives, &self.names.passives];
        let used = |names: &Vec<String>| names.iter().position(|name| name == word.text);
        let line = used(places[0])
            .map(|at| self.routers[at].line)
            .or_else(|| used(places[1]).map(|at| self.actives[at].1.line))
            .or_else(|| used(places[2]).map(|at| self.passives[at].1.line));
        match line {
            Some(line) => {
                let message = format!("{} is already a name, in line {line}", quoted(word.text));
                Err(Mistake::new(word.at, message))
            }
            None => Ok(word),
        }
    }
}

/// A side of a router by name or number: `r0.1`.
pub fn port(names: &Names, word: &Word) -> Result<Port, Mistake> {
    let Some((router, digit)) = word.text.rsplit_once('.') else {
        let message = format!("expected a side, as in r0.1, found {}", quoted(word.text));
        return Err(Mistake::new(word.at, message));
    };
    let number = names.routers.iter().position(|name| name == router).ok_or_else(|| {
        Mistake::new(word.at, format!("no router named {}", quoted(router)))
            .note(format!("routers: {}", listed(&names.routers)))
    })?;
    let column = word.at.column + router.chars().count() + 1;
    let side = side(digit).ok_or_else(|| no_side(At { column, ..word.at }, digit))?;
    Ok(Port { router: number, side })
}

/// A side's digit.
pub(super) fn side(text: &str) -> Option<usize> {
    ["0", "1", "2", "3"].iter().position(|&digit| digit == text)
}

pub(super) fn no_side(at: At, found: &str) -> Mistake {
    Mistake::new(at, format!("no side {}: a router's sides are 0 to 3", quoted(found)))
}

/// One of the names.
pub(super) fn named(cursor: &mut Cursor, wanted: &str, names: &[String]) -> Result<usize, Mistake> {
    let word = cursor.word(wanted)?;
    let found = names.iter().position(|name| name == word.text);
    found.ok_or_else(|| unknown(&word, wanted, names))
}

/// "expected a passive, found 'valve'", with the names there are.
pub fn unknown(word: &Word, wanted: &str, names: &[String]) -> Mistake {
    let message = format!("expected {wanted}, found {}", quoted(word.text));
    let kind = wanted.trim_start_matches("an ").trim_start_matches("a ");
    let kinds = if kind.contains(' ') { "names".to_string() } else { format!("{kind}s") };
    Mistake::new(word.at, message).note(format!("{kinds}: {}", listed(names)))
}

/// "NAME = letter { letter | digit | "_" | "-" }".
pub fn is_name(text: &str) -> bool {
    let mut signs = text.chars();
    let first = signs.next().is_some_and(char::is_alphabetic);
    first && signs.all(|sign| sign.is_alphanumeric() || sign == '_' || sign == '-')
}
