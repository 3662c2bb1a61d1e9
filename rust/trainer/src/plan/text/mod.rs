//! Plan text: statements with their places, as they are written.

mod names;
mod statements;

pub use names::{is_name, port, unknown};
pub use statements::hex;

use trace::{Names, Port};

use crate::text::{quoted, At, Cursor, Mistake};

/// A plan as its text says it.
#[derive(Clone, Debug, Default)]
pub struct Draft {
    /// The names.
    pub names: Names,
    /// S, and where it is written.
    pub slots: Option<(usize, At)>,
    /// The capacities, and where each is written.
    pub capacities: [(usize, At); 8],
    /// Where each router is named.
    pub routers: Vec<At>,
    /// Each active's side, if it is given.
    pub actives: Vec<(Option<Port>, At)>,
    /// Each passive's side, if it is given.
    pub passives: Vec<(Option<Port>, At)>,
    /// The joints between routers.
    pub joints: Vec<(Port, Port, At)>,
    /// The pairs asked for; none for all.
    pub serve: Option<Vec<(usize, usize, At)>>,
    /// Routes that are written out: router, destination (actives first), side.
    pub routes: Vec<(usize, Destination, Option<usize>, At)>,
    /// The bytes, instead of all others.
    pub bytes: Option<(Vec<u8>, At)>,
    /// The last place of the text.
    pub end: At,
    /// Which sides are taken, and where.
    taken: Vec<(Port, At)>,
    /// The first statement.
    first: Option<At>,
}

/// Where a route leads.
#[derive(Clone, Copy, Debug, PartialEq, Eq)]
pub enum Destination {
    /// An active.
    Active(usize),
    /// A passive.
    Passive(usize),
}

/// The statements.
pub const STATEMENTS: [&str; 9] =
    ["slots", "capacity", "router", "active", "passive", "joint", "serve", "route", "bytes"];

impl Draft {
    /// Reads a plan's text.
    pub fn parse(text: &str) -> Result<Draft, Mistake> {
        let mut draft = Draft { capacities: [(1, At::default()); 8], ..Draft::default() };
        draft.name_all(text)?;
        let mut cursor = Cursor::new(text);
        while !cursor.is_done() {
            if !cursor.ends() {
                draft.statement(&mut cursor)?;
            }
            separator(&mut cursor)?;
        }
        draft.end = cursor.peek().at;
        draft.complete()?;
        Ok(draft)
    }

    fn statement(&mut self, cursor: &mut Cursor) -> Result<(), Mistake> {
        let word = cursor.take();
        if self.bytes.is_some() || (word.text == "bytes" && self.first.is_some()) {
            return Err(Mistake::new(word.at, "'bytes' stands alone, instead of all other lines"));
        }
        self.first = self.first.or(Some(word.at));
        match word.text {
            "slots" => self.slots(cursor),
            "capacity" => self.capacity(cursor),
            "router" => statements::skip_names(cursor),
            "active" => self.interface(cursor, true),
            "passive" => self.interface(cursor, false),
            "joint" => self.joint(cursor),
            "serve" => self.serve(cursor),
            "route" => self.route(cursor),
            "bytes" => self.bytes(cursor),
            text => Err(Mistake::new(word.at, format!("no statement {}", quoted(text)))
                .note(format!("statements: {}", STATEMENTS.join(", ")))),
        }
    }

    /// What every plan's text has.
    fn complete(&self) -> Result<(), Mistake> {
        if self.bytes.is_some() {
            return Ok(());
        }
        if self.slots.is_none() {
            return Err(Mistake::new(
                self.end,
                "the slots are not given: write 'slots' and a number",
            ));
        }
        let counts = [(&self.names.routers, "router"), (&self.names.actives, "active")];
        let passives = (&self.names.passives, "passive");
        for (names, kind) in counts.into_iter().chain([passives]) {
            if names.len() > 31 {
                let message = format!("{} {kind}s: a plan has at most 16", names.len());
                return Err(Mistake::new(self.end, message));
            }
        }
        Ok(())
    }
}

/// The end of a statement: a line's end or a `;`.
fn separator(cursor: &mut Cursor) -> Result<(), Mistake> {
    if !matches!(cursor.peek().text, "\n" | ";") {
        return Err(cursor.expected("the end of the line"));
    }
    cursor.take();
    Ok(())
}
