//! Plans as files: text, hex digits or bytes; and what the library says of them.

pub mod decode;
pub mod faults;
pub mod ring;
pub mod routes;
pub mod text;

use std::io::Read;
use std::path::Path;

use trace::place::SIDES;
use trace::plan::Interface;
use trace::{Fields, Joint, Names, Plan, Port};

pub use crate::text::Unread;
use crate::text::{behind_mark, Mistake, Source};
use text::{Destination, Draft};

/// Plan T of document 01.
pub const T: &str = "\
# plan T of document 01: eleven bytes 08 42 11 24 92 4C 06 00 00 00 20
slots 2
capacity all 1
router r0
active camera at r0.0
passive drive at r0.1
";

/// Where a plan's bytes come from.
#[derive(Clone, Debug)]
pub enum Origin {
    /// From a text with statements.
    Text(Box<Draft>),
    /// From bytes, hex digits, or a text with the one statement `bytes`.
    Bytes,
}

/// Plan bytes with their names; the library has not seen them yet.
#[derive(Clone, Debug)]
pub struct PlanFile {
    /// How it is told.
    pub name: String,
    /// The plan bytes.
    pub bytes: Vec<u8>,
    /// The names.
    pub names: Names,
    /// Where the bytes come from.
    pub origin: Origin,
    /// Pairs that are to be served and have no way, by active and passive.
    pub unreached: Vec<(usize, usize)>,
}

impl PlanFile {
    /// Plan T.
    pub fn t() -> PlanFile {
        PlanFile::of_text("T", T).expect("T is a plan's text")
    }

    /// Reads a file (`-` is the standard input), or hex digits that are given instead of its name.
    pub fn open(name: &str) -> Result<PlanFile, Unread> {
        if name != "-" && !Path::new(name).exists() {
            if let Some(bytes) = hex_digits(name) {
                return Ok(PlanFile::of_bytes("the plan", bytes));
            }
        }
        PlanFile::of_contents(name, read(name)?)
    }

    /// The plan of a file's contents: hex digits, text or bytes. The mark before a text is passed over;
    /// bytes stay as they are. No plan that loads begins with that mark: it would have 29 routers.
    pub fn of_contents(name: &str, contents: Vec<u8>) -> Result<PlanFile, Unread> {
        if !is_text(behind_mark(&contents)) {
            return Ok(PlanFile::of_bytes(name, contents));
        }
        let text = crate::text::of_bytes(name, &contents)?;
        match hex_digits(&text) {
            Some(bytes) => Ok(PlanFile::of_bytes(name, bytes)),
            None => PlanFile::of_text(name, &text),
        }
    }

    /// Bytes with the names r0, a0, p0 and so on.
    pub fn of_bytes(name: &str, bytes: Vec<u8>) -> PlanFile {
        let names = match Fields::read(&bytes) {
            Ok(fields) => Names::numbered(fields.joints.len(), fields.actives, fields.passives),
            Err(_) => Names::default(),
        };
        let (name, origin) = (name.to_string(), Origin::Bytes);
        PlanFile { name, bytes, names, origin, unreached: Vec::new() }
    }

    /// A plan's text.
    pub fn of_text(name: &str, text: &str) -> Result<PlanFile, Unread> {
        let source = || Source { name: name.to_string(), text: text.to_string() };
        let draft = Draft::parse(text).map_err(|mistake| Unread::Text(source(), mistake))?;
        if let Some((bytes, _)) = draft.bytes {
            return Ok(PlanFile::of_bytes(name, bytes));
        }
        let (fields, unreached) = build(&draft);
        if let (Some(asked), Some(&missing)) = (&draft.serve, unreached.first()) {
            let place = asked.iter().find(|&&(a, p, _)| (a, p) == missing);
            let (active, passive, at) = place.copied().expect("it was asked for");
            let (from, to) = (draft.names.active(active), draft.names.passive(passive));
            let homeless = draft.actives[active].0.is_none() || draft.passives[passive].0.is_none();
            if !homeless {
                let message = format!("no way leads from {from} to {to}");
                return Err(Unread::Text(source(), Mistake::new(at, message)));
            }
        }
        let (name, bytes, names) = (name.to_string(), fields.encode(), draft.names.clone());
        Ok(PlanFile { name, bytes, names, origin: Origin::Text(Box::new(draft)), unreached })
    }

    /// Loads it by the proved library.
    pub fn load(&self) -> Result<Plan, trace::Refusal> {
        Plan::load(&self.bytes, self.names.clone())
    }

    /// The pairs that were asked for; none where all were.
    pub fn asked(&self) -> Option<Vec<(usize, usize)>> {
        let Origin::Text(draft) = &self.origin else { return None };
        let pairs = draft.serve.as_ref()?;
        Some(pairs.iter().map(|&(active, passive, _)| (active, passive)).collect())
    }
}

/// A file's contents.
pub fn read(name: &str) -> Result<Vec<u8>, Unread> {
    let mut contents = Vec::new();
    let read = match name {
        "-" => std::io::stdin().read_to_end(&mut contents).map(|_| ()),
        name => std::fs::read(name).map(|read| contents = read),
    };
    match read {
        Ok(()) => Ok(contents),
        Err(error) => Err(Unread::File(format!("{name}: cannot be read: {error}"))),
    }
}

/// Whether contents are a text: no control signs in them, or they begin as a plan's text does.
fn is_text(contents: &[u8]) -> bool {
    let plain = |sign: char| !sign.is_control() || matches!(sign, '\n' | '\r' | '\t');
    let is_plain = std::str::from_utf8(contents).is_ok_and(|text| text.chars().all(plain));
    let first = contents.trim_ascii_start();
    is_plain
        || first.starts_with(b"#")
        || text::STATEMENTS.iter().any(|word| first.starts_with(word.as_bytes()))
}

/// The bytes of a text that is hex digits and blanks only.
fn hex_digits(text: &str) -> Option<Vec<u8>> {
    let digits: Option<Vec<u32>> =
        text.chars().filter(|sign| !sign.is_whitespace()).map(|sign| sign.to_digit(16)).collect();
    let digits = digits.filter(|digits| !digits.is_empty() && digits.len().is_multiple_of(2))?;
    Some(digits.chunks_exact(2).map(|pair| (16 * pair[0] + pair[1]) as u8).collect())
}

/// The fields that a plan's text says, with the routes it leaves out, and pairs that have no way.
fn build(draft: &Draft) -> (Fields, Vec<(usize, usize)>) {
    let routers = draft.names.routers.len();
    let (actives, passives) = (draft.actives.len(), draft.passives.len());
    let mut fields = Fields {
        actives,
        passives,
        slots: draft.slots.map_or(0, |(slots, _)| slots),
        capacities: draft.capacities.map(|(capacity, _)| capacity),
        joints: vec![[Joint::Nothing; SIDES]; routers],
        routes: vec![vec![None; actives + passives]; routers],
    };
    let mut join = |port: Port, joint| fields.joints[port.router][port.side] = joint;
    for &(one, other, _) in &draft.joints {
        join(one, Joint::Router(other));
        join(other, Joint::Router(one));
    }
    for (number, (home, _)) in draft.actives.iter().enumerate() {
        home.iter().for_each(|&port| join(port, Joint::Active(number)));
    }
    for (number, (home, _)) in draft.passives.iter().enumerate() {
        home.iter().for_each(|&port| join(port, Joint::Passive(number)));
    }
    let asked = draft.serve.as_ref().map(|pairs| pairs.iter().map(|&(a, p, _)| (a, p)).collect());
    let all = || (0..actives).flat_map(|a| (0..passives).map(move |p| (a, p))).collect();
    let pairs: Vec<(usize, usize)> = asked.unwrap_or_else(all);
    let homes: Vec<Option<Port>> = draft.actives.iter().map(|&(home, _)| home).collect();
    let written = draft.routes.iter().map(|&(router, to, side, _)| {
        let to = match to {
            Destination::Active(number) => Interface::Active(number),
            Destination::Passive(number) => Interface::Passive(number),
        };
        (router, to, side)
    });
    let written = written.collect();
    let unreached = routes::fill(&mut fields, &homes, &pairs, &written);
    (fields, unreached)
}
