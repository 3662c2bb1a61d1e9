//! The table of `crates/valid/specs/Clauses.antt`, row by row in the same order: for each condition of
//! refusal 7 a state that is kept, and one beside it that breaks this condition alone.

use model::machine::Network;
use model::named;

mod changed;
mod links;
mod numbers;
mod places;
mod queues;

pub use changed::Changed;

/// The parts of `Valid`, in its order, each with what breaks it.
#[derive(Clone, Copy, Debug, PartialEq, Eq, PartialOrd, Ord)]
pub enum Part {
    /// A slot out of range.
    Slot,
    /// An entry out of range.
    Entries,
    /// A queue over capacity.
    Capacities,
    /// A packet out of range or out of place in a queue, or with a hub that doesn't fit.
    Places,
    /// The same on a wire.
    Wires,
    /// A wire full outside READ.
    WiresEmpty,
    /// A choice outside WRITE or of no candidate.
    Choices,
    /// A flag up in EXECUTE.
    FlagsDown,
    /// A flag up on a queue whose head is picked.
    PickedDown,
    /// A flag up on a queue that no wire feeds.
    OutFlags,
    /// A handled mark on an empty Q, or on another queue.
    Marks,
    /// A side with no free entry.
    FreeEntry,
    /// Credit + queued + wire + raised flag ≠ capacity of a queue fed by a wire.
    Credits,
    /// Another credit than Start's on a queue that no wire feeds.
    OutCredits,
    /// An active's allowance + its SETUPs, ACKs and NACKs ≠ its start allowance.
    Allowances,
    /// A connection of an unserved pair, lacking an entry, or sharing one.
    Ties,
    /// An output that remembers none of its senders, or a side that is not joined and has served one.
    Turns,
}

/// How many parts there are.
pub const PARTS: usize = 17;

/// What the model says of bytes that are nothing of the plan's form.
pub const NO_FORM: &str = "bytes the layout gives to no state";
/// And of a number, and of a packet.
const OUT_OF_RANGE: &str = "slot, entry, mark or rank out of range";
const PACKET: &str = "a packet out of range or out of place, or a hub that doesn't fit";

impl Part {
    /// The faults by which the model tells, of a state of its own, that this part alone is broken.
    pub fn faults(self) -> &'static [&'static str] {
        match self {
            Part::Slot | Part::Entries => &[OUT_OF_RANGE],
            Part::Capacities => &["a queue over capacity"],
            Part::Places | Part::Wires => &[PACKET],
            Part::WiresEmpty => &["a wire full outside READ"],
            Part::Choices => &["a choice outside WRITE or of no candidate"],
            Part::FlagsDown | Part::PickedDown => {
                &["a flag up in EXECUTE or on a queue whose head is picked"]
            }
            Part::OutFlags | Part::OutCredits => &[NO_FORM],
            Part::Marks => &["a handled mark on an empty Q"],
            Part::FreeEntry => &["a side with no free entry"],
            Part::Credits => &["credit + queued + wire + raised flag ≠ capacity"],
            Part::Allowances => &["allowance + SETUPs, ACKs and NACKs ≠ start allowance"],
            Part::Ties => &[
                "a mark for an unserved pair",
                "a mark that lacks an entry",
                "two marks that share an entry",
            ],
            Part::Turns => &[OUT_OF_RANGE, "a side that is not joined and has served a sender"],
        }
    }
}

/// A row: what is done to Start's state, and the part of `Valid` that it breaks, if any.
pub struct Row {
    /// The broken part; none of a row that is kept.
    pub broken: Option<Part>,
    change: fn(Changed) -> Changed,
}

/// What is left is a state.
const fn kept(change: fn(Changed) -> Changed) -> Row {
    Row { broken: None, change }
}

/// What is left breaks this part, and no other.
const fn broken(part: Part, change: fn(Changed) -> Changed) -> Row {
    Row { broken: Some(part), change }
}

impl Row {
    /// The row's state.
    pub fn of<'n>(&self, network: &'n Network) -> Changed<'n> {
        (self.change)(Changed::start(network))
    }
}

/// The rows of one list.
pub struct Table {
    /// The list's name.
    pub name: &'static str,
    /// The plan's bytes.
    pub plan: Vec<u8>,
    /// The rows.
    pub rows: &'static [Row],
}

/// Plan drivesAround: S=8; active out 4, in 4, passive out 1, all other capacities 2. `runs.rs` of the
/// model's tests compares these bytes with the plan that is built.
const DRIVES_AROUND: [u8; 25] = [
    0x18, 0x88, 0x44, 0x89, 0x24, 0x8E, 0x06, 0x22, 0x42, 0x22, 0x1C, 0x06, 0x40, 0x02, 0x14, 0x26,
    0x60, 0x03, 0x40, 0xB4, 0x40, 0x08, 0x02, 0x00, 0x40,
];

/// All lists, in order.
pub fn tables() -> Vec<Table> {
    let around = [
        ("setUps", places::SET_UPS),
        ("tearDowns", places::TEAR_DOWNS),
        ("answers", places::ANSWERS),
        ("onWires", links::ON_WIRES),
        ("onChoices", links::ON_CHOICES),
        ("onFlags", links::ON_FLAGS),
        ("onNumbers", numbers::ON_NUMBERS),
        ("onConnections", numbers::ON_CONNECTIONS),
        ("onTurns", numbers::ON_TURNS),
    ];
    let around = around.map(|(name, rows)| Table { name, plan: DRIVES_AROUND.to_vec(), rows });
    let plan = named::all_sides().encode();
    let pairs = Table { name: "onPairs", plan, rows: numbers::ON_PAIRS };
    around.into_iter().chain([pairs]).collect()
}
