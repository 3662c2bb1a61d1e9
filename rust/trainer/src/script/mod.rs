//! Scripts: calls, rounds, standing behaviour and expectations, as they are written.

mod blocks;
mod expects;
mod parse;
mod plans;

pub use parse::parse;

use std::path::{Path, PathBuf};

use trace::{Call, Connection, Kind, Plan, Port, Queue};

use crate::plan::{faults, PlanFile, Unread};
use crate::text::{At, Mistake, Source};

/// A script on a loaded plan.
#[derive(Debug)]
pub struct Script {
    /// Its text.
    pub source: Source,
    /// The plan as it was written.
    pub file: PlanFile,
    /// The plan.
    pub plan: Plan,
    /// What is to be done.
    pub statements: Vec<Statement>,
}

/// A statement with its place.
#[derive(Clone, Debug)]
pub struct Statement {
    /// Where it begins.
    pub at: At,
    /// As it is written, in one line.
    pub text: String,
    /// What is to be done.
    pub deed: Deed,
}

/// What a statement does.
#[derive(Clone, Debug)]
pub enum Deed {
    /// One call.
    Call(Call),
    /// So many whole rounds.
    Rounds(usize),
    /// Up to the start of that round.
    UntilRound(usize),
    /// Up to an empty network, at most so many rounds.
    UntilQuiet(usize),
    /// Up to an empty network, everybody replying and dropping, no more rounds than are promised.
    Wait,
    /// Up to that phase.
    ToPhase(trace::net::Phase),
    /// From here on the passive (all, if none) does this in each WRITE.
    Passive(Option<usize>, Option<u32>),
    /// From here on the active (all, if none) drops in each WRITE, or waits.
    Active(Option<usize>, bool),
    /// These calls in any order, with so many rounds between.
    AnyOrder(Block),
    /// The slot table.
    ShowTable,
    /// Where every packet is.
    ShowWhere,
    /// What is to be so.
    Expect(Expected),
}

/// Launches and replies that may come in any order.
#[derive(Clone, Debug)]
pub struct Block {
    /// The fewest and the most rounds between two.
    pub gaps: (usize, usize),
    /// The calls, with their places.
    pub items: Vec<(Call, At)>,
}

/// What is to be so.
#[derive(Clone, Debug)]
pub enum Expected {
    /// The last call was accepted.
    Accepted,
    /// The last call was refused with this number.
    Refused(u32),
    /// The last call returned a packet: kind, slot, hub.
    Packet(Kind, u32, u32),
    /// The last call returned an entry; none for free.
    Entry(Option<u32>),
    /// The last call told so many packets under way.
    Remaining(u32),
    /// Every queue and wire is empty.
    Quiet,
    /// They are after at most so many rounds in which everybody acts.
    EmptyWithin(usize),
    /// It is this round.
    Round(usize),
    /// An entry of the table; none for free.
    Table(Port, usize, Option<u32>),
    /// An active's allowance.
    Allowance(usize, usize),
    /// A connection is accepted, or is not.
    Connected(Connection, bool),
    /// A packet of this kind, slot and hub is in that queue.
    At(Queue, Kind, u32, u32),
    /// The table is that of these connections and nothing else.
    TableOf(Vec<Connection>),
    /// The output that this queue sends by served it last.
    Last(Queue),
}

/// Why a script cannot be run.
#[derive(Clone, Debug)]
pub enum Broken {
    /// It cannot be read.
    Unread(String),
    /// Its plan is refused: the message.
    Refused(String),
}

impl From<Unread> for Broken {
    fn from(unread: Unread) -> Broken {
        Broken::Unread(unread.show())
    }
}

/// Reads a script and loads its plan; a plan's file is looked for beside the script.
pub fn open(name: &str) -> Result<Script, Broken> {
    let text = crate::text::of_bytes(name, &crate::plan::read(name)?)?;
    let folder = Path::new(name).parent().map(Path::to_path_buf).unwrap_or_default();
    let source = Source { name: name.to_string(), text };
    of_text(source, &|file| open_plan(&folder, file))
}

/// The last part of a file's name.
pub fn short(name: &str) -> String {
    let path = Path::new(name);
    path.file_name().map_or(name.to_string(), |file| file.to_string_lossy().to_string())
}

fn open_plan(folder: &Path, file: &str) -> Result<PlanFile, Unread> {
    let path: PathBuf = folder.join(file);
    let name = path.to_string_lossy();
    PlanFile::of_contents(&name, crate::plan::read(&name)?)
}

impl Script {
    /// The blocks of calls in any order.
    pub fn blocks(&self) -> impl Iterator<Item = &Block> {
        self.statements.iter().filter_map(|statement| match &statement.deed {
            Deed::AnyOrder(block) => Some(block),
            _ => None,
        })
    }
}

/// How a script finds its plan's file.
pub type Finder<'f> = &'f dyn Fn(&str) -> Result<PlanFile, Unread>;

/// Reads a script's text.
pub fn of_text(source: Source, finder: Finder) -> Result<Script, Broken> {
    let shown = |mistake: Mistake| Broken::Unread(mistake.show(&source));
    let (file, rest) = plans::plan_of(&source.text, finder)
        .map_err(|unread| Broken::Unread(unread.show(&source)))?;
    let plan = faults::find(&file)
        .map_err(|refused| Broken::Refused(crate::commands::told(&file, &refused)))?;
    let statements = parse(&source.text, rest, &plan).map_err(shown)?;
    Ok(Script { source, file, plan, statements })
}
