//! The slot table as a grid, each entry with its owner's letter and sign.

use trace::run::{letter, Hold, Owner};
use trace::{words, Entry, Joint, Plan, Port, Run};

use super::{Colour, Paint, WIDTH};

/// How far the grid is set in.
const INDENT: usize = 5;
/// The longest label of a row.
const LABEL: usize = 26;
/// From so many rows on, those with nothing booked are left out.
const MANY: usize = 12;

/// What stands behind a row with one free entry.
const KEPT: &str = "  last free: kept";

const LEGEND: &str = "     A accepted   +A under way   !xA! declined, STILL BOOKED   \
                      !-A! tear-down on its way   . free";

/// What is added to it where a closed connection's entries are shown.
const CLOSED: &str = "     -A closed, its tear-down on its way";

/// One entry: its text and colour.
type Shown = (String, Option<Colour>);

/// The table with heading, legend and what is left behind.
pub fn text(run: &Run, paint: Paint) -> String {
    let (plan, net) = (run.plan(), run.net());
    let mut text = super::heading("slot table", run, paint);
    let sides = sides(plan);
    let booked = |port: &Port| net.free_entries(*port) < plan.slots();
    let rows: Vec<Port> =
        sides.iter().copied().filter(|port| sides.len() <= MANY || booked(port)).collect();
    text += &grid(run, &rows, paint);
    if rows.len() < sides.len() {
        let others = trace::plan::count(sides.len() - rows.len(), "side");
        text += &format!("     {others} with nothing booked\n");
    }
    text += &format!("{}\n", paint.text(Colour::Dim, LEGEND));
    if run.book().owned().iter().any(|(_, owner)| owner.hold == Hold::Closing) {
        text += &format!("{}\n", paint.text(Colour::Dim, CLOSED));
    }
    text + &left_behind(run, paint)
}

/// The sides that a walk of a served pair leaves by, in order.
pub fn sides(plan: &Plan) -> Vec<Port> {
    let walks = plan.pairs().iter().filter_map(|pair| pair.served.as_ref().ok());
    let exits = walks.flat_map(|served| &served.walk);
    let mut sides: Vec<Port> =
        exits.map(|hop| Port { router: hop.router, side: hop.side }).collect();
    sides.sort();
    sides.dedup();
    sides
}

/// Rows of entries, as many slots side by side as fit.
fn grid(run: &Run, rows: &[Port], paint: Paint) -> String {
    let plan = run.plan();
    let labels: Vec<String> = rows.iter().map(|&port| label(plan, port)).collect();
    let widest = labels.iter().map(|label| label.chars().count()).max().unwrap_or(0);
    let left = INDENT + widest.clamp(12, LABEL) + 3;
    let cells: Vec<Vec<Shown>> = rows.iter().map(|&port| row(run, port)).collect();
    let longest = cells.iter().flatten().map(|(text, _)| text.chars().count()).max().unwrap_or(0);
    let width = longest.max(4) + 1;
    let kept = rows.iter().any(|&port| run.net().free_entries(port) == 1);
    let end = if kept { KEPT.len() } else { 0 };
    let fit = ((WIDTH - left - end) / width).max(1);
    let mut text = String::new();
    let slots: Vec<usize> = (0..plan.slots()).collect();
    for (part, slots) in slots.chunks(fit).enumerate() {
        text += &heading(run, slots, left, width);
        for ((label, cells), &port) in labels.iter().zip(&cells).zip(rows) {
            let room = left - INDENT;
            let mut line = format!("{:INDENT$}{label:room$}", "");
            for &slot in slots {
                line += &cell(&cells[slot], width, paint);
            }
            let kept = part == 0 && run.net().free_entries(port) == 1;
            let end = if kept { KEPT } else { "" };
            text += &format!("{}{end}\n", line.trim_end());
        }
    }
    text
}

/// The slots' numbers, the current one in brackets.
fn heading(run: &Run, slots: &[usize], left: usize, width: usize) -> String {
    let mut line = " ".repeat(left);
    for &slot in slots {
        let number = match slot == run.net().slot {
            true => format!("[{slot}]"),
            false => format!(" {slot}"),
        };
        line += &format!("{number:width$}");
    }
    format!("{}\n", line.trim_end())
}

fn cell((text, colour): &Shown, width: usize, paint: Paint) -> String {
    let before = usize::from(text.chars().count() == 1);
    let after = width - before - text.chars().count();
    let text = colour.map_or(text.clone(), |colour| paint.text(colour, text));
    format!("{:before$}{text}{:after$}", "", "")
}

/// A side and what it leads to: "r0.1 > r1".
pub fn label(plan: &Plan, port: Port) -> String {
    let names = plan.names();
    let to = match plan.joint(port) {
        Joint::Nothing => "nothing".to_string(),
        Joint::Router(next) => names.router(next.router),
        Joint::Active(number) => names.active(number),
        Joint::Passive(number) => names.passive(number),
    };
    let label = format!("{} > {to}", names.port(port));
    label.chars().take(LABEL).collect()
}

/// The entries of a side.
fn row(run: &Run, port: Port) -> Vec<Shown> {
    let net = run.net();
    let last = net.free_entries(port) == 1;
    let shown = |slot| match (net.entry(port, slot), run.owner(port, slot)) {
        (Entry::Free, _) if last => ("( )".to_string(), None),
        (Entry::Free, _) => (".".to_string(), Some(Colour::Dim)),
        (Entry::Booked(_), Some(owner)) => owned(owner),
        (Entry::Booked(_), None) => ("?".to_string(), Some(Colour::Red)),
    };
    (0..run.plan().slots()).map(shown).collect()
}

fn owned(owner: Owner) -> Shown {
    let name = letter(owner.connection);
    match owner.hold {
        Hold::Accepted => (name, Some(Colour::Green)),
        Hold::Closing => (format!("-{name}"), Some(Colour::Yellow)),
        Hold::UnderWay => (format!("+{name}"), Some(Colour::Yellow)),
        Hold::LeftBehind => (format!("!x{name}!"), Some(Colour::Red)),
        Hold::TearingDown => (format!("!-{name}!"), Some(Colour::Red)),
        Hold::Over => (format!("!?{name}!"), Some(Colour::Red)),
    }
}

/// A line for each declined launch that still holds entries.
pub fn left_behind(run: &Run, paint: Paint) -> String {
    let book = run.book();
    let owned = book.owned();
    let mut text = String::new();
    for (number, launch) in book.launches.iter().enumerate() {
        let why = match launch.hold {
            Hold::UnderWay | Hold::Accepted | Hold::Closing => continue,
            Hold::LeftBehind => "no tear-down sent yet",
            Hold::TearingDown => "its tear-down is on its way",
            Hold::Over => "FOR GOOD: no tear-down will come",
        };
        let cells = owned.iter().filter(|(_, owner)| owner.launch == number);
        let names = run.plan().names();
        let cells: Vec<String> = cells.map(|&(cell, _)| words::cell(names, cell)).collect();
        if !cells.is_empty() {
            let line = format!("  !! LEFT BEHIND by {}: ", letter(launch.connection));
            let list = format!("{} ({why})", cells.join(", "));
            let line = format!("{line}{}", super::wrap(&list, INDENT, line.len()));
            text += &format!("{}\n", paint.text(Colour::Red, &line));
        }
    }
    text
}
