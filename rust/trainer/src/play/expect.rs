//! Whether something is as expected, and what is there instead.

use std::collections::HashMap;

use trace::place::SIDES;
use trace::run::{letter, Cell};
use trace::{words, Answer, Connection, Entry, Kind, Packet, Port, Run, Step};

use super::entry_words;
use crate::script::Expected;

/// What is there instead of what is expected; none if it is so.
pub fn find(run: &Run, last: Option<&Step>, expected: &Expected) -> Option<String> {
    let differs = |same: bool, found: String| (!same).then_some(found);
    let (plan, net) = (run.plan(), run.net());
    match expected {
        Expected::Accepted
        | Expected::Refused(_)
        | Expected::Packet(..)
        | Expected::Entry(_)
        | Expected::Remaining(_) => of_last(last, expected),
        Expected::Quiet => {
            let packets = trace::plan::count(net.packets(plan).count(), "packet");
            differs(net.is_empty(), format!("{packets} under way"))
        }
        Expected::Round(round) => differs(run.round() == *round, format!("round {}", run.round())),
        Expected::Table(port, slot, side) => {
            let entry = net.entry(*port, *slot);
            differs(number(entry) == *side, entry_words(entry))
        }
        Expected::Allowance(active, allowance) => {
            let found = net.allowances[*active];
            differs(found == *allowance, found.to_string())
        }
        Expected::Connected(connection, wanted) => {
            let accepted = net.accepted.contains(connection);
            let found = if accepted { "it is accepted" } else { words::standing(run, *connection) };
            differs(accepted == *wanted, found.to_string())
        }
        Expected::At(queue, kind, slot, hub) => {
            at(&net.row(plan, *queue).packets, (*kind, *slot, *hub))
        }
        Expected::TableOf(connections) => table(run, connections),
        // Looked at by the player, who tries it out.
        Expected::EmptyWithin(_) => None,
        Expected::Last(queue) => {
            let output = plan.output_of(*queue)?;
            let last = net.last_served(plan, output)?;
            let (output, last_name) = (plan.names().output_words(output), plan.names().queue(last));
            differs(last == *queue, format!("{last_name} went last by {output}"))
        }
    }
}

/// What is in a queue, if a packet of this kind, slot and hub is not.
fn at(packets: &[Packet], wanted: (Kind, u32, u32)) -> Option<String> {
    let there = packets.iter().any(|p| (p.kind, p.slot.into(), p.hub.into()) == wanted);
    let found: Vec<String> = packets.iter().map(words::packet).collect();
    let found = if found.is_empty() { "nothing there".to_string() } else { found.join(", ") };
    (!there).then_some(found)
}

/// What is expected of the last call.
fn of_last(last: Option<&Step>, expected: &Expected) -> Option<String> {
    let Some(step) = last else { return Some("no call yet".to_string()) };
    let same = match (expected, step.answer) {
        (Expected::Accepted, Ok(_)) => true,
        (Expected::Refused(number), Err(refusal)) => refusal.number() == *number,
        (Expected::Packet(kind, slot, hub), Ok(Answer::Packet(packet))) => {
            (packet.kind, packet.slot.into(), packet.hub.into()) == (*kind, *slot, *hub)
        }
        (Expected::Entry(side), Ok(Answer::Entry(entry))) => number(entry) == *side,
        (Expected::Remaining(packets), Ok(Answer::Remaining(told))) => told.packets == *packets,
        _ => false,
    };
    let found = match step.answer {
        Err(refusal) => format!("refused {refusal}"),
        Ok(Answer::Done) => "ok".to_string(),
        Ok(Answer::Packet(packet)) => words::packet(&packet),
        Ok(Answer::Entry(entry)) => entry_words(entry),
        Ok(Answer::Remaining(told)) => words::remaining(told),
    };
    (!same).then_some(found)
}

fn number(entry: Entry) -> Option<u32> {
    match entry {
        Entry::Free => None,
        Entry::Booked(side) => Some(side.into()),
    }
}

/// The first entry where the table and the one that the connections make part.
fn table(run: &Run, connections: &[Connection]) -> Option<String> {
    let (plan, names) = (run.plan(), run.plan().names());
    let mut made: HashMap<Cell, (Entry, Connection)> = HashMap::new();
    for &connection in connections {
        for (cell, entry) in Run::entries_of(plan, connection).unwrap_or_default() {
            if let Some((_, other)) = made.insert(cell, (entry, connection)) {
                let (one, two) = (told(run, other), told(run, connection));
                let entry = words::cell(names, cell);
                return Some(format!("no such table: {one} and {two} both make {entry}"));
            }
        }
    }
    let sides = (0..plan.routers()).flat_map(|router| (0..SIDES).map(move |s| (router, s)));
    let cells = sides.flat_map(|(router, side)| {
        let port = Port { router, side };
        (0..plan.slots()).map(move |slot| Cell { port, slot })
    });
    let parts = |cell: &Cell| {
        let wanted = made.get(cell).map_or(Entry::Free, |&(entry, _)| entry);
        run.net().entry(cell.port, cell.slot) != wanted
    };
    let cell = cells.into_iter().find(parts)?;
    let found = match run.owner(cell.port, cell.slot) {
        Some(owner) => format!(
            "{} ({}, {})",
            entry_words(run.net().entry(cell.port, cell.slot)),
            letter(owner.connection),
            words::hold(owner.hold)
        ),
        None => entry_words(run.net().entry(cell.port, cell.slot)),
    };
    let wanted = match made.get(&cell) {
        Some(&(entry, connection)) => {
            format!("{} for {}", entry_words(entry), told(run, connection))
        }
        None => "free".to_string(),
    };
    let entry = words::cell(names, cell);
    Some(format!("they part at {entry}: the table has {found}, the list {wanted}"))
}

/// "camera drive 0".
fn told(run: &Run, connection: Connection) -> String {
    let names = run.plan().names();
    let Connection { active, passive, start } = connection;
    format!("{} {} {start}", names.active(active), names.passive(passive))
}
