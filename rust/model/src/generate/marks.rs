//! Small changes of the accepted connections and of their entries.

use super::Random;
use crate::feeding::Queue;
use crate::fields::SIDES;
use crate::machine::{Connection, Hub, Kind, Network, OwnEntry, Packet, Slot, State};

/// A connection is accepted and its entries are booked, whatever stood there.
pub fn add_connection(random: &mut Random, network: &Network, state: &mut State) {
    let connection = any_connection(random, network);
    mark_and_book(network, state, connection);
}

/// A mark comes or goes: of a connection that is accepted, of any other, or one that only the
/// layout has room for.
pub fn turn_mark(random: &mut Random, network: &Network, state: &mut State) {
    let mark = match random.below(6) {
        0 => beyond_the_plan(random, network),
        1..=2 => any_connection(random, network),
        _ => some_mark(random, state).unwrap_or(any_connection(random, network)),
    };
    if !state.marks.remove(&mark) {
        state.marks.insert(mark);
    }
}

/// An entry of an accepted connection is freed, or holds any side.
pub fn change_marked_entry(random: &mut Random, network: &Network, state: &mut State) {
    let entries = some_mark(random, state).and_then(|mark| network.entries_of(mark));
    if let Some(own) = entries.and_then(|entries| random.pick(&entries)) {
        let entry = random.chance(2, 3).then(|| random.below(SIDES));
        state.table.set(own.port.router, own.port.side, own.slot, entry);
    }
}

/// Another connection is accepted that makes an entry of one that is accepted, and its other
/// entries are booked: each of the two has all its entries.
pub fn share_an_entry(random: &mut Random, network: &Network, state: &mut State) {
    let Some(mark) = some_mark(random, state) else { return };
    let entries = network.entries_of(mark).unwrap_or_default();
    let sharing: Vec<Connection> = served_pairs(network)
        .flat_map(|pair| entries.iter().filter_map(move |entry| maker(network, pair, entry)))
        .filter(|&other| other != mark)
        .collect();
    if let Some(other) = random.pick(&sharing) {
        mark_and_book(network, state, other);
    }
}

/// The ACK of a connection that is accepted already comes to its active's in-queue, behind or before
/// the others.
pub fn answer_again(random: &mut Random, network: &Network, state: &mut State) {
    let Some(mark) = some_mark(random, state) else { return };
    let Connection { active, passive, start } = mark;
    let Some(journey) = network.journey(active, passive) else { return };
    let length = journey.walk.len();
    let (slot, hub) = (start.after(length, network.slots()), Hub(length));
    let ack = Packet { kind: Kind::Ack, active, passive, slot, hub };
    let within = network.queue_index(Queue::ActiveIn(active));
    if state.allowances[active] > 0 && state.credits[within].0 > 0 {
        state.allowances[active] -= 1;
        state.credits[within].0 -= 1;
        let place = random.pick(&[0, state.queues[within].len()]).unwrap_or(0);
        state.queues[within].insert(place, ack);
    }
}

/// The connection of a served pair that makes this entry, if there is one: its walk comes in and
/// leaves by the same sides of the router.
fn maker(
    network: &Network,
    (active, passive): (usize, usize),
    entry: &OwnEntry,
) -> Option<Connection> {
    let walk = &network.journey(active, passive)?.walk;
    let n = walk.iter().position(|hop| {
        let passes = (hop.router, hop.side) == (entry.port.router, entry.port.side);
        passes && hop.came_in == entry.came_in
    })?;
    Some(Connection { active, passive, start: entry.slot.minus(Hub(n), network.slots()) })
}

/// A mark is set, and the entries are booked that its connection makes.
pub fn mark_and_book(network: &Network, state: &mut State, connection: Connection) {
    state.marks.insert(connection);
    for entry in network.entries_of(connection).into_iter().flatten() {
        entry.put(&mut state.table);
    }
}

/// One of the accepted connections.
fn some_mark(random: &mut Random, state: &State) -> Option<Connection> {
    let marks: Vec<Connection> = state.marks.iter().copied().collect();
    random.pick(&marks)
}

/// Mostly of a served pair.
fn any_connection(random: &mut Random, network: &Network) -> Connection {
    let plan = network.plan();
    let start = Slot(random.below(network.slots()));
    let any = (random.below(plan.actives()), random.below(plan.passives()));
    let served: Vec<(usize, usize)> = served_pairs(network).collect();
    let served = random.pick(&served).filter(|_| !random.chance(1, 8));
    let (active, passive) = served.unwrap_or(any);
    Connection { active, passive, start }
}

/// The layout has a bit for it; the plan has no such passive or slot, or it has.
fn beyond_the_plan(random: &mut Random, network: &Network) -> Connection {
    let active = random.below(network.plan().actives());
    Connection { active, passive: random.below(16), start: Slot(random.below(32)) }
}

fn served_pairs(network: &Network) -> impl Iterator<Item = (usize, usize)> + '_ {
    let (actives, passives) = (network.plan().actives(), network.plan().passives());
    let pairs = (0..actives).flat_map(move |active| (0..passives).map(move |p| (active, p)));
    pairs.filter(|&(active, passive)| network.journey(active, passive).is_some())
}
