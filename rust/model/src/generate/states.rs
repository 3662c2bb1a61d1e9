//! Random states, also such as no list of calls reaches: a state changed in many small ways, each
//! change kept if what it leaves is still a state.

use super::marks::{
    add_connection, answer_again, change_marked_entry, mark_and_book, share_an_entry, turn_mark,
};
use super::Random;
use crate::feeding::Queue;
use crate::fields::SIDES;
use crate::machine::state::Credit;
use crate::machine::{Connection, Hub, Kind, Network, Packet, Phase, Slot, State};

/// A small change, made in place; it may leave what is no state.
pub type Change = fn(&mut Random, &Network, &mut State);

/// All small changes.
pub const CHANGES: [Change; 15] = [
    change_entry,
    change_slot,
    change_packet,
    turn_handled,
    turn_flag,
    add_to_queue,
    add_to_wire,
    remove_from_queue,
    change_choice,
    change_last,
    add_connection,
    turn_mark,
    change_marked_entry,
    share_an_entry,
    answer_again,
];

/// Tries `count` changes and keeps those that leave a state; how many it kept.
pub fn scramble(random: &mut Random, network: &Network, state: &mut State, count: usize) -> usize {
    let mut kept = 0;
    for _ in 0..count {
        let mut changed = state.clone();
        CHANGES[random.below(CHANGES.len())](random, network, &mut changed);
        if changed != *state && network.is_state(&changed) {
            *state = changed;
            kept += 1;
        }
    }
    kept
}

/// The out-queue of some active is filled up with tear-downs, and a NACK joins its in-queue: Launch
/// finds it full, and Drop an unmarked NACK. Every other time the active has a connection too:
/// Close finds the out-queue full.
pub fn jam(random: &mut Random, network: &Network, state: &mut State) {
    let plan = network.plan();
    let (active, passive) = (random.below(plan.actives()), random.below(plan.passives()));
    let slot = Slot(random.below(network.slots()));
    if random.chance(1, 2) {
        mark_and_book(network, state, Connection { active, passive, start: slot });
    }
    let tear_down = Packet { kind: Kind::Tdown, active, passive, slot, hub: Hub(1) };
    let out = network.queue_index(Queue::ActiveOut(active));
    let room = network.capacity(Queue::ActiveOut(active)) - state.queues[out].len();
    state.queues[out].extend(std::iter::repeat_n(tear_down, room));
    let nack = Packet { kind: Kind::Nack, ..tear_down };
    let within = network.queue_index(Queue::ActiveIn(active));
    if state.allowances[active] > 0 && state.credits[within].0 > 0 {
        state.allowances[active] -= 1;
        state.credits[within].0 -= 1;
        state.queues[within].push_front(nack);
    }
}

fn change_entry(random: &mut Random, network: &Network, state: &mut State) {
    let router = random.below(network.plan().routers());
    let slot = Slot(random.below(network.slots()));
    let entry = random.chance(1, 2).then(|| random.below(SIDES));
    state.table.set(router, random.below(SIDES), slot, entry);
}

fn change_slot(random: &mut Random, network: &Network, state: &mut State) {
    state.slot = Slot(random.below(network.slots()));
}

/// One packet of one queue gets another slot, hub or kind.
fn change_packet(random: &mut Random, network: &Network, state: &mut State) {
    let filled: Vec<usize> =
        (0..state.queues.len()).filter(|&at| !state.queues[at].is_empty()).collect();
    let Some(queue) = random.pick(&filled).map(|at| &mut state.queues[at]) else { return };
    let at = random.below(queue.len());
    match random.below(3) {
        0 => queue[at].slot = Slot(random.below(network.slots())),
        1 => queue[at].hub = Hub(random.below(network.plan().routers() + 1)),
        _ => queue[at].kind = kind(random),
    }
}

fn turn_handled(random: &mut Random, network: &Network, state: &mut State) {
    let router = random.below(network.plan().routers());
    let handled = &mut state.handled[router][random.below(SIDES)];
    *handled = !*handled;
}

/// A flag turned over, its queue's credit with it.
fn turn_flag(random: &mut Random, network: &Network, state: &mut State) {
    let at = network.queue_index(any_queue(random, network));
    if state.flags[at] {
        state.credits[at].0 += 1;
        state.flags[at] = false;
    } else if state.credits[at].0 > 0 {
        state.credits[at].0 -= 1;
        state.flags[at] = true;
    }
}

/// A packet joins a queue at any place, its credit and allowance with it.
fn add_to_queue(random: &mut Random, network: &Network, state: &mut State) {
    let packet = any_packet(random, network);
    let queue = any_queue(random, network);
    let at = network.queue_index(queue);
    let unfed = !network.is_fed_by_a_wire(queue);
    if spend_allowance(state, &packet) && (unfed || spend_credit(state, at)) {
        let place = random.below(state.queues[at].len() + 1);
        state.queues[at].insert(place, packet);
    }
}

/// A packet enters an empty wire, the next queue's credit and its allowance with it.
fn add_to_wire(random: &mut Random, network: &Network, state: &mut State) {
    let packet = any_packet(random, network);
    let link = network.links()[random.below(network.links().len())];
    let wire = network.link_index(link);
    let Some(next) = network.next_queue(link, &packet) else { return };
    let next = network.queue_index(next);
    let ready = state.phase == Phase::Read && state.wires[wire].is_none();
    if ready && spend_allowance(state, &packet) && spend_credit(state, next) {
        state.wires[wire] = Some(packet);
    }
}

fn remove_from_queue(random: &mut Random, network: &Network, state: &mut State) {
    let queue = any_queue(random, network);
    let at = network.queue_index(queue);
    if let Some(packet) = state.queues[at].pop_back() {
        if packet.kind != Kind::Tdown {
            state.allowances[packet.active] += 1;
        }
        if network.is_fed_by_a_wire(queue) {
            state.credits[at].0 += 1;
        }
    }
}

fn change_choice(random: &mut Random, network: &Network, state: &mut State) {
    let link = network.links()[random.below(network.links().len())];
    let sender = random.pick(&network.senders(link));
    state.choices[network.link_index(link)] = sender.filter(|_| random.chance(2, 3));
}

/// Another sender was served last; also one that the output has not, and at a side that is not
/// joined.
fn change_last(random: &mut Random, network: &Network, state: &mut State) {
    let link = network.links()[random.below(network.links().len())];
    let any = usize::from(random.number() as u8);
    state.last[network.link_index(link)] = if random.chance(1, 8) { any } else { random.below(6) };
}

fn spend_credit(state: &mut State, at: usize) -> bool {
    let Credit(credit) = state.credits[at];
    state.credits[at] = Credit(credit.saturating_sub(1));
    credit > 0
}

fn spend_allowance(state: &mut State, packet: &Packet) -> bool {
    let allowance = &mut state.allowances[packet.active];
    let spent = packet.kind == Kind::Tdown || *allowance > 0;
    if packet.kind != Kind::Tdown {
        *allowance = allowance.saturating_sub(1);
    }
    spent
}

fn any_queue(random: &mut Random, network: &Network) -> Queue {
    network.queues()[random.below(network.queues().len())]
}

fn kind(random: &mut Random) -> Kind {
    [Kind::Setup, Kind::Tdown, Kind::Ack, Kind::Nack][random.below(4)]
}

fn any_packet(random: &mut Random, network: &Network) -> Packet {
    let plan = network.plan();
    let (active, passive) = (random.below(plan.actives()), random.below(plan.passives()));
    let length = network.journey(active, passive).map_or(1, |journey| journey.walk.len());
    let slot = Slot(random.below(network.slots()));
    Packet { kind: kind(random), active, passive, slot, hub: Hub(random.below(length + 1)) }
}
