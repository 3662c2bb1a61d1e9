//! Bytes that are nearly a state's: small changes of a state's bytes.

use model::generate::states::{jam, CHANGES};
use model::generate::Random;
use model::machine::{Connection, Link, Network, Slot, State};
use model::SIDES;

/// The bytes of a state, changed a little: as a state in one or two ways, or as bytes.
pub fn changed(random: &mut Random, network: &Network, state: &State) -> Vec<u8> {
    let mut state = state.clone();
    if random.chance(1, 8) {
        jam(random, network, &mut state);
    }
    for _ in 0..random.below(3) {
        CHANGES[random.below(CHANGES.len())](random, network, &mut state);
    }
    let mut bytes = network.encode(&state);
    if random.chance(1, 2) {
        for _ in 0..random.within(1..=2) {
            BYTES[random.below(BYTES.len())](random, network, &mut bytes);
        }
    }
    bytes
}

/// A small change of bytes.
type Change = fn(&mut Random, &Network, &mut [u8]);

const BYTES: [Change; 13] = [
    any_byte,
    queue_byte,
    head_byte,
    flag_for_credit,
    output_byte,
    clock_or_allowance,
    entry_byte,
    spare_byte,
    nearly_full_side,
    behind_the_packets,
    mark_bit,
    mark_byte,
    last_byte,
];

/// Another byte: 0, 1, small, a neighbour or any.
fn tweak(random: &mut Random, byte: &mut u8) {
    *byte = match random.below(8) {
        0 => 0,
        1 => 1,
        2 => random.below(6) as u8,
        3 | 4 => byte.wrapping_add(1),
        5 | 6 => byte.wrapping_sub(1),
        _ => random.number() as u8,
    };
}

fn any_byte(random: &mut Random, _: &Network, bytes: &mut [u8]) {
    let at = random.below(bytes.len());
    tweak(random, &mut bytes[at]);
}

/// The row of some queue.
fn queue_row(random: &mut Random, network: &Network) -> usize {
    network.queue_at(network.queues()[random.below(network.queues().len())])
}

/// The row of some queue that has a packet, if there is one.
fn filled_row(random: &mut Random, network: &Network, bytes: &[u8]) -> usize {
    let first = random.below(network.queues().len());
    let (after, before) = (&network.queues()[first..], &network.queues()[..first]);
    let rows = after.iter().chain(before).map(|&queue| network.queue_at(queue));
    rows.clone().find(|&row| bytes[row + 3] != 0).unwrap_or(network.queue_at(after[0]))
}

fn queue_byte(random: &mut Random, network: &Network, bytes: &mut [u8]) {
    let at = queue_row(random, network) + random.below(9);
    tweak(random, &mut bytes[at]);
}

fn head_byte(random: &mut Random, network: &Network, bytes: &mut [u8]) {
    let at = filled_row(random, network, bytes) + random.below(9);
    tweak(random, &mut bytes[at]);
}

/// A flag goes up for a credit, or down; also on queues that no wire feeds.
fn flag_for_credit(random: &mut Random, network: &Network, bytes: &mut [u8]) {
    let row = queue_row(random, network);
    let [credit, flag] = [bytes[row], bytes[row + 1]];
    if flag == 0 && credit > 0 {
        (bytes[row], bytes[row + 1]) = (credit - 1, 1);
    } else if flag == 1 {
        (bytes[row], bytes[row + 1]) = (credit.saturating_add(1), 0);
    }
}

fn output_byte(random: &mut Random, network: &Network, bytes: &mut [u8]) {
    let row = network.output_at(network.links()[random.below(network.links().len())]);
    let at = row + random.pick(&[0, 1, 2, 3, 4, 5, 6, 6, 6]).unwrap_or(6);
    tweak(random, &mut bytes[at]);
}

fn clock_or_allowance(random: &mut Random, network: &Network, bytes: &mut [u8]) {
    let active = random.below(network.plan().actives());
    let at = random.pick(&[0, 1, network.allowance_at(active)]).unwrap_or(0);
    tweak(random, &mut bytes[at]);
}

/// Some router and side.
fn side(random: &mut Random, network: &Network) -> (usize, usize) {
    (random.below(network.plan().routers()), random.below(SIDES))
}

fn entry_byte(random: &mut Random, network: &Network, bytes: &mut [u8]) {
    let (router, side) = side(random, network);
    let at = network.entry_at(router, side, random.below(network.slots()));
    bytes[at] = random.below(5) as u8 + u8::from(random.chance(1, 20));
}

/// The second byte of an entry, or an entry for a slot from S on.
fn spare_byte(random: &mut Random, network: &Network, bytes: &mut [u8]) {
    let (router, side) = side(random, network);
    let second = network.entry_at(router, side, random.below(32)) + 1;
    let past = network.entry_at(router, side, network.slots().min(31));
    let at = if random.chance(1, 2) { second } else { past };
    tweak(random, &mut bytes[at]);
}

/// All entries of a side booked but one, or all.
fn nearly_full_side(random: &mut Random, network: &Network, bytes: &mut [u8]) {
    let (router, side) = side(random, network);
    let free = random.below(network.slots() + 1);
    for slot in 0..network.slots() {
        let entry = if slot == free { 0 } else { 1 + random.below(SIDES) as u8 };
        bytes[network.entry_at(router, side, slot)] = entry;
    }
}

fn behind_the_packets(random: &mut Random, network: &Network, bytes: &mut [u8]) {
    let row = filled_row(random, network, bytes);
    let length = usize::from(bytes[row + 3]);
    if length < 7 {
        let at = row + 4 + random.within(5 * length..=34);
        tweak(random, &mut bytes[at]);
    }
}

/// A mark comes or goes: of a pair and a slot of the plan, or of one past them.
fn mark_bit(random: &mut Random, network: &Network, bytes: &mut [u8]) {
    let plan = network.plan();
    let active = random.below(plan.actives());
    let in_plan = [random.below(plan.passives()), random.below(network.slots())];
    let past = [plan.passives().min(15), network.slots().min(31)];
    let [passive, start] = match random.below(4) {
        0 => [past[0], in_plan[1]],
        1 => [in_plan[0], past[1]],
        _ => in_plan,
    };
    let (at, bit) = network.mark_at(Connection { active, passive, start: Slot(start) });
    bytes[at] ^= bit;
}

fn mark_byte(random: &mut Random, network: &Network, bytes: &mut [u8]) {
    let at = network.marks_at(random.below(network.plan().actives())) + random.below(64);
    tweak(random, &mut bytes[at]);
}

/// The sender that an output served last: of one with several senders, of a side that is not joined,
/// or of one that has nothing to remember; in range or past it.
fn last_byte(random: &mut Random, network: &Network, bytes: &mut [u8]) {
    let links = |which: &dyn Fn(Link) -> bool| -> Vec<Link> {
        network.links().iter().copied().filter(|&link| which(link)).collect()
    };
    let several = |link| network.senders(link).len() > 1;
    let links = match random.below(4) {
        0 => links(&|link| !several(link)),
        1 => links(&|link| !network.is_joined(link)),
        _ => links(&|link| several(link) && network.is_joined(link)),
    };
    let Some(link) = random.pick(&links) else { return };
    let byte = &mut bytes[network.last_at(link)];
    if random.chance(1, 4) {
        tweak(random, byte);
    } else {
        *byte = random.below(6) as u8;
    }
}
