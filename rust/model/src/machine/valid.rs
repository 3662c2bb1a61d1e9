//! What is a state: refusal 7's conditions, one function for each, in the documents' order.

use std::collections::HashSet;

use super::connection::OwnEntry;
use super::network::{Link, Network};
use super::packet::{Kind, Packet};
use super::places::Place;
use super::state::{Phase, State};
use crate::feeding::Queue;
use crate::fields::SIDES;
use crate::plan::Port;

/// A condition that a state meets.
type Condition = fn(&Network, &State) -> bool;

/// The conditions that every call on a state keeps, each with the fault it excludes.
const CORE: [(&str, Condition); 14] = [
    ("bytes the layout gives to no state", has_form),
    ("slot, entry, mark or rank out of range", in_range),
    ("a queue over capacity", within_capacity),
    ("a packet out of range or out of place, or a hub that doesn't fit", packets_fit),
    ("a wire full outside READ", wires_empty_outside_read),
    ("a choice outside WRITE or of no candidate", choices_are_candidates),
    ("a flag up in EXECUTE or on a queue whose head is picked", flags_allowed),
    ("a handled mark on an empty Q", marks_have_heads),
    ("an answer in Q that is not its handled head", answers_in_q_are_handled),
    ("a side with no free entry", every_side_has_a_free_entry),
    ("credit + queued + wire + raised flag ≠ capacity", credits_add_up),
    ("allowance + SETUPs, ACKs and NACKs ≠ start allowance", allowances_add_up),
    ("a mark for an unserved pair", marks_are_of_served_pairs),
    ("a side that is not joined and has served a sender", unjoined_sides_have_served_nobody),
];

/// What ties the accepted connections to the table. A call keeps these on states reached from
/// start; elsewhere an ACK or a TDOWN may be under way whose entries are not its own.
const TIES: [(&str, Condition); 2] = [
    ("a mark that lacks an entry", marks_have_their_entries),
    ("two marks that share an entry", marks_share_no_entry),
];

impl Network {
    /// Whether refusal 7 does not apply.
    pub fn is_state(&self, state: &State) -> bool {
        self.fault(state).is_none()
    }

    /// The first condition that fails, in words.
    pub fn fault(&self, state: &State) -> Option<&'static str> {
        let mut ties = TIES.iter();
        let tie = || ties.find(|(_, holds)| !holds(self, state)).map(|&(fault, _)| fault);
        self.core_fault(state).or_else(tie)
    }

    /// The first condition that fails of those that every call keeps.
    pub fn core_fault(&self, state: &State) -> Option<&'static str> {
        CORE.iter().find(|(_, holds)| !holds(self, state)).map(|&(fault, _)| fault)
    }

    /// Every packet with its place.
    pub fn packets<'s>(&'s self, state: &'s State) -> impl Iterator<Item = (Place, &'s Packet)> {
        let queued = self.queues().iter().flat_map(move |&queue| {
            let handled = match queue {
                Queue::Q { router, from } if state.handled[router][from] => {
                    Some(Port { router, side: from })
                }
                _ => None,
            };
            self.queue(state, queue).iter().enumerate().map(move |(at, packet)| match handled {
                Some(port) if at == 0 => (Place::Handled(port), packet),
                _ => (Place::In(queue), packet),
            })
        });
        let on_wires = self.links().iter().filter_map(|&link| {
            let packet = state.wires[self.link_index(link)].as_ref();
            packet.map(|packet| (Place::On(link), packet))
        });
        queued.chain(on_wires)
    }
}

/// Every part has the plan's size; what belongs to no queue is empty, and a queue that no wire feeds
/// has neither credit nor flag.
fn has_form(network: &Network, state: &State) -> bool {
    let plan = network.plan();
    let (queues, links) = (Queue::count(plan), network.links().len());
    let sizes = [
        (state.queues.len(), queues),
        (state.credits.len(), queues),
        (state.flags.len(), queues),
        (state.handled.len(), plan.routers()),
        (state.wires.len(), links),
        (state.choices.len(), links),
        (state.table.entries().len(), plan.routers() * SIDES * plan.slots()),
        (state.allowances.len(), plan.actives()),
        (state.last.len(), links),
    ];
    let sized = sizes.iter().all(|(found, expected)| found == expected);
    let placed = state.marks.iter().all(|mark| network.has_mark_bit(mark));
    sized && placed && unused_is_empty(network, state)
}

fn unused_is_empty(network: &Network, state: &State) -> bool {
    let blank = |queue: Queue| {
        let at = network.queue_index(queue);
        state.credits[at].0 == 0 && !state.flags[at]
    };
    let unfed = network.queues().iter().filter(|&&queue| !network.is_fed_by_a_wire(queue));
    let sides = |router| (0..SIDES).map(move |side| Queue::K { router, from: side, to: side });
    let mut never = (0..network.plan().routers()).flat_map(sides);
    unfed.copied().all(blank)
        && never.all(|queue| blank(queue) && network.queue(state, queue).is_empty())
}

/// "Slot … or entry out of range"; the phase is one by its type, packets are tested in their place.
/// A mark is of a passive and a slot of the plan, and what an output remembers is one of its senders.
fn in_range(network: &Network, state: &State) -> bool {
    let entry_in_range = |entry: &Option<usize>| entry.is_none_or(|side| side < SIDES);
    let (passives, slots) = (network.plan().passives(), network.slots());
    let mut marks = state.marks.iter();
    let rank_in_range =
        |&link: &Link| state.last[network.link_index(link)] < network.senders(link).len();
    state.slot.0 < slots
        && state.table.entries().iter().all(entry_in_range)
        && marks.all(|mark| mark.passive < passives && mark.start.0 < slots)
        && network.links().iter().all(rank_in_range)
}

fn within_capacity(network: &Network, state: &State) -> bool {
    let fits = |&queue: &Queue| network.queue(state, queue).len() <= network.capacity(queue);
    network.queues().iter().all(fits)
}

fn packets_fit(network: &Network, state: &State) -> bool {
    network.packets(state).all(|(place, packet)| network.fits(place, packet))
}

fn wires_empty_outside_read(_: &Network, state: &State) -> bool {
    state.phase == Phase::Read || state.wires.iter().all(Option::is_none)
}

fn choices_are_candidates(network: &Network, state: &State) -> bool {
    network.links().iter().all(|&link| match state.choices[network.link_index(link)] {
        None => true,
        Some(sender) => {
            state.phase == Phase::Write
                && network.senders(link).contains(&sender)
                && network.is_candidate(state, link, sender)
        }
    })
}

fn flags_allowed(network: &Network, state: &State) -> bool {
    let raised = |&queue: &Queue| state.flags[network.queue_index(queue)];
    let picked = state.choices.iter().flatten();
    let none_raised = || !state.flags.iter().any(|&flag| flag);
    (state.phase != Phase::Execute || none_raised()) && !picked.into_iter().any(raised)
}

fn marks_have_heads(network: &Network, state: &State) -> bool {
    let mut handled = network.queues().iter().filter(|&&queue| state.is_handled(queue));
    handled.all(|&queue| !network.queue(state, queue).is_empty())
}

fn answers_in_q_are_handled(network: &Network, state: &State) -> bool {
    let misplaced = |(place, packet): (Place, &Packet)| {
        matches!(place, Place::In(Queue::Q { .. })) && packet.is_answer()
    };
    !network.packets(state).any(misplaced)
}

fn every_side_has_a_free_entry(network: &Network, state: &State) -> bool {
    let sides = state.table.entries().chunks(network.slots());
    sides.into_iter().all(|entries| entries.iter().any(Option::is_none))
}

/// For each queue fed by a wire; on the wire counts what is bound for that queue.
fn credits_add_up(network: &Network, state: &State) -> bool {
    let mut bound = vec![0; state.queues.len()];
    for &link in network.links() {
        let packet = state.wires[network.link_index(link)].as_ref();
        if let Some(queue) = packet.and_then(|packet| network.next_queue(link, packet)) {
            bound[network.queue_index(queue)] += 1;
        }
    }
    let mut fed = network.queues().iter().filter(|&&queue| network.is_fed_by_a_wire(queue));
    fed.all(|&queue| {
        let at = network.queue_index(queue);
        let taken = state.queues[at].len() + bound[at] + usize::from(state.flags[at]);
        state.credits[at].0 + taken == network.capacity(queue)
    })
}

/// For each active, in queues and on wires.
fn allowances_add_up(network: &Network, state: &State) -> bool {
    let mut sums = state.allowances.clone();
    for (_, packet) in network.packets(state).filter(|(_, packet)| packet.kind != Kind::Tdown) {
        sums[packet.active] += 1;
    }
    sums.iter().all(|&sum| sum == network.start_allowance())
}

fn marks_are_of_served_pairs(network: &Network, state: &State) -> bool {
    state.marks.iter().all(|mark| network.journey(mark.active, mark.passive).is_some())
}

/// It remembers what it did at start.
fn unjoined_sides_have_served_nobody(network: &Network, state: &State) -> bool {
    let mut unjoined = network.links().iter().filter(|&&link| !network.is_joined(link));
    unjoined.all(|&link| state.last[network.link_index(link)] == network.last_in_order(link))
}

/// The entries of all marked connections, one connection after the other.
fn marked_entries<'s>(
    network: &'s Network,
    state: &'s State,
) -> impl Iterator<Item = OwnEntry> + 's {
    state.marks.iter().flat_map(|&mark| network.entries_of(mark).into_iter().flatten())
}

fn marks_have_their_entries(network: &Network, state: &State) -> bool {
    marked_entries(network, state).all(|entry| entry.is_in(&state.table))
}

fn marks_share_no_entry(network: &Network, state: &State) -> bool {
    let mut met = HashSet::new();
    let mut entries = marked_entries(network, state);
    entries.all(|entry| met.insert((entry.port.router, entry.port.side, entry.slot)))
}
