//! The state: queues, wires, credits, flags, handled marks, choices, table, allowances, accepted
//! connections, senders last served, phase, slot.

use std::collections::{BTreeSet, VecDeque};

use super::connection::Connection;
use super::network::{Link, Network};
use super::packet::{Packet, Slot};
use crate::feeding::Queue;
use crate::fields::{Joint, SIDES};
use crate::plan::Port;

/// "The phase is READ, EXECUTE, WRITE in turn."
#[derive(Clone, Copy, Debug, PartialEq, Eq)]
pub enum Phase {
    /// Wires empty into queues.
    Read,
    /// Units handle heads, outputs pick senders.
    Execute,
    /// Picked heads enter wires.
    Write,
}

/// How many packets a queue can still be sent.
#[derive(Clone, Copy, Debug, PartialEq, Eq)]
pub struct Credit(pub usize);

/// "For every router, side and slot below S the slot table holds free or the side by which the
/// booking came in."
#[derive(Clone, Debug, PartialEq, Eq)]
pub struct Table {
    slots: usize,
    entries: Vec<Option<usize>>,
}

/// The state of a network. Queues, credits and flags stand by queue number, wires and choices by
/// the number of their link.
#[derive(Clone, Debug, PartialEq, Eq)]
pub struct State {
    /// The phase.
    pub phase: Phase,
    /// The current slot.
    pub slot: Slot,
    /// The queues, heads first.
    pub queues: Vec<VecDeque<Packet>>,
    /// The credit of each queue fed by a wire; 0 of any other.
    pub credits: Vec<Credit>,
    /// The flag of each queue fed by a wire.
    pub flags: Vec<bool>,
    /// Whether the head of `Q[i]` is handled, by router and side.
    pub handled: Vec<[bool; SIDES]>,
    /// "Wires hold nothing or one packet."
    pub wires: Vec<Option<Packet>>,
    /// The sender that each output picked.
    pub choices: Vec<Option<Queue>>,
    /// The slot table.
    pub table: Table,
    /// Each active's allowance.
    pub allowances: Vec<usize>,
    /// "The state now keeps the accepted connections", and "an ACK counts as accepted when dropped":
    /// a mark for each connection that is accepted and not closed since.
    pub marks: BTreeSet<Connection>,
    /// "Each output remembers the last sender that a WRITE served": its rank among the output's
    /// senders in order, from 0.
    pub last: Vec<usize>,
}

impl Table {
    /// All entries free.
    pub fn free(routers: usize, slots: usize) -> Table {
        Table { slots, entries: vec![None; routers * SIDES * slots] }
    }

    fn at(&self, router: usize, side: usize, slot: Slot) -> usize {
        (router * SIDES + side) * self.slots + slot.0
    }

    /// The entry: none for free, else the side by which the booking came in.
    pub fn entry(&self, router: usize, side: usize, slot: Slot) -> Option<usize> {
        self.entries[self.at(router, side, slot)]
    }

    /// Books or frees an entry.
    pub fn set(&mut self, router: usize, side: usize, slot: Slot, entry: Option<usize>) {
        let at = self.at(router, side, slot);
        self.entries[at] = entry;
    }

    /// How many entries of a router's side are free.
    pub fn free_entries(&self, router: usize, side: usize) -> usize {
        let slots = (0..self.slots).map(Slot);
        slots.filter(|&slot| self.entry(router, side, slot).is_none()).count()
    }

    /// All entries, router by router, side by side, slot by slot.
    pub fn entries(&self) -> &[Option<usize>] {
        &self.entries
    }
}

impl State {
    /// Whether this is a Q whose head is handled.
    pub fn is_handled(&self, queue: Queue) -> bool {
        matches!(queue, Queue::Q { router, from } if self.handled[router][from])
    }
}

/// Whether this is an interface's out-queue.
pub fn is_out_queue(queue: Queue) -> bool {
    matches!(queue, Queue::ActiveOut(_) | Queue::PassiveOut(_))
}

impl Network {
    /// Whether a wire leads into this queue: it has credit and a flag. "A wire enters each joined
    /// side and each interface from its neighbour; one leads from router to unit, one back." What
    /// enters by side i goes to `U[i]` or a `K[i,o]`, what enters an interface to its in-queue, what
    /// goes to the unit to a `Q[i]`, and back to an `F[o]`.
    pub fn is_fed_by_a_wire(&self, queue: Queue) -> bool {
        match queue {
            Queue::U { router, from: side } | Queue::K { router, from: side, .. } => {
                self.plan().joint(Port { router, side }) != Joint::Nothing
            }
            _ => !is_out_queue(queue),
        }
    }

    /// "Start: READ, queues, wires and table empty, flags down, no choices, credit of each queue
    /// fed by a wire = its capacity, each active's allowance = the smaller of its two capacities."
    /// No connection is accepted; each output remembers a sender "as if the last in order had
    /// sent".
    pub fn start(&self) -> State {
        let plan = self.plan();
        let queues = Queue::count(plan);
        let mut credits = vec![Credit(0); queues];
        for &queue in self.queues().iter().filter(|&&queue| self.is_fed_by_a_wire(queue)) {
            credits[self.queue_index(queue)] = Credit(self.capacity(queue));
        }
        State {
            phase: Phase::Read,
            slot: Slot(0),
            queues: vec![VecDeque::new(); queues],
            credits,
            flags: vec![false; queues],
            handled: vec![[false; SIDES]; plan.routers()],
            wires: vec![None; self.links().len()],
            choices: vec![None; self.links().len()],
            table: Table::free(plan.routers(), plan.slots()),
            allowances: vec![self.start_allowance(); plan.actives()],
            marks: BTreeSet::new(),
            last: self.links().iter().map(|&link| self.last_in_order(link)).collect(),
        }
    }

    /// A queue's packets, head first.
    pub fn queue<'s>(&self, state: &'s State, queue: Queue) -> &'s VecDeque<Packet> {
        &state.queues[self.queue_index(queue)]
    }

    /// Whether a queue holds as many packets as its capacity.
    pub fn is_full(&self, state: &State, queue: Queue) -> bool {
        self.queue(state, queue).len() >= self.capacity(queue)
    }

    /// "A candidate has a head (in Q a handled one) and its next queue has credit."
    pub fn is_candidate(&self, state: &State, link: Link, sender: Queue) -> bool {
        let ready = !matches!(sender, Queue::Q { .. }) || state.is_handled(sender);
        let head = self.queue(state, sender).front().filter(|_| ready);
        let next = head.and_then(|head| self.next_queue(link, head));
        next.is_some_and(|next| state.credits[self.queue_index(next)] != Credit(0))
    }

    /// The candidates among an output's senders, by rank.
    pub fn candidates(&self, state: &State, link: Link) -> Vec<usize> {
        let ranked = self.senders(link).into_iter().enumerate();
        let candidates = ranked.filter(|&(_, sender)| self.is_candidate(state, link, sender));
        candidates.map(|(rank, _)| rank).collect()
    }
}
