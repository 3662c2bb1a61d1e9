//! What a call did, packet by packet.

use pandabrass::{Packet, Refusal};

use super::book::Owner;
use super::seats::Id;
use crate::calls::{Answer, Call};
use crate::net::Phase;
use crate::place::{Output, Place, Port, Queue};

/// A call with its answer and what it did.
#[derive(Clone, Debug)]
pub struct Step {
    /// Its number in the run, from 1.
    pub number: usize,
    /// The round it was made in.
    pub round: usize,
    /// The phase it was made in.
    pub phase: Phase,
    /// The current slot it was made in.
    pub slot: usize,
    /// The call.
    pub call: Call,
    /// Its answer.
    pub answer: Result<Answer, Refusal>,
    /// What it did, in the order of the documents' rules.
    pub events: Vec<Event>,
}

/// An entry of the slot table.
#[derive(Clone, Copy, Debug, PartialEq, Eq, Hash)]
pub struct Cell {
    /// The router and side.
    pub port: Port,
    /// The slot.
    pub slot: usize,
}

/// Why a router declined.
#[derive(Clone, Copy, Debug, PartialEq, Eq)]
pub enum Why {
    /// The entry is booked; by whom, where that is known.
    Booked(Option<Owner>),
    /// It is the only free entry of its side.
    LastFree,
}

/// Why a head was not picked.
#[derive(Clone, Copy, Debug, PartialEq, Eq)]
pub enum Wait {
    /// Its side's entry for the current slot is booked.
    Booked(Cell),
    /// Its next queue has no credit.
    NoCredit(Queue),
    /// Another sender goes first.
    After(Id),
}

/// One thing that happened.
#[derive(Clone, Copy, Debug, PartialEq, Eq)]
pub enum Event {
    /// Launch: a set-up joined its active's out-queue.
    Launched {
        /// The set-up.
        id: Id,
        /// The active's allowance that is left.
        allowance: usize,
    },
    /// Close: a connection left the accepted ones.
    Closed {
        /// The number of the connection.
        connection: usize,
        /// The tear-down that joined the active's out-queue; none by a student's rule.
        tear_down: Option<Id>,
        /// Whether its entries were freed at once, which only a student's rule does.
        at_once: bool,
    },
    /// Read and Write: a packet went from queue to wire or from wire to queue.
    Moved {
        /// The packet.
        id: Id,
        /// Where it was.
        from: Place,
        /// Where it is.
        to: Place,
    },
    /// Execute: a unit booked an entry for a set-up.
    Booked {
        /// The set-up.
        id: Id,
        /// The entry.
        cell: Cell,
    },
    /// Execute: a unit made a NACK of a set-up.
    Declined {
        /// The packet.
        id: Id,
        /// The entry it asked for.
        cell: Cell,
        /// Why it did not get it.
        why: Why,
    },
    /// Execute: a unit freed an entry for a tear-down.
    Freed {
        /// The tear-down.
        id: Id,
        /// The entry.
        cell: Cell,
        /// Who owned it; none where it was free already.
        owner: Option<Owner>,
        /// Whether the tear-down ended.
        ended: bool,
    },
    /// Execute: an output picked this head.
    Picked {
        /// The packet.
        id: Id,
        /// The output.
        output: Output,
    },
    /// Execute: a head was not picked.
    Waits {
        /// The packet.
        id: Id,
        /// The output it wants to leave by.
        output: Output,
        /// Why.
        wait: Wait,
    },
    /// Execute: an active's NACK was marked and its tear-down made.
    TornDown {
        /// The NACK.
        nack: Id,
        /// The tear-down.
        tear_down: Id,
    },
    /// Reply: a passive's head became an answer in its out-queue.
    Answered {
        /// The packet.
        id: Id,
    },
    /// Look: an active was shown the head of its in-queue.
    Looked {
        /// The packet.
        id: Id,
        /// As it was shown.
        packet: Packet,
        /// The number of the connection that came to be accepted, which only a student's rule does.
        accepted: Option<usize>,
    },
    /// Drop: an answer left the network.
    Dropped {
        /// The packet.
        id: Id,
        /// As it was, what a Look just before shows.
        packet: Packet,
        /// The active's allowance now.
        allowance: usize,
        /// The number of the connection that came to be accepted: an ACK's own.
        accepted: Option<usize>,
    },
}
