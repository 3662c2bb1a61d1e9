//! Packets and two of the three counters: slots and hub counts.

use crate::feeding::Class;

/// "SETUP and TDOWN go to the passive, ACK and NACK to the active."
#[derive(Clone, Copy, Debug, PartialEq, Eq, Hash)]
pub enum Kind {
    /// Books a slot at each router.
    Setup,
    /// Frees what a declined set-up or a closed connection had booked.
    Tdown,
    /// The far end accepts.
    Ack,
    /// A router or the far end declines.
    Nack,
}

/// A slot, below S.
#[derive(Clone, Copy, Debug, PartialEq, Eq, Hash, PartialOrd, Ord)]
pub struct Slot(pub usize);

/// "A hub count 0 to 16 of routers booked."
#[derive(Clone, Copy, Debug, PartialEq, Eq, Hash)]
pub struct Hub(pub usize);

/// The most routers a hub count can tell.
pub const HUB_MAX: Hub = Hub(16);

impl Slot {
    /// "The slot grows by one modulo S."
    pub fn next(self, slots: usize) -> Slot {
        self.after(1, slots)
    }

    /// "Start slot + n modulo S": the slot at the n-th router.
    pub fn after(self, routers: usize, slots: usize) -> Slot {
        Slot((self.0 + routers) % slots)
    }

    /// "Slot minus hub modulo S": the slot at the first router.
    pub fn minus(self, hub: Hub, slots: usize) -> Slot {
        Slot((self.0 + slots - hub.0 % slots) % slots)
    }
}

impl Hub {
    /// One router more is booked.
    pub fn grown(self) -> Hub {
        Hub(self.0 + 1)
    }

    /// One router less is booked.
    pub fn fallen(self) -> Hub {
        Hub(self.0 - 1)
    }
}

/// "A packet has a kind, its active and passive numbers, a slot, and a hub count."
#[derive(Clone, Copy, Debug, PartialEq, Eq, Hash)]
pub struct Packet {
    /// Its kind.
    pub kind: Kind,
    /// Its active's number.
    pub active: usize,
    /// Its passive's number.
    pub passive: usize,
    /// The slot to book or free next.
    pub slot: Slot,
    /// How many routers are booked.
    pub hub: Hub,
}

impl Packet {
    /// Whether it goes to the active.
    pub fn is_answer(&self) -> bool {
        matches!(self.kind, Kind::Ack | Kind::Nack)
    }

    /// Which F takes it from the unit.
    pub fn class(&self) -> Class {
        if self.is_answer() {
            Class::Answers
        } else {
            Class::SetUps
        }
    }

    /// "A NACK with hub 0 is marked": here one that is not.
    pub fn is_unmarked_nack(&self) -> bool {
        self.kind == Kind::Nack && self.hub != Hub(0)
    }
}
