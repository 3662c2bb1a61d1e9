//! Queues and outputs of a router, and packets, by short names.

use model::machine::{Hub, Kind, Link, Packet, Slot};
use model::{Class, Port, Queue};

/// `U[from]`.
pub fn u(router: usize, from: usize) -> Queue {
    Queue::U { router, from }
}

/// `Q[from]`.
pub fn q(router: usize, from: usize) -> Queue {
    Queue::Q { router, from }
}

/// The set-up `F[to]`.
pub fn ahead(router: usize, to: usize) -> Queue {
    Queue::F { router, class: Class::SetUps, to }
}

/// The answer `F[to]`.
pub fn back(router: usize, to: usize) -> Queue {
    Queue::F { router, class: Class::Answers, to }
}

/// `K[from,to]`.
pub fn k(router: usize, from: usize, to: usize) -> Queue {
    Queue::K { router, from, to }
}

/// A side's output.
pub fn side(router: usize, side: usize) -> Link {
    Link::Side(Port { router, side })
}

/// A packet by its kind, active, passive, slot and hub.
pub fn packet(kind: Kind, [active, passive, slot, hub]: [usize; 4]) -> Packet {
    Packet { kind, active, passive, slot: Slot(slot), hub: Hub(hub) }
}

/// A packet of active 0 for passive 3, with slot 0.
pub fn of(kind: Kind, hub: usize) -> Packet {
    packet(kind, [0, 3, 0, hub])
}
