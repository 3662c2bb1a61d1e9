//! Wires, choices, flags and handled marks, on plan drivesAround. Side 3 of router 1 is not joined.

use model::machine::Kind::{Nack, Setup};
use model::machine::Link::{Active, Back, Unit};
use model::machine::Phase::{Execute, Write};
use model::Queue::ActiveOut;

use super::queues::{ahead, back, of, q, side, u};
use super::Part::{Choices, Credits, FlagsDown, Marks, OutFlags, PickedDown, Wires, WiresEmpty};
use super::{broken, kept, Row};

/// A packet on a wire.
pub const ON_WIRES: &[Row] = &[
    kept(|s| s.on_wire(side(1, 0), u(0, 3), of(Setup, 1))),
    broken(Wires, |s| s.on_wire(side(1, 0), u(0, 3), of(Setup, 0))),
    kept(|s| s.on_wire(Active(0), u(1, 1), of(Setup, 0))),
    broken(Wires, |s| s.on_wire(Active(1), u(2, 1), of(Setup, 0))),
    // A side that is not joined.
    broken(Wires, |s| s.on_no_way(side(1, 3), of(Setup, 1))),
    // "A wire full outside READ."
    broken(WiresEmpty, |s| s.on_wire(side(1, 0), u(0, 3), of(Setup, 1)).phase(Execute)),
    broken(WiresEmpty, |s| s.on_wire(side(1, 0), u(0, 3), of(Setup, 1)).phase(Write)),
    // Document 02 (i): on the way to the unit it takes the credit of the Q of its walk's side, not of
    // another.
    kept(|s| s.on_wire(Unit(0), q(0, 3), of(Setup, 1))),
    broken(Credits, |s| s.on_wire(Unit(0), q(0, 2), of(Setup, 1))),
    kept(|s| s.on_wire(Back(0), back(0, 3), of(Nack, 1))),
    broken(Credits, |s| s.on_wire(Back(0), ahead(0, 3), of(Nack, 1))),
];

/// A choice.
pub const ON_CHOICES: &[Row] = &[
    kept(|s| s.picking(0)),
    // "Of no candidate": an empty queue, nobody of that rank, no credit, an unhandled head.
    broken(Choices, |s| s.picking(1)),
    broken(Choices, |s| s.picking(5)),
    broken(Choices, |s| s.picking(0).holding(u(2, 0), &[of(Setup, 2), of(Setup, 2)], 3)),
    kept(|s| {
        let handled = s.one(q(0, 3), of(Setup, 2)).handled(q(0, 3));
        handled.choice(Back(0), 3).phase(Write)
    }),
    broken(Choices, |s| s.one(q(0, 3), of(Setup, 1)).choice(Back(0), 3).phase(Write)),
    // An entry that is booked for the current slot makes no difference here.
    kept(|s| s.picking(0).booked([0, 2, 0], 3)),
    // "A choice outside WRITE."
    broken(Choices, |s| s.picking(0).phase(Execute)),
];

/// A raised flag, or a handled mark.
pub const ON_FLAGS: &[Row] = &[
    // "A flag up in EXECUTE."
    kept(|s| s.left(u(0, 3), 1)),
    kept(|s| s.left(u(0, 3), 1).phase(Write)),
    broken(FlagsDown, |s| s.left(u(0, 3), 1).phase(Execute)),
    // "Or on a queue whose head is picked": the queue has room for two, so its credit can be right.
    kept(|s| s.one(ahead(0, 2), of(Setup, 2)).left(ahead(0, 2), 0).phase(Write)),
    broken(PickedDown, |s| s.picking(0).left(ahead(0, 2), 0)),
    // A queue that no wire feeds: an out-queue, U of a side that is not joined.
    broken(OutFlags, |s| s.flag(ActiveOut(0))),
    broken(OutFlags, |s| s.flag(u(1, 3))),
    // "A handled mark on an empty Q", or on any other queue.
    broken(Marks, |s| s.handled(q(0, 3))),
    broken(Marks, |s| s.one(u(0, 3), of(Setup, 1)).handled(u(0, 3))),
];
