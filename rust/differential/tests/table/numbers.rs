//! Numbers, accepted connections and turns on plan drivesAround, and an unserved pair on plan allSides.

use model::machine::Kind::{Setup, Tdown};
use model::machine::Link::{Active, Back, Passive, Unit};
use model::Queue::ActiveOut;

use super::queues::{k, of, side, u};
use super::Part::{
    Allowances, Capacities, Credits, Entries, FreeEntry, OutCredits, Places, Slot, Ties, Turns,
};
use super::{broken, kept, Row};

/// Slot, entries, lengths, credits and allowances.
pub const ON_NUMBERS: &[Row] = &[
    // "Phase, slot, packet or entry out of range."
    kept(|s| s.slot(7)),
    broken(Slot, |s| s.slot(8)),
    kept(|s| s.booked([0, 2, 0], 2)),
    broken(Entries, |s| s.booked([0, 2, 0], 4)),
    // "A side with no free entry."
    kept(|s| s.booked_up_to(7)),
    broken(FreeEntry, |s| s.booked_up_to(8)),
    // "A queue over capacity."
    kept(|s| s.holding(ActiveOut(0), &[of(Tdown, 1); 4], 0)),
    broken(Capacities, |s| s.holding(ActiveOut(0), &[of(Tdown, 1); 5], 0)),
    // "Credit + queued + wire + raised flag ≠ capacity of a queue fed by a wire": one less, one more.
    broken(Credits, |s| s.credit(u(0, 3), 1)),
    broken(Credits, |s| s.credit(k(0, 2, 3), 3)),
    broken(Credits, |s| s.flag(u(0, 3))),
    // Of one that no wire feeds it stays as Start left it.
    broken(OutCredits, |s| s.credit(ActiveOut(0), 3)),
    broken(OutCredits, |s| s.credit(u(1, 3), 1)),
    // "An active's allowance + its SETUPs, ACKs and NACKs ≠ its start allowance": a tear-down does not
    // count.
    broken(Allowances, |s| s.allowance(0, 3)),
    broken(Allowances, |s| s.allowance(1, 5)),
    broken(Allowances, |s| s.holding(ActiveOut(0), &[of(Setup, 0)], 0)),
    broken(Allowances, |s| s.holding(ActiveOut(0), &[of(Tdown, 1)], 1)),
];

/// Document 02 (a). Active 0's walk to passive 0 has two routers: 1, and 0, which it leaves by side 0.
pub const ON_CONNECTIONS: &[Row] = &[
    kept(|s| s.booked([2, 2, 3], 0).booked([0, 2, 2], 3).first_entry().accepted(3)),
    // "Lacking any of its entries": the first, the middle one, the last; one that is another's.
    broken(Ties, |s| s.booked([2, 2, 3], 0).booked([0, 2, 2], 3).accepted(3)),
    broken(Ties, |s| s.booked([2, 2, 3], 0).first_entry().accepted(3)),
    broken(Ties, |s| s.booked([0, 2, 2], 3).first_entry().accepted(3)),
    broken(Ties, |s| s.booked([2, 2, 3], 0).booked([0, 2, 2], 1).first_entry().accepted(3)),
    // "Two that share an entry": router 1's.
    kept(|s| {
        let others = s.booked([2, 2, 3], 0).booked([0, 2, 2], 3).booked([0, 0, 2], 3);
        others.first_entry().accepted(0)
    }),
    broken(Ties, |s| {
        let others = s.booked([2, 2, 3], 0).booked([0, 2, 2], 3).booked([0, 0, 2], 3);
        others.first_entry().accepted(0).accepted(3)
    }),
];

/// Document 02 (b): what an output remembers is one of its senders; a side that is not joined is as
/// Start left it.
pub const ON_TURNS: &[Row] = &[
    kept(|s| s.last(side(0, 2), 0)),
    broken(Turns, |s| s.last(side(0, 2), 5)),
    kept(|s| s.last(Unit(0), 0)),
    broken(Turns, |s| s.last(Unit(0), 4)),
    kept(|s| s.last(Back(0), 0)),
    broken(Turns, |s| s.last(Back(0), 4)),
    broken(Turns, |s| s.last(Active(0), 1)),
    broken(Turns, |s| s.last(Passive(3), 1)),
    broken(Turns, |s| s.last(side(1, 3), 3)),
];

/// On plan allSides active 0 is not served with passive 1.
pub const ON_PAIRS: &[Row] = &[
    kept(|s| s.launching(0)),
    broken(Places, |s| s.launching(1)),
    kept(|s| s.booked([1, 0, 0], 2).connection([2, 1, 0])),
    broken(Ties, |s| s.connection([0, 1, 0])),
];
