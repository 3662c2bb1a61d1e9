//! "A packet where no journey of its pair puts it, or with a hub that doesn't fit that place", on plan
//! drivesAround. Active 0's walk to passive 3 has three routers: 1, which it enters by side 1 and leaves
//! by side 0; 0, by 3 and 2; and 2, by 0 and 2.

use model::machine::Kind::{Ack, Nack, Setup};
use model::Queue::{ActiveIn, ActiveOut, PassiveIn, PassiveOut};

use super::queues::{ahead, back, k, of, packet, q, u};
use super::Part::Places;
use super::{broken, kept, Row};

/// Set-ups.
pub const SET_UPS: &[Row] = &[
    // Behind the head.
    kept(|s| s.holding(ahead(0, 2), &[of(Setup, 2), of(Setup, 2)], 2)),
    broken(Places, |s| s.holding(ahead(0, 2), &[of(Setup, 2), of(Setup, 1)], 2)),
    kept(|s| s.holding(q(0, 3), &[of(Setup, 2), of(Setup, 1)], 2).handled(q(0, 3))),
    broken(Places, |s| s.holding(q(0, 3), &[of(Setup, 2), of(Setup, 2)], 2).handled(q(0, 3))),
    // A hub more, a hub less.
    kept(|s| s.one(ActiveOut(0), of(Setup, 0))),
    broken(Places, |s| s.one(ActiveOut(0), of(Setup, 1))),
    kept(|s| s.one(u(0, 3), of(Setup, 1))),
    broken(Places, |s| s.one(u(0, 3), of(Setup, 0))),
    kept(|s| s.one(PassiveIn(3), of(Setup, 3))),
    broken(Places, |s| s.one(PassiveIn(3), of(Setup, 2))),
    // Another's out-queue, another U, another Q, another passive, the other F, on the way back.
    broken(Places, |s| s.one(ActiveOut(1), of(Setup, 0))),
    broken(Places, |s| s.one(u(0, 2), of(Setup, 1))),
    kept(|s| s.one(q(0, 3), of(Setup, 1))),
    broken(Places, |s| s.one(q(0, 1), of(Setup, 1))),
    broken(Places, |s| s.one(PassiveIn(2), of(Setup, 3))),
    broken(Places, |s| s.one(back(0, 2), of(Setup, 2))),
    broken(Places, |s| s.one(k(0, 2, 3), of(Setup, 3))),
    broken(Places, |s| s.one(PassiveOut(3), of(Setup, 3))),
    // "Packet .. out of range": slot, passive, active.
    kept(|s| s.one(ActiveOut(0), packet(Setup, [0, 3, 7, 0]))),
    broken(Places, |s| s.one(ActiveOut(0), packet(Setup, [0, 3, 8, 0]))),
    broken(Places, |s| s.one(ActiveOut(0), packet(Setup, [0, 4, 0, 0]))),
    broken(Places, |s| s.holding(ActiveOut(0), &[packet(Setup, [2, 3, 0, 0])], 0)),
];

/// Tear-downs.
pub const TEAR_DOWNS: &[Row] = &[
    kept(|s| s.down(ActiveOut(0), 1)),
    kept(|s| s.down(ActiveOut(0), 3)),
    broken(Places, |s| s.down(ActiveOut(0), 0)),
    broken(Places, |s| s.down(ActiveOut(0), 4)),
    kept(|s| s.down(u(0, 3), 2)),
    broken(Places, |s| s.down(u(0, 3), 3)),
    kept(|s| s.down(q(0, 3), 2)),
    broken(Places, |s| s.down(q(0, 3), 3)),
    // A handled head has this router behind it.
    kept(|s| s.down(q(0, 3), 1).handled(q(0, 3))),
    broken(Places, |s| s.down(q(0, 3), 2).handled(q(0, 3))),
    kept(|s| s.down(ahead(0, 2), 1)),
    broken(Places, |s| s.down(ahead(0, 2), 2)),
    // At the walk's last router it ends.
    kept(|s| s.down(q(2, 0), 1)),
    broken(Places, |s| s.down(q(2, 0), 1).handled(q(2, 0))),
    broken(Places, |s| s.down(ahead(2, 2), 1)),
    broken(Places, |s| s.down(PassiveIn(3), 1)),
];

/// ACKs and NACKs.
pub const ANSWERS: &[Row] = &[
    // "ACK: the walk's length."
    kept(|s| s.one(PassiveOut(3), of(Ack, 3))),
    broken(Places, |s| s.one(PassiveOut(3), of(Ack, 2))),
    kept(|s| s.one(k(0, 2, 3), of(Ack, 3))),
    broken(Places, |s| s.one(k(0, 2, 3), of(Ack, 2))),
    kept(|s| s.one(ActiveIn(0), of(Ack, 3))),
    broken(Places, |s| s.one(ActiveIn(0), of(Ack, 0))),
    broken(Places, |s| s.one(back(0, 3), of(Ack, 3))),
    // "NACK: that length if it can come from the passive": at the passive, and in K, where routers'
    // NACKs pass too.
    kept(|s| s.one(PassiveOut(3), of(Nack, 3))),
    broken(Places, |s| s.one(PassiveOut(3), of(Nack, 2))),
    kept(|s| s.one(k(2, 2, 0), of(Nack, 3))),
    broken(Places, |s| s.one(k(2, 2, 0), of(Nack, 2))),
    kept(|s| s.one(k(0, 2, 3), of(Nack, 2))),
    broken(Places, |s| s.one(k(0, 2, 3), of(Nack, 1))),
    kept(|s| s.one(k(1, 0, 1), of(Nack, 1))),
    broken(Places, |s| s.one(k(1, 0, 1), of(Nack, 0))),
    // "Or the index, from 0, of a router whose NACK passes there": in F, and as a handled head of Q.
    kept(|s| s.one(back(0, 3), of(Nack, 1))),
    broken(Places, |s| s.one(back(0, 3), of(Nack, 2))),
    broken(Places, |s| s.one(ahead(0, 3), of(Nack, 1))),
    kept(|s| s.one(q(0, 3), of(Nack, 1)).handled(q(0, 3))),
    broken(Places, |s| s.one(q(0, 3), of(Nack, 2)).handled(q(0, 3))),
    // At the active: any of them, 0 for a marked one.
    kept(|s| s.holding(ActiveIn(0), &[of(Nack, 3), of(Nack, 0)], 2)),
    broken(Places, |s| s.one(ActiveIn(0), of(Nack, 4))),
    broken(Places, |s| s.one(ActiveIn(1), of(Nack, 0))),
    // "An answer in Q that is not its handled head."
    broken(Places, |s| s.one(q(0, 3), of(Nack, 1))),
    broken(Places, |s| s.holding(q(0, 3), &[of(Nack, 1), of(Nack, 1)], 2).handled(q(0, 3))),
];
