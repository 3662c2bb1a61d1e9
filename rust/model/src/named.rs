//! Plans with a name; `all` lists them, and broken ones, each with the answer of document 01.

use crate::generate::{crossing as crossed, rings, Draft};

mod list;

pub use list::{all, Named};

/// Plan T: "one router, side 0 to active 0, side 1 to passive 0, S=2, capacities 1".
pub const T: [u8; 11] = [0x08, 0x42, 0x11, 0x24, 0x92, 0x4C, 0x06, 0x00, 0x00, 0x00, 0x20];

/// Plan T, built.
pub fn plan_t() -> Draft {
    let mut draft = Draft::new(1, 2, 1);
    draft.active(0, 0).passive(0, 1).shortest_routes();
    draft
}

/// "S=4, two routers": an active at the first, a passive at the second.
pub fn two_routers() -> Draft {
    let mut draft = Draft::new(2, 4, 1);
    draft.active(0, 0).join((0, 1), (1, 0)).passive(1, 1).shortest_routes();
    draft
}

/// "S=4, two routers" where the second can decline: it has an active of its own, number 1, so that
/// its side to the passive may be booked.
pub fn declining() -> Draft {
    let mut draft = Draft::new(2, 4, 1);
    draft.active(0, 0).join((0, 1), (1, 0)).active(1, 2).passive(1, 1).shortest_routes();
    draft
}

/// Plan T with S=8 and more room: capacities 2, active in 3.
pub fn wider_t() -> Draft {
    let mut draft = Draft::new(1, 8, 2);
    draft.capacities([2, 3, 2, 2, 2, 2, 2, 2]);
    draft.active(0, 0).passive(0, 1).shortest_routes();
    draft
}

/// One router with three actives, S=16; the capacities fall on the way to the passive.
pub fn narrow_there() -> Draft {
    let mut draft = Draft::new(1, 16, 1);
    draft.capacities([6, 7, 4, 3, 2, 5, 1, 4]);
    draft.active(0, 1).active(0, 2).active(0, 3).passive(0, 0).shortest_routes();
    draft
}

/// The same with room for two in each U.
pub fn narrow_to_the_unit() -> Draft {
    let mut draft = narrow_there();
    draft.capacities([6, 7, 2, 3, 2, 5, 1, 4]);
    draft
}

/// One router with two actives and two passives, S=16; little room on the way back.
pub fn narrow_back() -> Draft {
    let mut draft = Draft::new(1, 16, 1);
    draft.capacities([6, 5, 7, 3, 3, 1, 4, 2]);
    draft.active(0, 1).active(0, 2).passive(0, 0).passive(0, 3).shortest_routes();
    draft
}

/// Two routers where set-ups come in by each of the sides 0 to 3; actives 0 and 1 are not served
/// with passive 1.
pub fn all_sides() -> Draft {
    let mut draft = Draft::new(2, 4, 1);
    draft.active(0, 0).active(0, 1).passive(0, 2).join((0, 3), (1, 3));
    draft.active(1, 2).passive(1, 0).shortest_routes();
    draft.fields_mut().routers[0].to_passive[1] = None;
    draft
}

/// Four routers in a row with S=3: active 0 at the first, active 1 at the second, the passive at
/// the last.
pub fn row_of_four() -> Draft {
    let mut draft = Draft::new(4, 3, 1);
    draft.active(0, 0).join((0, 1), (1, 0)).join((1, 1), (2, 0)).join((2, 1), (3, 0));
    draft.passive(3, 1).active(1, 2).shortest_routes();
    draft
}

/// Router 0 in the middle of three; three actives and three passives, nine served pairs.
pub fn four_routers() -> Draft {
    let mut draft = Draft::new(4, 8, 1);
    draft.capacities([2, 2, 1, 2, 1, 2, 2, 1]);
    draft.join((0, 0), (1, 3)).join((0, 1), (2, 3)).join((0, 2), (3, 3));
    draft.active(1, 0).active(1, 1).active(0, 3);
    draft.passive(2, 0).passive(2, 1).passive(3, 0);
    draft.shortest_routes();
    draft
}

/// A line of 16 routers, 16 actives at its first half, 16 passives at its second: 256 served
/// pairs, 262 bytes.
pub fn largest() -> Draft {
    let mut draft = Draft::new(16, 32, 7);
    for router in 1..16 {
        draft.join((router - 1, 0), (router, 1));
    }
    for router in 0..8 {
        draft.active(router, 2).active(router, 3);
    }
    for router in 8..16 {
        draft.passive(router, 2).passive(router, 3);
    }
    draft.shortest_routes();
    draft
}

/// Three routers in a ring. Side 0 of router 0 carries set-ups of active 0 to passive 0 and answers to
/// active 1, whose own set-ups go the other way: F and K compete at a side that may be booked.
pub fn detour() -> Draft {
    let mut draft = Draft::new(3, 4, 3);
    draft.join((0, 0), (1, 0)).join((1, 2), (2, 0)).join((2, 2), (0, 3));
    draft.active(0, 1).active(2, 1).passive(1, 1).passive(0, 2);
    draft.route_passive(0, 0, 0).route_passive(1, 0, 1).route_active(1, 0, 0);
    draft.route_active(0, 0, 1).route_passive(0, 1, 2).route_passive(2, 1, 2);
    draft.route_active(0, 1, 0).route_active(1, 1, 2).route_active(2, 1, 1);
    draft
}

/// Two routers with two joints: set-ups go by one, answers by the other.
pub fn parallel_joints() -> Draft {
    let mut draft = Draft::new(2, 3, 1);
    draft.join((0, 0), (1, 2)).join((0, 1), (1, 3)).active(0, 2).passive(1, 0);
    draft.route_passive(0, 0, 0).route_passive(1, 0, 0);
    draft.route_active(1, 0, 3).route_active(0, 0, 2);
    draft
}

/// "Two routers, each with an active and a passive, set-ups crossing both ways."
pub fn crossing() -> Draft {
    crossed::line(2, 2, 1)
}

/// The same with S=4 and other sides: "the crossing two-router plan" whose run is proved.
pub fn crossing_four_slots() -> Draft {
    let mut draft = Draft::new(2, 4, 1);
    draft.active(0, 0).passive(0, 1).join((0, 2), (1, 2)).active(1, 0).passive(1, 1);
    draft.shortest_routes();
    draft
}

/// A line of four, two actives and a passive at one end, an active and two passives at the other;
/// each end's set-ups cross to the other.
pub fn crossing_row() -> Draft {
    let mut draft = Draft::new(4, 8, 2);
    draft.join((0, 0), (1, 1)).join((1, 0), (2, 1)).join((2, 0), (3, 1));
    draft.active(0, 1).active(0, 2).passive(0, 3);
    draft.active(3, 0).passive(3, 2).passive(3, 3);
    draft.active(1, 2).passive(1, 3).active(2, 2).passive(2, 3);
    draft.shortest_routes();
    draft
}

/// Five routers, one in the middle; each other has an active and a passive, whose set-ups come to the
/// middle one by all four sides and leave it by all four.
pub fn crossing_star() -> Draft {
    let mut draft = Draft::new(5, 16, 6);
    for router in 1..5 {
        draft.join((0, router - 1), (router, 0));
        draft.active(router, 1).passive(router, 2);
    }
    draft.shortest_routes();
    draft
}

/// Five routers in a ring with set-ups from 0 to 1, 2 to 3, 3 to 4, and all answers on around.
pub fn answers_ring() -> Draft {
    rings::answers_around(5, &[0, 2, 3], 4, 1)
}

/// Three routers in a ring, three set-ups of two joints each that follow one another around.
pub fn set_ups_ring() -> Draft {
    let mut draft = Draft::new(3, 4, 2);
    for router in 0..3 {
        draft.join((router, 0), ((router + 1) % 3, 1));
    }
    for router in 0..3 {
        draft.active(router, 2).passive(router, 3);
    }
    draft.shortest_routes();
    for pair in 0..3 {
        for router in (0..3).filter(|&router| router != pair) {
            draft.route_passive(router, pair, 0);
        }
    }
    draft
}

/// The walk arrives, but the second router names no side for the active.
fn way_back_missing() -> Draft {
    let mut draft = two_routers();
    draft.fields_mut().routers[1].to_active[0] = None;
    draft
}

/// Of the nine pairs, those of active 0 and passive 2 are not served.
fn unserved_pairs() -> Draft {
    let mut draft = four_routers();
    let routers = &mut draft.fields_mut().routers;
    routers[1].to_active[0] = Some(2);
    routers[0].to_passive[2] = None;
    draft
}

/// Routes to the passive go round between two routers.
fn walk_in_a_circle() -> Draft {
    let mut draft = two_routers();
    draft.route_passive(1, 0, 0);
    draft
}

/// No router names a side for any passive.
fn no_served_pair() -> Draft {
    let mut draft = crossing();
    for router in &mut draft.fields_mut().routers {
        router.to_passive.fill(None);
    }
    draft
}

/// Crossing routers with the routes to one passive missing: set-ups cross no longer.
fn one_way_of_crossing() -> Draft {
    let mut draft = crossing();
    draft.fields_mut().routers[1].to_passive[0] = None;
    draft
}
