//! Plans whose set-ups cross: sensors and drives at both ends. Before document 02 (i) each was refused
//! as a ring.

use super::{good, Draft, Random};
use crate::fields::SIDES;
use crate::plan::Plan;

/// Where the capacities of active out, of F and of passive in stand in the plan.
const ACTIVE_OUT: usize = 0;
const F: usize = 4;
const PASSIVE_IN: usize = 6;

/// A line of routers, an active and a passive at each end, set-ups crossing both ways.
pub fn line(routers: usize, slots: usize, capacity: usize) -> Draft {
    let mut draft = Draft::new(routers, slots, capacity);
    for router in 1..routers {
        draft.join((router - 1, 0), (router, 1));
    }
    draft.active(0, 2).passive(0, 3).active(routers - 1, 2).passive(routers - 1, 3);
    draft.shortest_routes();
    draft
}

/// A plan that loads and crosses: a line, a ring or a mesh of routers, any number of actives and
/// passives at any routers.
pub fn any(random: &mut Random) -> Plan {
    crossing(random, |random| {
        let (routers, slots) = (random.within(2..=16), good::slots(random));
        let mut draft = Draft::new(routers, slots, 1);
        draft.capacities(good::capacities(random));
        join(random, &mut draft);
        draft
    })
}

/// A small one with much room before the units, and every other time little behind them: several
/// senders compete at many outputs, and many heads wait at a unit. Every third time the out-queues of
/// actives are small and often full.
pub fn crowded(random: &mut Random) -> Plan {
    crossing(random, |random| {
        let mut draft = Draft::new(random.within(2..=5), random.within(6..=32), 1);
        let behind = if random.chance(1, 2) { 1..=2 } else { 2..=7 };
        let mut capacities = std::array::from_fn(|_| random.within(3..=7));
        for at in [F, PASSIVE_IN] {
            capacities[at] = random.within(behind.clone());
        }
        capacities[ACTIVE_OUT] = if random.chance(1, 3) { 2 } else { random.within(3..=7) };
        draft.capacities(capacities);
        if random.chance(1, 2) {
            join_star(&mut draft);
        } else {
            join(random, &mut draft);
        }
        draft
    })
}

/// Places interfaces at what is joined, until set-ups cross in a plan that loads; of every third one
/// some routes are missing or lead elsewhere.
fn crossing(random: &mut Random, joined: fn(&mut Random) -> Draft) -> Plan {
    loop {
        let mut draft = joined(random);
        good::place_interfaces(random, &mut draft);
        draft.shortest_routes();
        if random.chance(1, 3) {
            good::spoil_routes(random, &mut draft);
        }
        let plan = Plan::load(&draft.encode()).ok();
        if let Some(plan) = plan.filter(Plan::is_crossing) {
            return plan;
        }
    }
}

/// A line, a ring, or a mesh as wide as can be.
fn join(random: &mut Random, draft: &mut Draft) {
    let routers = draft.fields().routers.len();
    match random.below(4) {
        0 if routers >= 4 => join_mesh(draft, routers),
        1 if routers >= 3 => join_ring(random, draft, routers),
        _ => join_line(random, draft, routers),
    }
}

/// By any free sides.
fn join_line(random: &mut Random, draft: &mut Draft, routers: usize) {
    (1..routers).for_each(|router| good::join_somewhere(random, draft, router - 1, router));
}

fn join_ring(random: &mut Random, draft: &mut Draft, routers: usize) {
    join_line(random, draft, routers);
    good::join_somewhere(random, draft, routers - 1, 0);
}

/// The first in the middle of up to four others.
fn join_star(draft: &mut Draft) {
    for router in 1..draft.fields().routers.len() {
        draft.join((0, router - 1), (router, 0));
    }
}

/// Rows of two, three or four: side 0 leads right, 2 left, 1 down, 3 up.
fn join_mesh(draft: &mut Draft, routers: usize) {
    let width = (2..SIDES).find(|width| width * width >= routers).unwrap_or(SIDES);
    for router in 0..routers {
        if router % width > 0 {
            draft.join((router - 1, 0), (router, 2));
        }
        if router >= width {
            draft.join((router - width, 1), (router, 3));
        }
    }
}
