//! Random plans whose joints fit together. Most load; some have a ring.

use super::{Draft, Random};
use crate::fields::{Fields, SIDES};
use crate::named::detour;
use crate::plan::{Plan, Port};

/// How the routers are joined.
#[derive(Clone, Copy, Debug)]
enum Shape {
    Line,
    Star,
    Tree,
    Ring,
    Loose,
}

const SHAPES: [Shape; 5] = [Shape::Line, Shape::Star, Shape::Tree, Shape::Ring, Shape::Loose];

/// A plan that Load does not refuse with 1 to 5.
pub fn joined(random: &mut Random) -> Fields {
    let mut draft = Draft::new(random.within(1..=16), slots(random), 1);
    draft.capacities(capacities(random));
    join_routers(random, &mut draft);
    place_interfaces(random, &mut draft);
    draft.shortest_routes();
    if random.chance(1, 2) {
        spoil_routes(random, &mut draft);
    }
    draft.fields().clone()
}

/// A plan that loads: while there is a ring, routes to passives are taken away.
pub fn loadable(random: &mut Random) -> Plan {
    let fields = joined(random);
    without_ring(random, fields)
}

/// A small plan with much room and an interface at every side, that loads: several senders compete
/// at many outputs. Every third one has a side that is booked by set-ups and shared by answers.
pub fn crowded(random: &mut Random) -> Plan {
    let capacities = std::array::from_fn(|_| random.within(2..=7));
    if random.chance(1, 3) {
        let mut draft = detour();
        draft.capacities(capacities).fields_mut().slots = random.within(3..=12);
        return without_ring(random, draft.fields().clone());
    }
    let mut draft = Draft::new(random.within(1..=3), random.within(6..=32), 1);
    draft.capacities(capacities);
    for router in 1..draft.fields().routers.len() {
        join_somewhere(random, &mut draft, router - 1, router);
    }
    let ports = draft.free_ports().len();
    let actives = if random.chance(1, 2) { 1 } else { random.within(1..=ports - 1) };
    place(random, &mut draft, actives, ports - actives);
    draft.shortest_routes();
    without_ring(random, draft.fields().clone())
}

fn without_ring(random: &mut Random, mut fields: Fields) -> Plan {
    loop {
        match Plan::load(&fields.encode()) {
            Ok(plan) => return plan,
            Err(_) => forget_routes(random, &mut fields),
        }
    }
}

/// S from 2 to 32, small ones more often.
pub(super) fn slots(random: &mut Random) -> usize {
    if random.chance(1, 2) {
        random.within(2..=5)
    } else {
        random.within(2..=32)
    }
}

/// Eight capacities from 1 to 7, or eight times 1.
pub(super) fn capacities(random: &mut Random) -> [usize; 8] {
    let highest = if random.chance(1, 4) { 1 } else { random.within(1..=7) };
    std::array::from_fn(|_| random.within(1..=highest))
}

fn join_routers(random: &mut Random, draft: &mut Draft) {
    let routers = draft.fields().routers.len();
    let shape = random.pick(&SHAPES).unwrap_or(Shape::Line);
    for router in 1..routers {
        let parent = match shape {
            Shape::Line | Shape::Ring => router - 1,
            // Each router takes three more before the next one does.
            Shape::Star => (router - 1) / (SIDES - 1),
            Shape::Tree | Shape::Loose => random.below(router),
        };
        let alone = matches!(shape, Shape::Loose) && random.chance(1, 6);
        if !alone {
            join_somewhere(random, draft, parent, router);
        }
    }
    if matches!(shape, Shape::Ring) && routers > 2 {
        join_somewhere(random, draft, routers - 1, 0);
    }
    if random.chance(1, 3) {
        for _ in 0..random.within(1..=3) {
            let (one, other) = (random.below(routers), random.below(routers));
            if one != other && draft.free_ports().len() > 4 {
                join_somewhere(random, draft, one, other);
            }
        }
    }
}

/// Joins two routers by free sides, if both have one; a second joint of the same two is parallel.
pub(super) fn join_somewhere(random: &mut Random, draft: &mut Draft, one: usize, other: usize) {
    let side = random.pick(&draft.free_sides(one));
    let back = random.pick(&draft.free_sides(other));
    if let (Some(side), Some(back)) = (side, back) {
        draft.join((one, side), (other, back));
    }
}

/// At least one active and one passive.
pub(super) fn place_interfaces(random: &mut Random, draft: &mut Draft) {
    let most = draft.free_ports().len().min(32);
    let total = if random.chance(1, 4) { most } else { random.within(2..=most) };
    let actives = random.within(1..=total - 1).clamp(total.saturating_sub(16), 16).max(1);
    place(random, draft, actives, total - actives);
}

/// So many of them, at free sides. Half of the time actives stand at the lower routers and passives
/// at the higher ones, so that many set-ups go one way.
fn place(random: &mut Random, draft: &mut Draft, actives: usize, passives: usize) {
    let mut free = draft.free_ports();
    let apart = random.chance(1, 2);
    if !apart {
        shuffle(random, &mut free);
    }
    for port in free.iter().take(actives) {
        draft.active(port.router, port.side);
    }
    for port in free.iter().rev().take(passives) {
        draft.passive(port.router, port.side);
    }
}

fn shuffle(random: &mut Random, ports: &mut [Port]) {
    for last in (1..ports.len()).rev() {
        ports.swap(last, random.below(last + 1));
    }
}

/// Some routes are missing, some lead elsewhere.
pub(super) fn spoil_routes(random: &mut Random, draft: &mut Draft) {
    let parts = random.within(1..=4);
    for router in &mut draft.fields_mut().routers {
        for route in router.to_active.iter_mut().chain(&mut router.to_passive) {
            if random.chance(parts, 40) {
                *route = if random.chance(1, 2) { None } else { Some(random.below(SIDES)) };
            }
        }
    }
}

/// Takes away the route to one passive at one router, a few times.
fn forget_routes(random: &mut Random, fields: &mut Fields) {
    for _ in 0..fields.routers.len() {
        let router = random.below(fields.routers.len());
        let passive = random.below(fields.passives);
        fields.routers[router].to_passive[passive] = None;
    }
}
