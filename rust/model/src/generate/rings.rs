//! Plans with a ring of feeding queues: rings of set-ups alone, rings among answers alone, and plans
//! that miss a ring by one route.

use super::{Draft, Random};
use crate::feeding::Feeding;
use crate::fields::Fields;
use crate::plan::Plan;

/// `routers` in a ring (side 0 leads on, side 1 back), each with an active and a passive; the set-ups
/// of each go two routers on, all one way round, and the answers go back.
pub fn set_ups_around(routers: usize, slots: usize, capacity: usize) -> Draft {
    let mut draft = Draft::new(routers, slots, capacity);
    for router in 0..routers {
        draft.join((router, 0), ((router + 1) % routers, 1));
    }
    for router in 0..routers {
        draft.active(router, 2).passive((router + 2) % routers, 3);
    }
    for pair in 0..routers {
        for router in 0..routers {
            draft.route_active(router, pair, if router == pair { 2 } else { 1 });
        }
        let [next, end] = [1, 2].map(|step| (pair + step) % routers);
        draft.route_passive(pair, pair, 0).route_passive(next, pair, 0);
        draft.route_passive(end, pair, 3);
    }
    draft
}

/// `routers` in a ring (side 0 leads on, side 1 back), and for each start in `starts` a pair: an
/// active there, a passive at the next router. All answers go on around the ring as set-ups do.
pub fn answers_around(routers: usize, starts: &[usize], slots: usize, capacity: usize) -> Draft {
    let mut draft = Draft::new(routers, slots, capacity);
    for router in 0..routers {
        draft.join((router, 0), ((router + 1) % routers, 1));
    }
    for (pair, &start) in starts.iter().enumerate() {
        let end = (start + 1) % routers;
        let active_side = draft.free_sides(start)[0];
        draft.active(start, active_side);
        let passive_side = draft.free_sides(end)[0];
        draft.passive(end, passive_side);
        for router in 0..routers {
            draft.route_active(router, pair, if router == start { active_side } else { 0 });
        }
        draft.route_passive(start, pair, 0).route_passive(end, pair, passive_side);
    }
    draft
}

/// A random plan of one of these forms, with unlike capacities.
pub fn ringed(random: &mut Random) -> Fields {
    let (slots, capacity) = (random.within(2..=32), random.within(1..=7));
    let draft = if random.chance(1, 2) {
        set_ups_around(random.within(3..=16), slots, capacity)
    } else {
        let routers = random.within(3..=12);
        let starts: Vec<usize> = (0..routers).filter(|_| random.chance(3, 5)).collect();
        let starts = if starts.is_empty() { vec![0] } else { starts };
        answers_around(routers, &starts, slots, capacity)
    };
    draft.fields().clone()
}

/// `routers` in a ring (side 0 leads on, side 1 back) and pairs along it: each set-up goes on by up
/// to `reach` routers, its answers go back or on around.
fn pairs_around(random: &mut Random, routers: usize, reach: usize) -> Draft {
    let mut draft = Draft::new(routers, random.within(2..=32), random.within(1..=7));
    for router in 0..routers {
        draft.join((router, 0), ((router + 1) % routers, 1));
    }
    let mut pairs = 0;
    for start in (0..routers).filter(|_| random.chance(4, 5)).collect::<Vec<_>>() {
        let length = random.within(1..=reach.min(routers - 1));
        let end = (start + length) % routers;
        let (Some(&out), Some(&into)) =
            (draft.free_sides(start).first(), draft.free_sides(end).first())
        else {
            continue;
        };
        draft.active(start, out).passive(end, into);
        let back = usize::from(random.chance(1, 2));
        for router in 0..routers {
            draft.route_active(router, pairs, if router == start { out } else { back });
        }
        for step in 0..length {
            draft.route_passive((start + step) % routers, pairs, 0);
        }
        draft.route_passive(end, pairs, into);
        pairs += 1;
    }
    draft
}

/// A plan with a ring of K queues and no other, or with a ring of set-ups' queues and none of K.
pub fn of_one_kind(random: &mut Random, answers: bool) -> Fields {
    loop {
        let routers = random.within(3..=9);
        let fields = pairs_around(random, routers, if answers { 3 } else { 4 }).fields().clone();
        let plan = if fields.actives == 0 { None } else { Plan::join(fields).ok() };
        if let Some(plan) = plan {
            if Feeding::of(&plan).rings() == [!answers, answers] {
                return plan.fields().clone();
            }
        }
    }
}

/// A plan that loads and differs from one with a ring of that kind in one route.
pub fn near_miss(random: &mut Random, answers: bool) -> Fields {
    loop {
        let ringed = of_one_kind(random, answers);
        for _ in 0..40 {
            let mut fields = ringed.clone();
            let router = random.below(fields.routers.len());
            let router = &mut fields.routers[router];
            let routes =
                if random.chance(1, 2) { &mut router.to_active } else { &mut router.to_passive };
            let at = random.below(routes.len());
            routes[at] = random.pick(&[None, Some(0), Some(1), Some(2), Some(3)]).unwrap_or(None);
            if Plan::load(&fields.encode()).is_ok() {
                return fields;
            }
        }
    }
}
