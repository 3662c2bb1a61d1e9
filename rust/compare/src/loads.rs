//! Load on random plans of every fate.

use model::generate::{crossing, damage, good, rings, Random};
use model::Plan;

use crate::calls::Calls;

/// Compares Load on at least so many plans, all from a seed: good, crossing and damaged ones, rings of
/// set-ups and of answers, near misses of these. How often each answer, 0 to 6, was met. Panics where
/// one differs.
pub fn compare_loads(calls: &Calls, seed: u64, count: usize) -> [usize; 7] {
    let mut random = Random::new(seed);
    let mut answers = [0; 7];
    while answers.iter().sum::<usize>() < count {
        for plan in family(&mut random) {
            let expected = Plan::load(&plan).err().unwrap_or(0);
            assert_eq!((calls.load)(&plan), expected, "load of {plan:02X?}");
            answers[expected as usize] += 1;
        }
    }
    answers
}

/// Plans of every fate, one of each.
fn family(random: &mut Random) -> Vec<Vec<u8>> {
    let fields = good::joined(random);
    let mut plans = vec![fields.encode(), crossing::any(random).encode()];
    plans.extend(damage::ALL.map(|damage| damage::damaged(random, &fields, damage)));
    plans.extend([damage::noise(random), damage::headed_noise(random, &fields)]);
    plans.push(rings::ringed(random).encode());
    for answers in [false, true] {
        plans.push(rings::of_one_kind(random, answers).encode());
        plans.push(rings::near_miss(random, answers).encode());
    }
    plans
}
