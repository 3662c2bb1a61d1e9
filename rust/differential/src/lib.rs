//! The proved calls against the model: the same bytes to both, the answers equal.

use compare::Calls;
use model::generate::{crossing, damage, good, rings, Random};
use model::Plan;
use pandabrass::bytes;

/// The proved calls.
pub const PROVED: Calls = Calls {
    size: bytes::size,
    load: bytes::load,
    start: bytes::start,
    read: bytes::read,
    execute: bytes::execute,
    write: bytes::write,
    launch: bytes::launch,
    close: bytes::close,
    reply: bytes::reply,
    look: bytes::look,
    drop: bytes::drop,
    entry: bytes::entry,
    remaining: bytes::remaining,
};

/// The calls written for speed.
pub const LEAN: Calls = Calls {
    size: lean::size,
    load: lean::load,
    start: lean::start,
    read: lean::read,
    execute: lean::execute,
    write: lean::write,
    launch: lean::launch,
    close: lean::close,
    reply: lean::reply,
    look: lean::look,
    drop: lean::drop,
    entry: lean::entry,
    remaining: lean::remaining,
};

/// How often each of Load's answers, 0 to 6, was met, and how many walks were compared.
#[derive(Clone, Copy, Debug, Default)]
pub struct Tally {
    /// By answer.
    pub answers: [usize; 7],
    /// Walks compared, and of them those of served pairs.
    pub walks: [usize; 2],
}

impl Tally {
    /// The plans compared.
    pub fn plans(&self) -> usize {
        self.answers.iter().sum()
    }
}

/// Compares Load and the walks on these bytes; panics where the two differ or a byte changed.
pub fn compare(bytes: &[u8], random: &mut Random, tally: &mut Tally) {
    let lent = bytes.to_vec();
    let plan = Plan::load(bytes);
    let expected = plan.as_ref().err().copied().unwrap_or(0);
    assert_eq!(pandabrass::load(&lent), expected, "load of {bytes:02X?}");
    tally.answers[expected as usize] += 1;
    for (active, passive) in pairs(plan.as_ref().ok(), random) {
        let expected = plan.as_ref().map_or(0, |plan| walk(plan, active, passive));
        let found = pandabrass::walk(&lent, active, passive);
        assert_eq!(found, expected, "walk ({active}, {passive}) of {bytes:02X?}");
        tally.walks[0] += 1;
        tally.walks[1] += usize::from(expected > 0);
    }
    assert_eq!(lent, bytes, "a lent byte changed");
}

/// What the model says a walk's call gives.
pub fn walk(plan: &Plan, active: u32, passive: u32) -> u32 {
    let (active, passive) = (active as usize, passive as usize);
    if active >= plan.actives() || passive >= plan.passives() || !plan.served(active, passive) {
        return 0;
    }
    plan.walk(active, passive).map_or(0, |walk| walk.len() as u32)
}

/// The pairs to compare: all of a small plan, a dozen of a big one, some numbers out of range.
fn pairs(plan: Option<&Plan>, random: &mut Random) -> Vec<(u32, u32)> {
    let Some(plan) = plan else {
        return vec![(random.below(16) as u32, random.below(16) as u32)];
    };
    let (actives, passives) = (plan.actives() as u32, plan.passives() as u32);
    let mut pairs = vec![
        (actives, 0),
        (0, passives),
        (random.number() as u32, random.below(16) as u32),
        (random.below(16) as u32, u32::MAX - random.below(3) as u32),
    ];
    if actives * passives <= 12 {
        pairs.extend((0..actives).flat_map(|active| (0..passives).map(move |p| (active, p))));
    } else {
        let number = |random: &mut Random, bound: u32| random.below(bound as usize) as u32;
        pairs.extend((0..12).map(|_| (number(random, actives), number(random, passives))));
    }
    pairs
}

/// A dozen plans around one random good one: itself, damaged, crossing, ringed, noise.
pub fn compare_family(random: &mut Random, tally: &mut Tally) {
    let fields = good::joined(random);
    compare(&fields.encode(), random, tally);
    let plan = good::loadable(random);
    compare(&plan.encode(), random, tally);
    for damage in damage::ALL {
        let bytes = damage::damaged(random, &fields, damage);
        compare(&bytes, random, tally);
    }
    let bytes = damage::headed_noise(random, &fields);
    compare(&bytes, random, tally);
    let bytes = crossing::any(random).encode();
    compare(&bytes, random, tally);
    let bytes = rings::ringed(random).encode();
    compare(&bytes, random, tally);
    let bytes = damage::noise(random);
    compare(&bytes, random, tally);
}

/// Plans with a ring of one kind, of set-ups and then of answers, and near misses of each.
pub fn compare_rings(random: &mut Random, tally: &mut Tally) {
    for answers in [false, true] {
        let ringed = rings::of_one_kind(random, answers).encode();
        compare(&ringed, random, tally);
        let near = rings::near_miss(random, answers).encode();
        compare(&near, random, tally);
    }
}
