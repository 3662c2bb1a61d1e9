//! Request (n), "Empty by a known round", by the proved calls: a program that waits finds every queue and
//! wire empty after at most 256 x S x N rounds, and the table is then the accepted connections' own.

use std::fs;
use std::path::Path;

use compare::drains;
use compare::drains::without_one_reply;
use differential::PROVED;

/// Drains from states that lists reach, on lines on which a packet waits long, and from states that no
/// list need reach.
const DRAINS: [usize; 3] = [5_000, 90, 500];
/// Full queues of each sort when the waiting begins: in-queues and out-queues of actives, of passives.
const FULL: usize = 500;

#[test]
fn networks_are_empty_in_time() {
    let tally = drains(&PROVED, 2040, DRAINS);
    // For those who run the tests: what was needed of what is promised.
    let file = Path::new(env!("CARGO_TARGET_TMPDIR")).join("drains.txt");
    fs::write(file, format!("{tally}\n")).expect("room for the tally");
    assert!(tally.full.iter().all(|&queues| queues >= FULL), "{tally}");
    assert!(tally.sixteen >= 100 && tally.crossing * 3 >= DRAINS[0], "{tally}");
    assert!(tally.tables * 2 >= DRAINS[0] && tally.packets >= 100, "{tally}");
    // What is promised is not far from what can be needed: a line of 16 takes a fifth of it.
    assert!(tally.most.share() > 40.0 && tally.most.share() < 134.0, "{tally}");
}

/// What the request supposes is needed: one passive that does not reply keeps packets under way.
#[test]
fn without_one_reply_a_network_is_never_empty() {
    for seed in 0..8 {
        let (left, packets) = without_one_reply(&PROVED, seed);
        assert!(left > 0, "{packets} packets");
    }
}
