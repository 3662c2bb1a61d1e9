//! The proved calls give the model's answers and leave its bytes.

use std::path::Path;
use std::thread;

use compare::{compare, Tally};
use differential::PROVED;

/// Calls in lists, calls on changed bytes, and how often each refusal is met at least: of all calls
/// together, and of Look and of Drop each of their own.
const LISTED: usize = 1_000_000;
const CHANGED: usize = 200_000;
const LEAST: usize = 1_000;
/// How often at least an output picks another of several candidates than the first in order.
const TURNED: usize = 5_000;
/// How often at least a unit handles heads of several sides in one Execute, and picks among several
/// on its way back.
const TOGETHER: usize = 500;
const BACK: usize = 2_000;
/// How often at least Remaining is accepted in lists, of these in each phase, and says 7.
const REMAININGS: usize = 20_000;
const IN_A_PHASE: usize = 5_000;
/// A seed for each thread.
const SEEDS: [u64; 2] = [2028, 2029];

#[test]
fn lists_and_changed_bytes() {
    let mut tally = Tally::default();
    let (listed, changed) = (LISTED / SEEDS.len(), CHANGED / SEEDS.len());
    thread::scope(|scope| {
        let parts = SEEDS.map(|seed| scope.spawn(move || compare(&PROVED, seed, listed, changed)));
        for part in parts {
            tally.add(&part.join().expect("no call differs"));
        }
    });
    println!("{tally}");
    let file = Path::new(env!("CARGO_TARGET_TMPDIR")).join("calls.txt");
    std::fs::write(file, format!("{tally}\n")).expect("the tally is kept");
    assert!(tally.listed >= LISTED && tally.changed >= CHANGED);
    assert_eq!(tally.rarer_than(LEAST), [], "{tally}");
    assert_eq!(tally.rarer_of_an_active(LEAST), [], "{tally}");
    assert!(tally.turned >= TURNED, "{tally}");
    assert!(tally.crossing * 2 >= tally.plans, "{tally}");
    assert!(tally.together >= TOGETHER && tally.contested_back >= BACK, "{tally}");
    let [accepted, not_a_state] = tally.remainings();
    assert!(accepted >= REMAININGS && not_a_state >= LEAST, "{tally}");
    assert!(tally.remaining.iter().all(|&count| count >= IN_A_PHASE), "{tally}");
}
