//! The lean calls give the model's answers and bytes.

use compare::drains::without_one_reply;
use compare::{compare, compare_loads, drains, Calls};

const LEAN: Calls = Calls {
    size: lean::size,
    load: lean::load,
    start: lean::start,
    read: lean::read,
    execute: lean::execute,
    write: lean::write,
    launch: lean::launch,
    close: lean::close,
    reply: lean::reply,
    look: lean::look,
    drop: lean::drop,
    entry: lean::entry,
    remaining: lean::remaining,
};

#[test]
fn loads() {
    let answers = compare_loads(&LEAN, 2030, 60_000);
    println!("{answers:?}");
    assert!(answers.iter().all(|&count| count > 500), "{answers:?}");
}

#[test]
fn lists_and_changed_bytes() {
    let tally = compare(&LEAN, 2027, 300_000, 100_000);
    println!("{tally}");
    assert_eq!(tally.rarer_than(100), [], "{tally}");
    assert_eq!(tally.rarer_of_an_active(100), [], "{tally}");
    assert!(tally.crossing * 2 >= tally.plans && tally.together >= 100, "{tally}");
    assert!(tally.remaining.iter().all(|&count| count >= 500), "{tally}");
    let [accepted, not_a_state] = tally.remainings();
    assert!(accepted >= 6_000 && not_a_state >= 500, "{tally}");
}

#[test]
fn networks_are_empty_in_time() {
    let tally = drains(&LEAN, 2031, [400, 12, 60]);
    println!("{tally}");
    assert!(tally.full.iter().all(|&queues| queues > 0), "{tally}");
}

/// What request (n) supposes is needed: one passive that does not reply keeps packets under way.
#[test]
fn without_one_reply_a_network_is_never_empty() {
    for seed in 0..4 {
        let (left, packets) = without_one_reply(&LEAN, seed);
        assert!(left > 0, "{packets} packets");
    }
}
