//! The proved Load and walks give the model's answers.

use differential::{compare, compare_family, compare_rings, Tally};
use model::generate::Random;
use model::named;

#[test]
fn named_plans() {
    let mut random = Random::new(7);
    let mut tally = Tally::default();
    for plan in named::all() {
        assert_eq!(pandabrass::load(&plan.bytes), plan.answer, "{}", plan.name);
        compare(&plan.bytes, &mut random, &mut tally);
    }
}

#[test]
fn every_pair_of_the_largest_plan() {
    let bytes = named::largest().encode();
    let plan = model::Plan::load(&bytes).expect("loads");
    for active in 0..17 {
        for passive in 0..17 {
            let expected = differential::walk(&plan, active, passive);
            assert_eq!(pandabrass::walk(&bytes, active, passive), expected);
        }
    }
}

#[test]
fn every_length_of_a_plan() {
    let bytes = named::four_routers().encode();
    for length in 0..=bytes.len() {
        let expected = model::Plan::load(&bytes[..length]).err().unwrap_or(0);
        assert_eq!(pandabrass::load(&bytes[..length]), expected, "{length} bytes");
    }
}

#[test]
fn every_bit_of_small_plans_turned_over() {
    let mut random = Random::new(8);
    let mut tally = Tally::default();
    for draft in [named::plan_t(), named::two_routers(), named::four_routers()] {
        let bytes = draft.encode();
        for bit in 0..bytes.len() * 8 {
            let mut bytes = bytes.clone();
            model::bits::flip_bit(&mut bytes, bit);
            compare(&bytes, &mut random, &mut tally);
        }
    }
}

#[test]
fn random_plans() {
    let mut random = Random::new(2024);
    let mut tally = Tally::default();
    while tally.plans() < 210_000 {
        compare_family(&mut random, &mut tally);
    }
    println!("{tally:?}");
    assert!(tally.answers.iter().all(|&count| count >= 500), "{tally:?}");
    assert!(tally.walks[1] >= 10_000, "{tally:?}");
}

#[test]
fn rings_of_one_kind_and_near_misses() {
    let mut random = Random::new(2026);
    let mut tally = Tally::default();
    for _ in 0..1_500 {
        compare_rings(&mut random, &mut tally);
    }
    assert_eq!((tally.answers[0], tally.answers[6]), (3_000, 3_000), "{tally:?}");
}
