//! The list of named plans and of broken ones, each refusal with several causes.

use super::*;
use crate::bits::overwrite;
use crate::generate::damage::{joint_bit, route_bit};

/// A plan's bytes and Load's answer: 0, or the refusal's number.
#[derive(Clone, Debug)]
pub struct Named {
    /// What the plan shows.
    pub name: &'static str,
    /// The plan bytes.
    pub bytes: Vec<u8>,
    /// Load's answer.
    pub answer: u32,
}

/// Plan T with these bits written over.
fn t_with(at: usize, width: usize, number: usize) -> Vec<u8> {
    let mut bytes = T.to_vec();
    overwrite(&mut bytes, at, width, number);
    bytes
}

/// The two-router plan with the eight bits of one joint written over.
fn two_with_joint(router: usize, side: usize, joint: usize) -> Vec<u8> {
    let mut bytes = two_routers().encode();
    overwrite(&mut bytes, joint_bit(router, side), 8, joint);
    bytes
}

/// A joint's eight bits.
fn joint(kind: usize, number: usize, side: usize) -> usize {
    kind << 6 | number << 2 | side
}

/// Plan T with a route written over.
fn t_with_route(destination: usize, number: usize) -> Vec<u8> {
    t_with(route_bit(plan_t().fields(), 0, destination), 3, number)
}

/// All named plans.
pub fn all() -> Vec<Named> {
    let mut plans = loading();
    plans.extend(refused_by_bytes());
    plans.extend(refused_by_joints());
    plans.extend(refused_by_ring());
    plans
}

fn loading() -> Vec<Named> {
    list(
        0,
        [
            ("t", T.to_vec()),
            ("two-routers", two_routers().encode()),
            ("declining", declining().encode()),
            ("wider-t", wider_t().encode()),
            ("narrow-there", narrow_there().encode()),
            ("narrow-to-the-unit", narrow_to_the_unit().encode()),
            ("narrow-back", narrow_back().encode()),
            ("all-sides", all_sides().encode()),
            ("row-of-four", row_of_four().encode()),
            ("four-routers", four_routers().encode()),
            ("largest", largest().encode()),
            ("detour", detour().encode()),
            ("parallel-joints", parallel_joints().encode()),
            ("unserved-pairs", unserved_pairs().encode()),
            ("way-back-missing", way_back_missing().encode()),
            ("walk-in-a-circle", walk_in_a_circle().encode()),
            ("no-served-pair", no_served_pair().encode()),
            ("one-way-of-crossing", one_way_of_crossing().encode()),
            ("crossing", crossing().encode()),
            ("crossing-four-slots", crossing_four_slots().encode()),
            ("crossing-row", crossing_row().encode()),
            ("crossing-star", crossing_star().encode()),
            ("crossing-sixteen", crossed::line(16, 32, 7).encode()),
            ("answers-around-without-ring", rings::answers_around(5, &[0, 2], 4, 1).encode()),
        ],
    )
}

fn refused_by_bytes() -> Vec<Named> {
    let short = list(1, [("no-bytes", Vec::new()), ("five-bytes", T[..5].to_vec())]);
    let sizes = list(
        2,
        [
            ("first-byte-00", t_with(0, 8, 0)),
            ("routers-17", t_with(0, 5, 17)),
            ("actives-0", t_with(5, 5, 0)),
            ("passives-31", t_with(10, 5, 31)),
            ("slots-1", t_with(15, 6, 1)),
            ("slots-33", t_with(15, 6, 33)),
            ("capacity-u-0", t_with(27, 3, 0)),
            ("capacity-passive-out-0", t_with(42, 3, 0)),
        ],
    );
    let length = list(
        3,
        [
            ("t-and-a-byte", [&T[..], &[0]].concat()),
            ("t-less-a-byte", T[..10].to_vec()),
            ("last-byte-21", t_with(87, 1, 1)),
            ("fill-bit-10", t_with(83, 1, 1)),
        ],
    );
    let fields = list(
        4,
        [
            ("nothing-with-number", t_with(joint_bit(0, 2), 8, joint(0, 1, 0))),
            ("nothing-with-side", t_with(joint_bit(0, 3), 8, joint(0, 0, 1))),
            ("router-number-too-large", t_with(joint_bit(0, 2), 8, joint(1, 1, 0))),
            ("active-number-too-large", t_with(joint_bit(0, 0), 8, joint(2, 1, 0))),
            ("passive-with-side", t_with(joint_bit(0, 1), 8, joint(3, 0, 2))),
            ("route-4", t_with_route(0, 4)),
            ("route-5", t_with_route(1, 5)),
            ("route-6", t_with_route(1, 6)),
        ],
    );
    [short, sizes, length, fields].concat()
}

fn refused_by_joints() -> Vec<Named> {
    list(
        5,
        [
            ("joint-not-named-back", two_with_joint(1, 0, 0)),
            ("joint-named-back-by-another-side", two_with_joint(0, 1, joint(1, 1, 2))),
            ("joint-to-the-same-router", t_with(joint_bit(0, 2), 8, joint(1, 0, 3))),
            ("joint-to-its-own-side", t_with(joint_bit(0, 2), 8, joint(1, 0, 2))),
            ("active-without-joint", t_with(joint_bit(0, 0), 8, 0)),
            ("passive-with-two-joints", t_with(joint_bit(0, 2), 8, joint(3, 0, 0))),
        ],
    )
}

fn refused_by_ring() -> Vec<Named> {
    list(
        6,
        [
            ("answers-ring", answers_ring().encode()),
            ("set-ups-ring", set_ups_ring().encode()),
            ("set-ups-around-sixteen", rings::set_ups_around(16, 32, 7).encode()),
        ],
    )
}

fn list<const N: usize>(answer: u32, plans: [(&'static str, Vec<u8>); N]) -> Vec<Named> {
    plans.into_iter().map(|(name, bytes)| Named { name, bytes, answer }).collect()
}
