//! Damaged plan bytes: one fault of each sort, or several.

use super::Random;
use crate::bits::{flip_bit, overwrite};
use crate::fields::{Fields, HEADER_BITS, JOINT_BITS, ROUTE_BITS, SIDES};

/// A way to damage plan bytes.
#[derive(Clone, Copy, Debug, PartialEq, Eq)]
pub enum Damage {
    /// One to four bits turned over.
    Bits,
    /// One to three bytes changed.
    Bytes,
    /// Bytes cut off the end.
    Cut,
    /// Bytes added to the end.
    Extend,
    /// A bit of the last byte set, a fill bit where there is one.
    Fill,
    /// R, A, P, S or a capacity 0 or too large.
    Size,
    /// A joint's eight bits changed.
    Joint,
    /// A route of 4, 5 or 6.
    Route,
    /// The joints of two sides exchanged.
    Exchange,
}

/// All ways.
pub const ALL: [Damage; 9] = [
    Damage::Bits,
    Damage::Bytes,
    Damage::Cut,
    Damage::Extend,
    Damage::Fill,
    Damage::Size,
    Damage::Joint,
    Damage::Route,
    Damage::Exchange,
];

/// The bytes of `fields`, damaged so.
pub fn damaged(random: &mut Random, fields: &Fields, damage: Damage) -> Vec<u8> {
    let mut bytes = fields.encode();
    match damage {
        Damage::Bits => flip_bits(random, &mut bytes),
        Damage::Bytes => change_bytes(random, &mut bytes),
        Damage::Cut => bytes.truncate(random.below(bytes.len())),
        Damage::Extend => {
            let more = random.within(1..=3);
            bytes.extend((0..more).map(|_| random.number() as u8 & 1));
        }
        Damage::Fill => {
            let low = bytes.len() * 8 - 1;
            overwrite(&mut bytes, low, 1, 1);
        }
        Damage::Size => wrong_size(random, &mut bytes),
        Damage::Joint => {
            let at = joint_bit(random.below(fields.routers.len()), random.below(SIDES));
            overwrite(&mut bytes, at, JOINT_BITS, random.below(256));
        }
        Damage::Route => {
            let at = route_bit(
                fields,
                random.below(fields.routers.len()),
                random.below(fields.actives + fields.passives),
            );
            overwrite(&mut bytes, at, ROUTE_BITS, random.within(4..=6));
        }
        Damage::Exchange => return exchanged(random, fields),
    }
    bytes
}

/// Bytes of any length up to 300 with no plan behind them.
pub fn noise(random: &mut Random) -> Vec<u8> {
    let length = if random.chance(1, 4) { random.below(12) } else { random.below(301) };
    (0..length).map(|_| random.number() as u8).collect()
}

/// Noise after a header in its ranges, at the right length or not: the later refusals.
pub fn headed_noise(random: &mut Random, fields: &Fields) -> Vec<u8> {
    let mut bytes = fields.encode();
    let body = HEADER_BITS.div_ceil(8);
    for byte in &mut bytes[body..] {
        if random.chance(1, 8) {
            *byte = random.number() as u8;
        }
    }
    bytes
}

/// The bit at which a joint begins.
pub fn joint_bit(router: usize, side: usize) -> usize {
    HEADER_BITS + JOINT_BITS * (SIDES * router + side)
}

/// The bit at which a route begins; `destination` counts actives first.
pub fn route_bit(fields: &Fields, router: usize, destination: usize) -> usize {
    let before = router * (fields.actives + fields.passives) + destination;
    joint_bit(fields.routers.len(), 0) + ROUTE_BITS * before
}

fn flip_bits(random: &mut Random, bytes: &mut [u8]) {
    for _ in 0..random.within(1..=4) {
        let at = random.below(bytes.len() * 8);
        flip_bit(bytes, at);
    }
}

fn change_bytes(random: &mut Random, bytes: &mut [u8]) {
    for _ in 0..random.within(1..=3) {
        let at = random.below(bytes.len());
        bytes[at] = random.number() as u8;
    }
}

fn wrong_size(random: &mut Random, bytes: &mut [u8]) {
    let zero = random.chance(1, 2);
    let (at, width, number) = match random.below(5) {
        part @ 0..=2 => (5 * part, 5, if zero { 0 } else { random.within(17..=31) }),
        3 => (15, 6, if zero { random.below(2) } else { random.within(33..=63) }),
        _ => (21 + 3 * random.below(8), 3, 0),
    };
    overwrite(bytes, at, width, number);
}

/// Two joints change places: often one is then not named back.
fn exchanged(random: &mut Random, fields: &Fields) -> Vec<u8> {
    let mut fields = fields.clone();
    let count = fields.routers.len();
    let (one, side) = (random.below(count), random.below(SIDES));
    let (other, back) = (random.below(count), random.below(SIDES));
    let joint = fields.routers[one].joints[side];
    fields.routers[one].joints[side] = fields.routers[other].joints[back];
    fields.routers[other].joints[back] = joint;
    fields.encode()
}
