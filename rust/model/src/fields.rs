//! The plan bytes: the numbers they hold, each in its range (Load's refusals 1 to 4).

use crate::bits::{has_fill_bit, BitReader, BitWriter};
use crate::refusal::{FIELD, LENGTH, SHORT, SIZES};

/// "Each with four sides 0 to 3".
pub const SIDES: usize = 4;
/// R, A, P (5 bits each), S (6) and eight capacities of 3 bits.
pub const HEADER_BITS: usize = 45;
/// "A joint: kind (2 bits), number (4), partner's side (2)".
pub const JOINT_BITS: usize = 8;
/// "The plan gives one side, 3 bits".
pub const ROUTE_BITS: usize = 3;
/// "0 to 3, or 7 for none".
const NO_ROUTE: usize = 7;

/// "Eight capacities of 3 bits, 1 to 7", in the order of the plan bytes.
#[derive(Clone, Copy, Debug, PartialEq, Eq)]
pub struct Capacities {
    /// Of each active's out-queue.
    pub active_out: usize,
    /// Of each active's in-queue.
    pub active_in: usize,
    /// Of each `U[i]`.
    pub u: usize,
    /// Of each Q.
    pub q: usize,
    /// Of each `F[o]`.
    pub f: usize,
    /// Of each `K[i,o]`.
    pub k: usize,
    /// Of each passive's in-queue.
    pub passive_in: usize,
    /// Of each passive's out-queue.
    pub passive_out: usize,
}

impl Capacities {
    /// Eight capacities in the order of the plan bytes.
    pub fn from_array(c: [usize; 8]) -> Self {
        let [active_out, active_in, u, q, f, k, passive_in, passive_out] = c;
        Capacities { active_out, active_in, u, q, f, k, passive_in, passive_out }
    }

    /// The eight capacities in the order of the plan bytes.
    pub fn to_array(self) -> [usize; 8] {
        let Capacities { active_out, active_in, u, q, f, k, passive_in, passive_out } = self;
        [active_out, active_in, u, q, f, k, passive_in, passive_out]
    }
}

/// What a router's side is joined to: "kind (0 nothing, 1 router, 2 active, 3 passive), number,
/// partner's side".
#[derive(Clone, Copy, Debug, PartialEq, Eq)]
pub enum Joint {
    /// Kind 0.
    Nothing,
    /// Kind 1: another router, by that side of it.
    Router {
        /// Its number.
        router: usize,
        /// The partner's side.
        side: usize,
    },
    /// Kind 2.
    Active(usize),
    /// Kind 3.
    Passive(usize),
}

/// One router's part of the plan.
#[derive(Clone, Debug, PartialEq, Eq)]
pub struct Router {
    /// "Per router, per side, a joint".
    pub joints: [Joint; SIDES],
    /// The side given for each active, or none.
    pub to_active: Vec<Option<usize>>,
    /// The side given for each passive, or none.
    pub to_passive: Vec<Option<usize>>,
}

/// What the plan bytes say; whether the joints agree with each other is not settled yet.
#[derive(Clone, Debug, PartialEq, Eq)]
pub struct Fields {
    /// A, from 1 to 16.
    pub actives: usize,
    /// P, from 1 to 16.
    pub passives: usize,
    /// S, from 2 to 32.
    pub slots: usize,
    /// The eight capacities.
    pub capacities: Capacities,
    /// The routers, 1 to 16.
    pub routers: Vec<Router>,
}

/// R, A, P, S and the capacities.
struct Header {
    routers: usize,
    actives: usize,
    passives: usize,
    slots: usize,
    capacities: Capacities,
}

impl Fields {
    /// Reads plan bytes, or gives the first of Load's refusals 1 to 4 that applies.
    pub fn read(bytes: &[u8]) -> Result<Fields, u32> {
        if bytes.len() < 6 {
            return Err(SHORT);
        }
        let mut reader = BitReader::new(bytes);
        let header = Header::read(&mut reader)?;
        let (routers, actives, passives) = (header.routers, header.actives, header.passives);
        let bits = plan_bits(routers, actives, passives);
        if bytes.len() != bits.div_ceil(8) || has_fill_bit(bytes, bits) {
            return Err(LENGTH);
        }
        let limits = [1, routers, actives, passives];
        let joints = (0..routers)
            .map(|_| read_joints(&mut reader, limits))
            .collect::<Result<Vec<_>, u32>>()?;
        let routers = joints
            .into_iter()
            .map(|joints| {
                let to_active = read_routes(&mut reader, actives)?;
                let to_passive = read_routes(&mut reader, passives)?;
                Ok(Router { joints, to_active, to_passive })
            })
            .collect::<Result<Vec<_>, u32>>()?;
        let Header { slots, capacities, .. } = header;
        Ok(Fields { actives, passives, slots, capacities, routers })
    }

    /// The plan bytes that say this.
    pub fn encode(&self) -> Vec<u8> {
        let mut writer = BitWriter::default();
        writer.push(self.routers.len(), 5);
        writer.push(self.actives, 5);
        writer.push(self.passives, 5);
        writer.push(self.slots, 6);
        for capacity in self.capacities.to_array() {
            writer.push(capacity, 3);
        }
        for joint in self.routers.iter().flat_map(|router| router.joints) {
            let (kind, number, side) = match joint {
                Joint::Nothing => (0, 0, 0),
                Joint::Router { router, side } => (1, router, side),
                Joint::Active(number) => (2, number, 0),
                Joint::Passive(number) => (3, number, 0),
            };
            writer.push(kind, 2);
            writer.push(number, 4);
            writer.push(side, 2);
        }
        for router in &self.routers {
            for route in router.to_active.iter().chain(&router.to_passive) {
                writer.push(route.unwrap_or(NO_ROUTE), ROUTE_BITS);
            }
        }
        writer.finish()
    }
}

impl Header {
    /// "R, A, P, S or a capacity outside its range": 2.
    fn read(reader: &mut BitReader) -> Result<Header, u32> {
        let mut number = |width, range: std::ops::RangeInclusive<usize>| {
            let number = reader.take(width);
            range.contains(&number).then_some(number).ok_or(SIZES)
        };
        let routers = number(5, 1..=16)?;
        let actives = number(5, 1..=16)?;
        let passives = number(5, 1..=16)?;
        let slots = number(6, 2..=32)?;
        let mut capacities = [0; 8];
        for capacity in &mut capacities {
            *capacity = number(3, 1..=7)?;
        }
        let capacities = Capacities::from_array(capacities);
        Ok(Header { routers, actives, passives, slots, capacities })
    }
}

/// "The length is 45+32R+3R(A+P) bits rounded up".
pub fn plan_bits(routers: usize, actives: usize, passives: usize) -> usize {
    HEADER_BITS + JOINT_BITS * SIDES * routers + ROUTE_BITS * routers * (actives + passives)
}

/// The joints of one router; `limits` bounds the number for each kind.
fn read_joints(reader: &mut BitReader, limits: [usize; 4]) -> Result<[Joint; SIDES], u32> {
    let mut joints = [Joint::Nothing; SIDES];
    for joint in &mut joints {
        *joint = read_joint(reader, limits)?;
    }
    Ok(joints)
}

/// "Number and side are 0 for kind 0; side is 0 for kinds 2 and 3."
fn read_joint(reader: &mut BitReader, limits: [usize; 4]) -> Result<Joint, u32> {
    let kind = reader.take(2);
    let number = reader.take(4);
    let side = reader.take(2);
    if number >= limits[kind] || (kind != 1 && side != 0) {
        return Err(FIELD);
    }
    Ok(match kind {
        0 => Joint::Nothing,
        1 => Joint::Router { router: number, side },
        2 => Joint::Active(number),
        _ => Joint::Passive(number),
    })
}

/// "One side, 3 bits: 0 to 3, or 7 for none", for each of `count` destinations.
fn read_routes(reader: &mut BitReader, count: usize) -> Result<Vec<Option<usize>>, u32> {
    (0..count)
        .map(|_| match reader.take(ROUTE_BITS) {
            side @ 0..SIDES => Ok(Some(side)),
            NO_ROUTE => Ok(None),
            _ => Err(FIELD),
        })
        .collect()
}
