//! What plan bytes say, field by field, and where a field is out of its range (refusals 1 to 4).

use super::bits::{Reader, Writer};
use crate::place::{Port, SIDES};

/// "Routers R, actives A, passives P (5 bits each), S (6)": name, width, least, most.
pub const COUNTS: [(&str, usize, usize, usize); 4] =
    [("routers", 5, 1, 16), ("actives", 5, 1, 16), ("passives", 5, 1, 16), ("slots", 6, 2, 32)];
/// "Eight capacities of 3 bits, 1 to 7", by name, in the order of the plan bytes.
pub const CAPACITIES: [&str; 8] =
    ["active-out", "active-in", "U", "Q", "F", "K", "passive-in", "passive-out"];
/// The width of a capacity and of a route.
const SMALL: usize = 3;
/// "0 to 3, or 7 for none".
const NO_SIDE: usize = 7;

/// What a router's side is joined to.
#[derive(Clone, Copy, Debug, PartialEq, Eq)]
pub enum Joint {
    /// Nothing.
    Nothing,
    /// Another router's side.
    Router(Port),
    /// An active.
    Active(usize),
    /// A passive.
    Passive(usize),
}

/// What plan bytes say; whether the joints fit together is not settled yet.
#[derive(Clone, Debug, PartialEq, Eq)]
pub struct Fields {
    /// A.
    pub actives: usize,
    /// P.
    pub passives: usize,
    /// S.
    pub slots: usize,
    /// The capacities in the order of [`CAPACITIES`].
    pub capacities: [usize; 8],
    /// By router, by side.
    pub joints: Vec<[Joint; SIDES]>,
    /// By router, by destination, actives first: the side given, if any.
    pub routes: Vec<Vec<Option<usize>>>,
}

/// Why plan bytes are refused, as this program finds it.
#[derive(Clone, Debug, PartialEq, Eq)]
pub struct Fault {
    /// Document 01's number, to be compared with the library's.
    pub number: u32,
    /// The bit it is found at, if it is one field's.
    pub bit: Option<usize>,
    /// What is wrong, in words, without the place.
    pub what: String,
    /// The place in words.
    pub place: String,
}

impl Fault {
    fn of_bytes(number: u32, bytes: usize, what: String) -> Fault {
        Fault { number, bit: None, what, place: format!("{bytes} bytes") }
    }

    fn at_bit(number: u32, bit: usize, what: String) -> Fault {
        let place = format!("byte {}, bit {} from the left", bit / 8, bit % 8);
        Fault { number, bit: Some(bit), what, place }
    }

    fn at_field(bit: usize, field: &str, what: String) -> Fault {
        let place = format!("{field} (byte {}, bit {})", bit / 8, bit % 8);
        Fault { number: 4, bit: Some(bit), what, place }
    }

    /// Place and words together.
    pub fn sentence(&self) -> String {
        format!("{}: {}", self.place, self.what)
    }
}

/// "The length is 45+32R+3R(A+P) bits".
pub fn bits(routers: usize, actives: usize, passives: usize) -> usize {
    45 + 32 * routers + SMALL * routers * (actives + passives)
}

/// "1 router", "2 routers".
pub fn count(number: usize, one: &str) -> String {
    format!("{number} {one}{}", if number == 1 { "" } else { "s" })
}

impl Fields {
    /// Reads plan bytes, or finds the first fault of the refusals 1 to 4.
    pub fn read(bytes: &[u8]) -> Result<Fields, Fault> {
        if bytes.len() < 6 {
            let what = "a plan has at least six bytes".to_string();
            return Err(Fault::of_bytes(1, bytes.len(), what));
        }
        let mut reader = Reader::new(bytes);
        let (counts, capacities) = read_header(&mut reader)?;
        check_length(bytes, counts)?;
        let [routers, actives, passives, slots] = counts;
        let mut joints = vec![[Joint::Nothing; SIDES]; routers];
        for (router, sides) in joints.iter_mut().enumerate() {
            for (side, joint) in sides.iter_mut().enumerate() {
                *joint = read_joint(&mut reader, Port { router, side }, counts)?;
            }
        }
        let mut routes = vec![vec![None; actives + passives]; routers];
        for (router, row) in routes.iter_mut().enumerate() {
            for (to, route) in row.iter_mut().enumerate() {
                *route = read_route(&mut reader, router, to, actives)?;
            }
        }
        Ok(Fields { actives, passives, slots, capacities, joints, routes })
    }

    /// The plan bytes that say this; a number that is too large for its field loses its high bits.
    pub fn encode(&self) -> Vec<u8> {
        let mut writer = Writer::default();
        let counts = [self.joints.len(), self.actives, self.passives, self.slots];
        for ((_, width, ..), number) in COUNTS.into_iter().zip(counts) {
            writer.push(number, width);
        }
        self.capacities.iter().for_each(|&capacity| writer.push(capacity, SMALL));
        for joint in self.joints.iter().flatten() {
            let (kind, number, side) = match *joint {
                Joint::Nothing => (0, 0, 0),
                Joint::Router(port) => (1, port.router, port.side),
                Joint::Active(number) => (2, number, 0),
                Joint::Passive(number) => (3, number, 0),
            };
            writer.push(kind, 2);
            writer.push(number, 4);
            writer.push(side, 2);
        }
        for route in self.routes.iter().flatten() {
            writer.push(route.unwrap_or(NO_SIDE), SMALL);
        }
        writer.finish()
    }

    /// What a side is joined to.
    pub fn joint(&self, port: Port) -> Joint {
        self.joints[port.router][port.side]
    }
}

/// Refusal 2: the counts and the capacities.
fn read_header(reader: &mut Reader) -> Result<([usize; 4], [usize; 8]), Fault> {
    let mut number = |name: &str, width, least, most| {
        let bit = reader.at;
        let number = reader.take(width);
        let what = || format!("{name} is {number}, must be {least} to {most}");
        let fits = (least..=most).contains(&number);
        fits.then_some(number).ok_or_else(|| Fault::at_bit(2, bit, what()))
    };
    let mut counts = [0; 4];
    for (into, (name, width, least, most)) in counts.iter_mut().zip(COUNTS) {
        *into = number(name, width, least, most)?;
    }
    let mut capacities = [0; 8];
    for (into, name) in capacities.iter_mut().zip(CAPACITIES) {
        *into = number(&format!("capacity {name}"), SMALL, 1, 7)?;
    }
    Ok((counts, capacities))
}

/// Refusal 3: the length and the fill bits.
fn check_length(bytes: &[u8], [routers, actives, passives, _]: [usize; 4]) -> Result<(), Fault> {
    let bits = bits(routers, actives, passives);
    let length = bits.div_ceil(8);
    if bytes.len() != length {
        let counts = [count(routers, "router"), count(actives, "active")].join(", ");
        let passives = count(passives, "passive");
        let what = format!("{counts} and {passives} make {bits} bits, that is {length} bytes");
        return Err(Fault::of_bytes(3, bytes.len(), what));
    }
    let mut fill = Reader::new(bytes);
    fill.at = bits;
    let Some(bit) = fill.first_set() else { return Ok(()) };
    let last = 8 * length - bits;
    let what = format!("a fill bit is set; the last {} must be 0", count(last, "bit"));
    Err(Fault::at_bit(3, bit, what))
}

/// Refusal 4: "number and side are 0 for kind 0; side is 0 for kinds 2 and 3".
fn read_joint(reader: &mut Reader, port: Port, counts: [usize; 4]) -> Result<Joint, Fault> {
    let bit = reader.at;
    let (kind, number, side) = (reader.take(2), reader.take(4), reader.take(2));
    let field = format!("r{} side {}", port.router, port.side);
    // Kind, number and side stand 0, 2 and 6 bits after the joint's first.
    let fault = |at: usize, what| Err(Fault::at_field(bit + at, &field, what));
    let name = ["nothing", "router", "active", "passive"][kind];
    let limit = [1, counts[0], counts[1], counts[2]][kind];
    if kind == 0 && (number, side) != (0, 0) {
        return fault(
            2,
            format!("joined to nothing, but number {number} and side {side} are not 0"),
        );
    }
    if number >= limit {
        return fault(
            2,
            format!("joined to {name} {number}, but the numbers end at {}", limit - 1),
        );
    }
    if kind > 1 && side != 0 {
        return fault(
            6,
            format!("joined to {name} {number}, but the partner's side {side} is not 0"),
        );
    }
    Ok(match kind {
        0 => Joint::Nothing,
        1 => Joint::Router(Port { router: number, side }),
        2 => Joint::Active(number),
        _ => Joint::Passive(number),
    })
}

/// Refusal 4: "one side, 3 bits: 0 to 3, or 7 for none".
fn read_route(
    reader: &mut Reader,
    router: usize,
    to: usize,
    actives: usize,
) -> Result<Option<usize>, Fault> {
    let bit = reader.at;
    match reader.take(SMALL) {
        side @ 0..SIDES => Ok(Some(side)),
        NO_SIDE => Ok(None),
        side => {
            let name = if to < actives { format!("a{to}") } else { format!("p{}", to - actives) };
            let what = format!("the side is {side}, must be 0 to 3, or 7 for none");
            Err(Fault::at_field(bit, &format!("route of r{router} to {name}"), what))
        }
    }
}
