//! Why the library refuses a plan, with its place: the joint, the interface, the ring, in a text the
//! line and column. A sentence is given only if it is of the library's number.

use trace::place::SIDES;
use trace::plan::Fault;
use trace::{Fields, Joint, Names, Port, Refusal};

use super::ring;
use super::text::Draft;
use super::{Origin, PlanFile};
use crate::text::At;

/// A refusal with what this program finds of it.
#[derive(Clone, Debug)]
pub struct Refused {
    /// The library's refusal.
    pub refusal: Refusal,
    /// Place and words; document 01's words where the program finds no place.
    pub sentence: String,
    /// Where it is in a text.
    pub at: Option<At>,
    /// The bit of the plan bytes.
    pub bit: Option<usize>,
    /// The ring, if it is one.
    pub ring: Option<ring::Ring>,
}

/// What the library says of a plan, and where.
pub fn find(plan: &PlanFile) -> Result<trace::Plan, Box<Refused>> {
    plan.load().map_err(|refusal| Box::new(refused(plan, refusal)))
}

fn refused(plan: &PlanFile, refusal: Refusal) -> Refused {
    let plain = Refused {
        refusal,
        sentence: refusal.sentence().to_string(),
        at: None,
        bit: None,
        ring: None,
    };
    let draft = match &plan.origin {
        Origin::Text(draft) => Some(draft.as_ref()),
        Origin::Bytes => None,
    };
    match Fields::read(&plan.bytes) {
        Err(fault) if fault.number == refusal.number() => of_field(plain, fault, draft),
        Ok(fields) => match refusal {
            Refusal::BadJoint => of_joint(plain, &fields, &plan.names, draft),
            Refusal::HasRing => of_ring(plain, &fields, &plan.names),
            _ => plain,
        },
        Err(_) => plain,
    }
}

/// Refusals 1 to 4: a field; in a text its line.
fn of_field(plain: Refused, fault: Fault, draft: Option<&Draft>) -> Refused {
    let at = draft.and_then(|draft| count_place(draft, fault.bit?));
    let sentence = match (draft, at) {
        (Some(_), Some(at)) => format!("line {}, column {}: {}", at.line, at.column, fault.what),
        (Some(_), None) => fault.what.clone(),
        (None, _) => fault.sentence(),
    };
    Refused { sentence, at, bit: fault.bit, ..plain }
}

/// Where a text gives the count or capacity of that bit.
fn count_place(draft: &Draft, bit: usize) -> Option<At> {
    // The first that is too many; the end of the text where there is none.
    let past = |places: &[At]| Some(places.get(16).copied().unwrap_or(draft.end));
    let homes = |homes: &[(Option<Port>, At)]| -> Vec<At> { homes.iter().map(|h| h.1).collect() };
    match bit {
        0 => past(&draft.routers),
        5 => past(&homes(&draft.actives)),
        10 => past(&homes(&draft.passives)),
        15 => draft.slots.map(|(_, at)| at),
        bit => draft.capacities.get(bit.checked_sub(21)? / 3).map(|&(_, at)| at),
    }
}

/// Refusal 5: "a router joint not named back, a joint to the same router, or an interface without
/// exactly one joint".
fn of_joint(plain: Refused, fields: &Fields, names: &Names, draft: Option<&Draft>) -> Refused {
    let ports = (0..fields.joints.len())
        .flat_map(|router| (0..SIDES).map(move |side| Port { router, side }));
    let ports: Vec<Port> = ports.collect();
    let faults = ports.iter().filter_map(|&port| {
        let what = port_fault(fields, names, port)?;
        let place = format!("{} side {}", names.router(port.router), port.side);
        let written = |&&(one, other, _): &&(Port, Port, At)| one == port || other == port;
        let at = draft.and_then(|draft| draft.joints.iter().find(written)).map(|joint| joint.2);
        Some((place, what, at))
    });
    let interfaces = interfaces(fields, names, draft);
    let alone = interfaces.into_iter().filter_map(|(joint, place, at)| {
        let sides: Vec<Port> =
            ports.iter().copied().filter(|&port| fields.joint(port) == joint).collect();
        Some((place, interface_fault(&sides, names, draft.is_some())?, at))
    });
    let Some((place, what, at)) = faults.chain(alone).next() else { return plain };
    let sentence = match at {
        Some(at) => format!("line {}, column {}, {place}: {what}", at.line, at.column),
        None => format!("{place}: {what}"),
    };
    Refused { sentence, at, ..plain }
}

/// What is wrong with a side that is joined to a router.
fn port_fault(fields: &Fields, names: &Names, port: Port) -> Option<String> {
    let Joint::Router(other) = fields.joint(port) else { return None };
    let named = format!("{} side {}", names.router(other.router), other.side);
    if other.router == port.router {
        return Some(format!("names {named}: a joint to the same router"));
    }
    let back = match fields.joint(other) {
        Joint::Router(back) if back == port => return None,
        Joint::Router(back) => format!("{} side {}", names.router(back.router), back.side),
        Joint::Nothing => "nothing".to_string(),
        Joint::Active(number) => format!("active {}", names.active(number)),
        Joint::Passive(number) => format!("passive {}", names.passive(number)),
    };
    Some(format!("names {named}, which does not name it back but {back}"))
}

/// Every interface with its joint, its place in words and in the text.
fn interfaces(
    fields: &Fields,
    names: &Names,
    draft: Option<&Draft>,
) -> Vec<(Joint, String, Option<At>)> {
    let actives = (0..fields.actives).map(|number| {
        let at = draft.map(|draft| draft.actives[number].1);
        (Joint::Active(number), format!("active {}", names.active(number)), at)
    });
    let passives = (0..fields.passives).map(|number| {
        let at = draft.map(|draft| draft.passives[number].1);
        (Joint::Passive(number), format!("passive {}", names.passive(number)), at)
    });
    actives.chain(passives).collect()
}

fn interface_fault(sides: &[Port], names: &Names, text: bool) -> Option<String> {
    match sides {
        [] if text => Some("has no joint; write 'at ROUTER.SIDE'".to_string()),
        [] => Some("has no joint".to_string()),
        [_] => None,
        sides => {
            let sides: Vec<String> = sides.iter().map(|&port| names.port(port)).collect();
            Some(format!("has {} joints: {}", sides.len(), sides.join(", ")))
        }
    }
}

/// Refusal 6.
fn of_ring(plain: Refused, fields: &Fields, names: &Names) -> Refused {
    let Some(ring) = ring::find(fields) else { return plain };
    let sentence = ring.sentence(names);
    Refused { sentence, ring: Some(ring), ..plain }
}
