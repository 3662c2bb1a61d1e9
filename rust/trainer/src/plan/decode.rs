//! Plan bytes as plan text, so that encoding the text gives the same bytes again.

use trace::place::SIDES;
use trace::plan::CAPACITIES;
use trace::{Fields, Joint, Names, Port};

use super::{PlanFile, T};

/// The text of plan bytes; bytes that statements cannot say stand as they are.
pub fn text(bytes: &[u8], names: Option<&Names>) -> String {
    let statements = Fields::read(bytes).ok().map(|fields| {
        let numbered = Names::numbered(fields.joints.len(), fields.actives, fields.passives);
        complete(&fields, names.unwrap_or(&numbered), bytes)
    });
    let same = |text: &String| PlanFile::of_text("", text).is_ok_and(|plan| plan.bytes == bytes);
    statements.filter(same).unwrap_or_else(|| {
        let note = "# statements cannot say this plan: its bytes as they are";
        format!("{note}\nbytes {}\n", hex(bytes))
    })
}

/// Bytes as hex digits, a blank between two.
pub fn hex(bytes: &[u8]) -> String {
    let digits: Vec<String> = bytes.iter().map(|byte| format!("{byte:02X}")).collect();
    digits.join(" ")
}

/// The statements, with as few written routes as give the same bytes.
fn complete(fields: &Fields, names: &Names, bytes: &[u8]) -> String {
    let mut text = parts(fields, names);
    text += &served(fields, names);
    let Ok(plan) = PlanFile::of_text("", &text) else { return text };
    let Ok(found) = Fields::read(&plan.bytes) else { return text };
    if plan.bytes != bytes {
        text += &routes(fields, &found, names);
    }
    text
}

/// Slots, capacities, routers, interfaces, joints.
fn parts(fields: &Fields, names: &Names) -> String {
    let mut text = format!("slots {}\n{}\n", fields.slots, capacities(fields.capacities));
    text += &format!("router {}\n", names.routers.join(", "));
    for number in 0..fields.actives {
        let home = home(fields, Joint::Active(number));
        text += &interface("active", &names.active(number), home, names);
    }
    for number in 0..fields.passives {
        let home = home(fields, Joint::Passive(number));
        text += &interface("passive", &names.passive(number), home, names);
    }
    for port in ports(fields) {
        if let Joint::Router(other) = fields.joint(port) {
            if port <= other {
                text += &format!("joint {} -- {}\n", names.port(port), names.port(other));
            }
        }
    }
    text
}

/// The most frequent capacity as `all`, then those that differ.
fn capacities(capacities: [usize; 8]) -> String {
    let frequency = |value: usize| capacities.iter().filter(|&&other| other == value).count();
    let all = capacities.into_iter().rev().max_by_key(|&value| frequency(value)).unwrap_or(1);
    let others = CAPACITIES.iter().zip(capacities).filter(|&(_, capacity)| capacity != all);
    let others: String = others.map(|(name, capacity)| format!(", {name} {capacity}")).collect();
    format!("capacity all {all}{others}")
}

fn interface(kind: &str, name: &str, home: Option<Port>, names: &Names) -> String {
    match home {
        Some(port) => format!("{kind} {name} at {}\n", names.port(port)),
        None => format!("{kind} {name}\n"),
    }
}

/// The pairs that the plan serves, unless all are.
fn served(fields: &Fields, names: &Names) -> String {
    let pairs = (0..fields.actives).flat_map(|a| (0..fields.passives).map(move |p| (a, p)));
    let is_served = |&(active, passive): &(usize, usize)| {
        let home = home(fields, Joint::Active(active));
        home.is_some_and(|home| fields.pair(home, active, passive).is_ok())
    };
    let served: Vec<(usize, usize)> = pairs.filter(is_served).collect();
    if served.is_empty() || served.len() == fields.actives * fields.passives {
        return String::new();
    }
    let name = |&(a, p): &(usize, usize)| format!("{} -> {}", names.active(a), names.passive(p));
    let lines = served.chunks(4).map(|pairs| {
        let pairs: Vec<String> = pairs.iter().map(name).collect();
        format!("serve {}\n", pairs.join(", "))
    });
    lines.collect()
}

/// The routes that differ from those found without them.
fn routes(fields: &Fields, found: &Fields, names: &Names) -> String {
    let mut text = String::new();
    for (router, (wanted, found)) in fields.routes.iter().zip(&found.routes).enumerate() {
        for (to, (side, other)) in wanted.iter().zip(found).enumerate() {
            let name = match to.checked_sub(fields.actives) {
                Some(passive) => names.passive(passive),
                None => names.active(to),
            };
            let by = side.map_or("none".to_string(), |side| format!("by {side}"));
            // A written route leads others elsewhere, so all that are given are written.
            if side != other || side.is_some() {
                text += &format!("route {} to {name} {by}\n", names.router(router));
            }
        }
    }
    text
}

fn ports(fields: &Fields) -> impl Iterator<Item = Port> {
    let routers = 0..fields.joints.len();
    routers.flat_map(|router| (0..SIDES).map(move |side| Port { router, side }))
}

/// The first side with that joint.
fn home(fields: &Fields, joint: Joint) -> Option<Port> {
    ports(fields).find(|&port| fields.joint(port) == joint)
}

/// Plan T's bytes.
pub fn t_bytes() -> Vec<u8> {
    PlanFile::of_text("T", T).expect("T is a plan's text").bytes
}
