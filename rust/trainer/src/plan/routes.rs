//! Routes that a plan's text leaves out: for the pairs to be served only, the way with the fewest
//! routers, then by the lowest side.

use std::collections::VecDeque;

use trace::place::SIDES;
use trace::plan::Interface;
use trace::{Fields, Joint, Port};

/// Routes that are written out: they win over the shortest way.
pub type Written = Vec<(usize, Interface, Option<usize>)>;

/// Gives each router on the ways of these pairs its sides. The pairs that have no way there and back
/// are returned.
pub fn fill(
    fields: &mut Fields,
    homes: &[Option<Port>],
    pairs: &[(usize, usize)],
    written: &Written,
) -> Vec<(usize, usize)> {
    let ways = Ways { fields: fields.clone(), written };
    let mut unreached = Vec::new();
    for &(active, passive) in pairs {
        let there = homes[active].map(|home| ways.follow(home.router, Interface::Passive(passive)));
        let there = there.unwrap_or_default();
        let arrives =
            there.last().is_some_and(|&exit| fields.joint(exit) == Joint::Passive(passive));
        if !arrives {
            unreached.push((active, passive));
        }
        for exit in there {
            set(fields, exit, Interface::Passive(passive));
            for exit in ways.follow(exit.router, Interface::Active(active)) {
                set(fields, exit, Interface::Active(active));
            }
        }
    }
    for &(router, to, side) in written {
        let at = number(fields, to);
        fields.routes[router][at] = side;
    }
    unreached
}

fn set(fields: &mut Fields, exit: Port, to: Interface) {
    let at = number(fields, to);
    fields.routes[exit.router][at] = Some(exit.side);
}

/// A destination's number, actives first.
fn number(fields: &Fields, to: Interface) -> usize {
    match to {
        Interface::Active(number) => number,
        Interface::Passive(number) => fields.actives + number,
    }
}

/// The shortest ways, with those that are written out.
struct Ways<'w> {
    fields: Fields,
    written: &'w Written,
}

impl Ways<'_> {
    /// The sides by which a way leaves its routers, up to where it ends or meets a router again.
    fn follow(&self, from: usize, to: Interface) -> Vec<Port> {
        let distances = self.distances(to);
        let mut way: Vec<Port> = Vec::new();
        let mut router = from;
        while !way.iter().any(|exit| exit.router == router) {
            let Some(side) = self.side(router, to, &distances) else { break };
            let exit = Port { router, side };
            way.push(exit);
            match self.fields.joint(exit) {
                Joint::Router(next) => router = next.router,
                _ => break,
            }
        }
        way
    }

    /// The side written out, else that of the shortest way, lowest first.
    fn side(&self, router: usize, to: Interface, distances: &[Option<usize>]) -> Option<usize> {
        let written = self.written.iter().rev().find(|route| (route.0, route.1) == (router, to));
        if let Some(&(_, _, side)) = written {
            return side;
        }
        let distance = distances[router]?;
        (0..SIDES).find(|&side| match self.fields.joint(Port { router, side }) {
            Joint::Router(next) => distances[next.router].is_some_and(|next| next + 1 == distance),
            joint => distance == 0 && leads(joint, to),
        })
    }

    /// How many joints each router is away from the one that the interface is joined to.
    fn distances(&self, to: Interface) -> Vec<Option<usize>> {
        let joints = &self.fields.joints;
        let mut distances = vec![None; joints.len()];
        let mut border = VecDeque::new();
        for (router, sides) in joints.iter().enumerate() {
            if sides.iter().any(|&joint| leads(joint, to)) {
                distances[router] = Some(0);
                border.push_back((router, 0));
            }
        }
        while let Some((router, distance)) = border.pop_front() {
            for joint in joints[router] {
                if let Joint::Router(next) = joint {
                    if distances[next.router].is_none() {
                        distances[next.router] = Some(distance + 1);
                        border.push_back((next.router, distance + 1));
                    }
                }
            }
        }
        distances
    }
}

/// Whether a joint is the interface's.
fn leads(joint: Joint, to: Interface) -> bool {
    match to {
        Interface::Active(number) => joint == Joint::Active(number),
        Interface::Passive(number) => joint == Joint::Passive(number),
    }
}
