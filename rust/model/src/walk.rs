//! Walks, ways back and served pairs.

use crate::fields::Joint;
use crate::plan::{Plan, Port};

/// A destination: "for each router and each destination the plan gives one side".
#[derive(Clone, Copy, Debug, PartialEq, Eq)]
pub enum Interface {
    /// An active, the destination of ACKs and NACKs.
    Active(usize),
    /// A passive, the destination of SETUPs and TDOWNs.
    Passive(usize),
}

/// One router on the walk of a pair.
#[derive(Clone, Copy, Debug, PartialEq, Eq)]
pub struct Hop {
    /// The router.
    pub router: usize,
    /// The side the walk came in by.
    pub came_in: usize,
    /// The walk's side: the one it leaves by.
    pub side: usize,
}

impl Plan {
    /// The side the plan gives for a destination at a router.
    pub fn route(&self, router: usize, to: Interface) -> Option<usize> {
        let router = &self.fields().routers[router];
        match to {
            Interface::Active(number) => router.to_active[number],
            Interface::Passive(number) => router.to_passive[number],
        }
    }

    /// "A walk leaves a router by the side given for a destination, and so on. It arrives if it
    /// reaches that interface with no router met twice." The sides it leaves by, if it arrives.
    pub fn way(&self, from: usize, to: Interface) -> Option<Vec<Port>> {
        let mut met = [false; 16];
        let mut way = Vec::with_capacity(self.routers());
        let mut router = from;
        loop {
            if std::mem::replace(&mut met[router], true) {
                return None;
            }
            let exit = Port { router, side: self.route(router, to)? };
            way.push(exit);
            match self.joint(exit) {
                Joint::Router { router: next, .. } => router = next,
                Joint::Active(number) if to == Interface::Active(number) => return Some(way),
                Joint::Passive(number) if to == Interface::Passive(number) => return Some(way),
                _ => return None,
            }
        }
    }

    /// The walk back to an active from each router, where it arrives.
    pub fn ways_back(&self, active: usize) -> Vec<Option<Vec<Port>>> {
        (0..self.routers()).map(|router| self.way(router, Interface::Active(active))).collect()
    }

    /// The walk from the active's router to the passive, if it arrives.
    pub fn walk(&self, active: usize, passive: usize) -> Option<Vec<Hop>> {
        let start = self.active_port(active);
        let way = self.way(start.router, Interface::Passive(passive))?;
        let mut came_in = start.side;
        let hops = way.into_iter().map(|exit| {
            let hop = Hop { router: exit.router, came_in, side: exit.side };
            if let Joint::Router { side, .. } = self.joint(exit) {
                came_in = side;
            }
            hop
        });
        Some(hops.collect())
    }

    /// "A pair is served if the walk from the active's router to the passive arrives, and from each
    /// router on it the walk back to the active arrives."
    pub fn served(&self, active: usize, passive: usize) -> bool {
        let start = self.active_port(active).router;
        let returns = |exit: &Port| self.way(exit.router, Interface::Active(active)).is_some();
        self.way(start, Interface::Passive(passive)).is_some_and(|walk| walk.iter().all(returns))
    }
}
