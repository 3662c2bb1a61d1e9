//! A plan that the proved library loaded: joints, routes, homes, walks and ways back.

pub mod bits;
pub mod fields;

pub use fields::{count, Fault, Fields, Joint, CAPACITIES};

use crate::names::Names;
use crate::place::Port;

/// A loaded plan. Whether a pair is served, and the length of its walk, come from the library.
#[derive(Clone, Debug)]
pub struct Plan {
    loaded: pandabrass::Plan,
    fields: Fields,
    names: Names,
    actives: Vec<Port>,
    passives: Vec<Port>,
    pairs: Vec<Pair>,
}

/// An active and a passive, and whether the plan serves them.
#[derive(Clone, Debug)]
pub struct Pair {
    /// The active.
    pub active: usize,
    /// The passive.
    pub passive: usize,
    /// The walk and the ways back, or why there are none.
    pub served: Result<Served, Unserved>,
}

/// The ways of a served pair.
#[derive(Clone, Debug, PartialEq, Eq)]
pub struct Served {
    /// The walk from the active's router to the passive.
    pub walk: Vec<Hop>,
    /// From the walk's n-th router, the sides by which answers leave on the way to the active.
    pub back: Vec<Vec<Port>>,
}

/// One router of a walk.
#[derive(Clone, Copy, Debug, PartialEq, Eq)]
pub struct Hop {
    /// The router.
    pub router: usize,
    /// The side the walk came in by.
    pub came_in: usize,
    /// The side it leaves by.
    pub side: usize,
}

/// Why a walk does not arrive.
#[derive(Clone, Copy, Debug, PartialEq, Eq)]
pub enum Stop {
    /// A router has no side for the destination.
    NoSide(usize),
    /// A router is met twice.
    Twice(usize),
    /// A side leads to nothing, or to another interface.
    Elsewhere(Port),
}

/// Why a pair is not served.
#[derive(Clone, Copy, Debug, PartialEq, Eq)]
pub enum Unserved {
    /// The walk to the passive does not arrive.
    There(Stop),
    /// The way back from that router of the walk does not arrive.
    Back(usize, Stop),
    /// The library says so, and this program finds no reason.
    Unknown,
}

/// A destination.
#[derive(Clone, Copy, Debug, PartialEq, Eq)]
pub enum Interface {
    /// An active.
    Active(usize),
    /// A passive.
    Passive(usize),
}

impl Plan {
    /// Loads plan bytes; the library's refusal if it refuses them.
    pub fn load(bytes: &[u8], names: Names) -> Result<Plan, pandabrass::Refusal> {
        let loaded = pandabrass::Plan::load(bytes)?;
        let fields = Fields::read(bytes).expect("the library loaded it");
        let actives = homes(&fields, fields.actives, Joint::Active);
        let passives = homes(&fields, fields.passives, Joint::Passive);
        let mut plan = Plan { loaded, fields, names, actives, passives, pairs: Vec::new() };
        let (actives, passives) = (plan.fields.actives, plan.fields.passives);
        let pairs = (0..actives).flat_map(|active| (0..passives).map(move |p| (active, p)));
        plan.pairs = pairs.map(|(active, passive)| plan.find_pair(active, passive)).collect();
        Ok(plan)
    }

    /// The plan as the library holds it.
    pub fn loaded(&self) -> &pandabrass::Plan {
        &self.loaded
    }

    /// The plan bytes.
    pub fn bytes(&self) -> &[u8] {
        self.loaded.bytes()
    }

    /// What the plan bytes say.
    pub fn fields(&self) -> &Fields {
        &self.fields
    }

    /// The names.
    pub fn names(&self) -> &Names {
        &self.names
    }

    /// R.
    pub fn routers(&self) -> usize {
        self.fields.joints.len()
    }

    /// A.
    pub fn actives(&self) -> usize {
        self.fields.actives
    }

    /// P.
    pub fn passives(&self) -> usize {
        self.fields.passives
    }

    /// S.
    pub fn slots(&self) -> usize {
        self.fields.slots
    }

    /// What a side is joined to.
    pub fn joint(&self, port: Port) -> Joint {
        self.fields.joint(port)
    }

    /// The side that an active or a passive is joined to.
    pub fn home(&self, interface: Interface) -> Port {
        match interface {
            Interface::Active(number) => self.actives[number],
            Interface::Passive(number) => self.passives[number],
        }
    }

    /// Every pair, actives first by number, then passives.
    pub fn pairs(&self) -> &[Pair] {
        &self.pairs
    }

    /// The ways of a pair, if both numbers are in range and it is served.
    pub fn served(&self, active: usize, passive: usize) -> Option<&Served> {
        let in_range = active < self.actives() && passive < self.passives();
        let pair = in_range.then(|| &self.pairs[active * self.passives() + passive])?;
        pair.served.as_ref().ok()
    }

    /// The router of a served pair's walk, with its sides.
    pub fn hop(&self, active: usize, passive: usize, router: usize) -> Option<Hop> {
        let walk = &self.served(active, passive)?.walk;
        walk.iter().find(|hop| hop.router == router).copied()
    }

    /// The side given at a router for a destination.
    pub fn route(&self, router: usize, to: Interface) -> Option<usize> {
        self.fields.route(router, to)
    }

    /// "Each active's allowance = the smaller of its two capacities."
    pub fn start_allowance(&self) -> usize {
        self.fields.capacities[0].min(self.fields.capacities[1])
    }

    fn find_pair(&self, active: usize, passive: usize) -> Pair {
        let found = self.fields.pair(self.actives[active], active, passive);
        let length = self.loaded.walk(active as u32, passive as u32);
        let served = match (length, found) {
            (Some(length), Ok(served)) => {
                assert_eq!(served.walk.len() as u32, length, "the walk is the library's");
                Ok(served)
            }
            (Some(_), Err(why)) => panic!("the library serves the pair, this program: {why:?}"),
            (None, Ok(_)) => Err(Unserved::Unknown),
            (None, Err(why)) => Err(why),
        };
        Pair { active, passive, served }
    }
}

impl Fields {
    /// The side given at a router for a destination.
    pub fn route(&self, router: usize, to: Interface) -> Option<usize> {
        match to {
            Interface::Active(number) => self.routes[router][number],
            Interface::Passive(number) => self.routes[router][self.actives + number],
        }
    }

    /// "A walk leaves a router by the side given for a destination, and so on. It arrives if it
    /// reaches that interface with no router met twice."
    pub fn way(&self, from: usize, to: Interface) -> Result<Vec<Port>, Stop> {
        let mut way: Vec<Port> = Vec::new();
        let mut router = from;
        loop {
            if way.iter().any(|port| port.router == router) {
                return Err(Stop::Twice(router));
            }
            let side = self.route(router, to).ok_or(Stop::NoSide(router))?;
            let port = Port { router, side };
            way.push(port);
            match (self.joint(port), to) {
                (Joint::Router(next), _) => router = next.router,
                (Joint::Active(n), Interface::Active(wanted)) if n == wanted => return Ok(way),
                (Joint::Passive(n), Interface::Passive(wanted)) if n == wanted => return Ok(way),
                _ => return Err(Stop::Elsewhere(port)),
            }
        }
    }

    /// The ways of a pair whose active is joined to `home`, or why it is not served.
    pub fn pair(&self, home: Port, active: usize, passive: usize) -> Result<Served, Unserved> {
        let exits = self.way(home.router, Interface::Passive(passive)).map_err(Unserved::There)?;
        let mut came_in = home.side;
        let mut served = Served { walk: Vec::new(), back: Vec::new() };
        for exit in exits {
            served.walk.push(Hop { router: exit.router, came_in, side: exit.side });
            if let Joint::Router(next) = self.joint(exit) {
                came_in = next.side;
            }
            let back = self.way(exit.router, Interface::Active(active));
            served.back.push(back.map_err(|stop| Unserved::Back(exit.router, stop))?);
        }
        Ok(served)
    }
}

/// The side that each of `count` interfaces is joined to.
fn homes(fields: &Fields, count: usize, joint: fn(usize) -> Joint) -> Vec<Port> {
    let sides = |router| (0..crate::place::SIDES).map(move |side| Port { router, side });
    let ports: Vec<Port> = (0..fields.joints.len()).flat_map(sides).collect();
    let home = |number| ports.iter().copied().find(|&port| fields.joint(port) == joint(number));
    (0..count).map(|number| home(number).expect("an interface has a joint")).collect()
}
