//! A loaded plan with its journeys and links worked out once.

use super::packet::Packet;
use super::rules::Rules;
use crate::feeding::{Class, Queue};
use crate::fields::{Joint, SIDES};
use crate::plan::{Plan, Port};
use crate::walk::{Hop, Interface};

/// An output together with the wire it drives.
#[derive(Clone, Copy, Debug, PartialEq, Eq)]
pub enum Link {
    /// Out of a router by a side: "a wire enters each joined side and each interface from its
    /// neighbour".
    Side(Port),
    /// "One leads from router to unit".
    Unit(usize),
    /// "One back".
    Back(usize),
    /// Out of an active, into the side it is joined to.
    Active(usize),
    /// Out of a passive, into the side it is joined to.
    Passive(usize),
}

/// A served pair's ways.
#[derive(Clone, Debug)]
pub struct Journey {
    /// The walk from the active's router to the passive.
    pub walk: Vec<Hop>,
    /// The way back to the active from the walk's k-th router.
    pub back: Vec<Vec<Port>>,
    /// The side the passive's answers come in by.
    pub answers: Port,
}

/// A loadable plan: every call of the machine is a call on one.
#[derive(Clone, Debug)]
pub struct Network {
    plan: Plan,
    journeys: Vec<Option<Journey>>,
    queues: Vec<Queue>,
    links: Vec<Link>,
    rules: Rules,
}

impl Network {
    /// Load, "first in every call".
    pub fn load(bytes: &[u8]) -> Result<Network, u32> {
        Plan::load(bytes).map(Network::of)
    }

    /// The network of a loaded plan.
    pub fn of(plan: Plan) -> Network {
        let pairs = (0..plan.actives()).flat_map(|a| (0..plan.passives()).map(move |p| (a, p)));
        let journeys = pairs.map(|(active, passive)| journey(&plan, active, passive)).collect();
        let (queues, links) = (queues(&plan), links(&plan));
        Network { journeys, queues, links, plan, rules: Rules::default() }
    }

    /// The same network by other rules.
    pub fn with_rules(self, rules: Rules) -> Network {
        Network { rules, ..self }
    }

    /// The rules it runs by.
    pub fn rules(&self) -> Rules {
        self.rules
    }

    /// The plan.
    pub fn plan(&self) -> &Plan {
        &self.plan
    }

    /// S.
    pub fn slots(&self) -> usize {
        self.plan.slots()
    }

    /// All queues.
    pub fn queues(&self) -> &[Queue] {
        &self.queues
    }

    /// All links.
    pub fn links(&self) -> &[Link] {
        &self.links
    }

    /// The ways of a pair, if both numbers are in range and the pair is served.
    pub fn journey(&self, active: usize, passive: usize) -> Option<&Journey> {
        let in_range = active < self.plan.actives() && passive < self.plan.passives();
        let journey = in_range.then(|| &self.journeys[active * self.plan.passives() + passive]);
        journey.and_then(Option::as_ref)
    }

    /// A queue's number.
    pub fn queue_index(&self, queue: Queue) -> usize {
        queue.index(&self.plan)
    }

    /// A link's number.
    pub fn link_index(&self, link: Link) -> usize {
        let per_router = SIDES + 2;
        let routers = per_router * self.plan.routers();
        match link {
            Link::Side(Port { router, side }) => per_router * router + side,
            Link::Unit(router) => per_router * router + SIDES,
            Link::Back(router) => per_router * router + SIDES + 1,
            Link::Active(number) => routers + number,
            Link::Passive(number) => routers + self.plan.actives() + number,
        }
    }

    /// A queue's capacity.
    pub fn capacity(&self, queue: Queue) -> usize {
        let capacities = self.plan.capacities();
        match queue {
            Queue::ActiveOut(_) => capacities.active_out,
            Queue::ActiveIn(_) => capacities.active_in,
            Queue::U { .. } => capacities.u,
            Queue::Q { .. } => capacities.q,
            Queue::F { .. } => capacities.f,
            Queue::K { .. } => capacities.k,
            Queue::PassiveIn(_) => capacities.passive_in,
            Queue::PassiveOut(_) => capacities.passive_out,
        }
    }

    /// "Each active's allowance = the smaller of its two capacities."
    pub fn start_allowance(&self) -> usize {
        let capacities = self.plan.capacities();
        capacities.active_out.min(capacities.active_in)
    }

    /// The queues that may send over a link, in order: "set-up F, answer F, then K" for a side;
    /// "`U[0]` to `U[3]` to the unit; Q to F", side 0 first; "an interface's out-queue".
    pub fn senders(&self, link: Link) -> Vec<Queue> {
        match link {
            Link::Side(Port { router, side: to }) => {
                let from = (0..SIDES).filter(|&from| from != to);
                let crossing = from.map(|from| Queue::K { router, from, to });
                let unit = self.classes().map(|class| Queue::F { router, class, to });
                unit.into_iter().chain(crossing).collect()
            }
            Link::Unit(router) => (0..SIDES).map(|from| Queue::U { router, from }).collect(),
            Link::Back(router) => (0..SIDES).map(|from| Queue::Q { router, from }).collect(),
            Link::Active(number) => vec![Queue::ActiveOut(number)],
            Link::Passive(number) => vec![Queue::PassiveOut(number)],
        }
    }

    /// The two F of a side, in order.
    fn classes(&self) -> [Class; 2] {
        if self.rules.answers_before_set_ups {
            [Class::Answers, Class::SetUps]
        } else {
            [Class::SetUps, Class::Answers]
        }
    }

    /// A sender's rank: its place in the output's order, from 0.
    pub fn rank(&self, link: Link, sender: Queue) -> Option<usize> {
        self.senders(link).iter().position(|&other| other == sender)
    }

    /// The rank of the last sender in order: what an output remembers before it has served anybody.
    pub fn last_in_order(&self, link: Link) -> usize {
        self.senders(link).len() - 1
    }

    /// Whether the link leads somewhere: all but those of sides that are not joined.
    pub fn is_joined(&self, link: Link) -> bool {
        !matches!(link, Link::Side(port) if self.plan.joint(port) == Joint::Nothing)
    }

    /// The queue that a packet on this link's wire is bound for.
    pub fn next_queue(&self, link: Link, packet: &Packet) -> Option<Queue> {
        match link {
            Link::Side(port) => match self.plan.joint(port) {
                Joint::Nothing => None,
                Joint::Router { router, side } => self.enter_router(Port { router, side }, packet),
                Joint::Active(number) => Some(Queue::ActiveIn(number)),
                Joint::Passive(number) => Some(Queue::PassiveIn(number)),
            },
            Link::Unit(router) => {
                self.comes_in_by(router, packet).map(|from| Queue::Q { router, from })
            }
            Link::Back(router) => {
                let class = packet.class();
                self.route(router, packet).map(|to| Queue::F { router, class, to })
            }
            Link::Active(number) => self.enter_router(self.plan.active_port(number), packet),
            Link::Passive(number) => self.enter_router(self.plan.passive_port(number), packet),
        }
    }

    /// `U[i]` takes "system packets from side i, for the unit", `K[i,o]` "answers crossing".
    fn enter_router(&self, Port { router, side: from }: Port, packet: &Packet) -> Option<Queue> {
        if packet.is_answer() {
            self.route(router, packet).map(|to| Queue::K { router, from, to })
        } else {
            Some(Queue::U { router, from })
        }
    }

    /// The side by which the walk of the packet's pair comes in at a router.
    fn comes_in_by(&self, router: usize, packet: &Packet) -> Option<usize> {
        let journey = self.journey(packet.active, packet.passive)?;
        journey.walk.iter().find(|hop| hop.router == router).map(|hop| hop.came_in)
    }

    /// The side the plan gives at a router for the interface a packet goes to.
    fn route(&self, router: usize, packet: &Packet) -> Option<usize> {
        let to = if packet.is_answer() {
            Interface::Active(packet.active)
        } else {
            Interface::Passive(packet.passive)
        };
        self.plan.route(router, to)
    }
}

/// The ways of a served pair.
fn journey(plan: &Plan, active: usize, passive: usize) -> Option<Journey> {
    let walk = plan.walk(active, passive)?;
    let back = walk.iter().map(|hop| plan.way(hop.router, Interface::Active(active)));
    let back = back.collect::<Option<Vec<_>>>()?;
    Some(Journey { walk, back, answers: plan.passive_port(passive) })
}

/// "Active out and in; passive in and out; per router `U[i]`, Q, `F[o]`, `K[i,o]` with i≠o", Q one for
/// each side and each F two.
fn queues(plan: &Plan) -> Vec<Queue> {
    let mut queues = Vec::with_capacity(Queue::count(plan));
    queues.extend((0..plan.actives()).flat_map(|n| [Queue::ActiveOut(n), Queue::ActiveIn(n)]));
    queues.extend((0..plan.passives()).flat_map(|n| [Queue::PassiveIn(n), Queue::PassiveOut(n)]));
    for router in 0..plan.routers() {
        for side in 0..SIDES {
            queues.push(Queue::U { router, from: side });
            queues.push(Queue::Q { router, from: side });
            queues.push(Queue::F { router, class: Class::SetUps, to: side });
            queues.push(Queue::F { router, class: Class::Answers, to: side });
            let others = (0..SIDES).filter(|&to| to != side);
            queues.extend(others.map(|to| Queue::K { router, from: side, to }));
        }
    }
    queues
}

fn links(plan: &Plan) -> Vec<Link> {
    let mut links = Vec::new();
    for router in 0..plan.routers() {
        links.extend((0..SIDES).map(|side| Link::Side(Port { router, side })));
        links.extend([Link::Unit(router), Link::Back(router)]);
    }
    links.extend((0..plan.actives()).map(Link::Active));
    links.extend((0..plan.passives()).map(Link::Passive));
    links
}
