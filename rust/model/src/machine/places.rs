//! Where a packet of a pair can be, and which hub fits that place.

use super::network::{Journey, Link, Network};
use super::packet::{Kind, Packet, HUB_MAX};
use crate::feeding::{Class, Queue};
use crate::fields::Joint;
use crate::plan::{Plan, Port};

/// A place that holds packets.
#[derive(Clone, Copy, Debug, PartialEq, Eq)]
pub enum Place {
    /// A queue; in Q, anywhere but as its handled head.
    In(Queue),
    /// The handled head of a router's Q of that side.
    Handled(Port),
    /// The wire of a link.
    On(Link),
}

impl Network {
    /// Whether this packet can be at this place: numbers in range, a served pair, and no "packet
    /// where no journey of its pair puts it, or with a hub that doesn't fit that place".
    pub fn fits(&self, place: Place, packet: &Packet) -> bool {
        let in_range = packet.slot.0 < self.slots() && packet.hub.0 <= HUB_MAX.0;
        let journey = self.journey(packet.active, packet.passive).filter(|_| in_range);
        let Some(journey) = journey else { return false };
        let (hub, length) = (packet.hub.0, journey.walk.len());
        let plan = self.plan();
        match packet.kind {
            // "SETUP: routers booked on the way there."
            Kind::Setup => journey.booked_before(packet, place) == Some(hub),
            // "TDOWN: 1 to the routers still ahead."
            Kind::Tdown => journey
                .booked_before(packet, place)
                .is_some_and(|passed| (1..=length - passed).contains(&hub)),
            // "ACK: the walk's length."
            Kind::Ack => hub == length && journey.answer_passes(plan, packet, place),
            // "NACK: that length if it can come from the passive, or the index, from 0, of a router
            // whose NACK passes there."
            Kind::Nack if hub == length => journey.answer_passes(plan, packet, place),
            Kind::Nack => hub < length && journey.decline_passes(plan, packet, place, hub),
        }
    }
}

impl Journey {
    /// How many routers have handled a SETUP or TDOWN of this pair when it is at this place; none
    /// if it is never there. Before a unit's handling its router is still ahead, after it passed.
    fn booked_before(&self, packet: &Packet, place: Place) -> Option<usize> {
        let at = |router| self.walk.iter().position(|hop| hop.router == router);
        let entering = |router, from| at(router).filter(|&k| self.walk[k].came_in == from);
        let leaving = |port: Port| at(port.router).filter(|&k| self.walk[k].side == port.side);
        match place {
            Place::In(Queue::ActiveOut(active)) | Place::On(Link::Active(active)) => {
                (active == packet.active).then_some(0)
            }
            Place::In(Queue::U { router, from } | Queue::Q { router, from }) => {
                entering(router, from)
            }
            Place::On(Link::Unit(router)) => at(router),
            Place::Handled(Port { router, side }) => entering(router, side).map(|k| k + 1),
            Place::On(Link::Back(router)) => at(router).map(|k| k + 1),
            Place::In(Queue::F { router, class: Class::SetUps, to }) => {
                leaving(Port { router, side: to }).map(|k| k + 1)
            }
            Place::On(Link::Side(port)) => leaving(port).map(|k| k + 1),
            Place::In(Queue::PassiveIn(passive)) => {
                (passive == packet.passive).then_some(self.walk.len())
            }
            Place::In(Queue::F { class: Class::Answers, .. } | Queue::K { .. })
            | Place::In(Queue::ActiveIn(_) | Queue::PassiveOut(_))
            | Place::On(Link::Passive(_)) => None,
        }
    }

    /// Whether an answer from the passive passes this place.
    fn answer_passes(&self, plan: &Plan, packet: &Packet, place: Place) -> bool {
        let back = self.back.last().expect("a walk has a router");
        let first =
            Queue::K { router: self.answers.router, from: self.answers.side, to: back[0].side };
        match place {
            Place::In(Queue::PassiveOut(passive)) | Place::On(Link::Passive(passive)) => {
                passive == packet.passive
            }
            Place::In(queue) if queue == first => true,
            _ => crosses(plan, back, packet, place),
        }
    }

    /// Whether a NACK of the walk's k-th router passes this place.
    fn decline_passes(&self, plan: &Plan, packet: &Packet, place: Place, k: usize) -> bool {
        let back = &self.back[k];
        let Port { router, side } = back[0];
        match place {
            Place::Handled(at) => at == Port { router, side: self.walk[k].came_in },
            Place::On(Link::Back(at)) => at == router,
            Place::In(Queue::F { router: at, class: Class::Answers, to }) => {
                (at, to) == (router, side)
            }
            _ => crosses(plan, back, packet, place),
        }
    }
}

/// Whether an answer on this way back passes this place after its first router's queue: a wire out
/// of a side, K of a further router, the active's in-queue.
fn crosses(plan: &Plan, back: &[Port], packet: &Packet, place: Place) -> bool {
    match place {
        Place::On(Link::Side(port)) => back.contains(&port),
        Place::In(Queue::K { router, from, to }) => back.windows(2).any(|exits| {
            let comes_in = plan.joint(exits[0]) == Joint::Router { router, side: from };
            comes_in && exits[1] == Port { router, side: to }
        }),
        Place::In(Queue::ActiveIn(active)) => active == packet.active,
        _ => false,
    }
}
