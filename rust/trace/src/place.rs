//! Where a packet can be: queues and wires, numbered as in docs/STATE.md.

use pandabrass::{Kind, Packet};

use crate::plan::{Interface, Joint, Plan};

/// "Each with four sides 0 to 3".
pub const SIDES: usize = 4;
/// Queues of a router: U and Q of each side, then each side's senders.
const ROUTER_QUEUES: usize = 28;
/// The first sender of side 0, behind U and Q of the four sides.
const FIRST_SENDER: usize = 8;
/// "A side's order is now set-up F, answer F, then K."
const SIDE_SENDERS: usize = 5;
const ROUTER_OUTPUTS: usize = 6;

/// A side of a router.
#[derive(Clone, Copy, Debug, PartialEq, Eq, Hash, PartialOrd, Ord)]
pub struct Port {
    /// The router.
    pub router: usize,
    /// The side, 0 to 3.
    pub side: usize,
}

/// Which way a packet goes.
#[derive(Clone, Copy, Debug, PartialEq, Eq, Hash)]
pub enum Heading {
    /// To the passive: set-ups and tear-downs.
    Ahead,
    /// To the active: answers.
    Back,
}

/// A queue.
#[derive(Clone, Copy, Debug, PartialEq, Eq, Hash)]
pub enum Queue {
    /// An active's out-queue.
    ActiveOut(usize),
    /// A passive's out-queue.
    PassiveOut(usize),
    /// `U[side]` of a router.
    U(Port),
    /// `Q[side]` of a router: at the unit, for the packets that came in by that side.
    Q(Port),
    /// `F[side]` of a router: one for set-ups and tear-downs, one for answers.
    F(Heading, Port),
    /// `K[i,o]` of a router: the side it came in by, and the router with the side it leaves by.
    K(usize, Port),
    /// An active's in-queue.
    ActiveIn(usize),
    /// A passive's in-queue.
    PassiveIn(usize),
}

/// An output, and the wire that it sends over.
#[derive(Clone, Copy, Debug, PartialEq, Eq, Hash)]
pub enum Output {
    /// Of an active.
    Active(usize),
    /// Of a passive.
    Passive(usize),
    /// A router's side.
    Side(Port),
    /// A router to its unit.
    ToUnit(usize),
    /// A unit to its router.
    FromUnit(usize),
}

/// Where a packet is.
#[derive(Clone, Copy, Debug, PartialEq, Eq, Hash)]
pub enum Place {
    /// In a queue.
    In(Queue),
    /// On the wire of an output.
    On(Output),
}

/// Whether it goes to the passive or to the active.
pub fn heading(packet: &Packet) -> Heading {
    match packet.kind {
        Kind::Setup | Kind::Tdown => Heading::Ahead,
        Kind::Ack | Kind::Nack => Heading::Back,
    }
}

impl Plan {
    /// How many queues there are.
    pub fn queue_count(&self) -> usize {
        2 * self.actives() + 2 * self.passives() + ROUTER_QUEUES * self.routers()
    }

    /// How many outputs there are.
    pub fn output_count(&self) -> usize {
        self.actives() + self.passives() + ROUTER_OUTPUTS * self.routers()
    }

    /// A queue's number.
    pub fn queue_number(&self, queue: Queue) -> usize {
        let (actives, ends) = (self.actives(), self.actives() + self.passives());
        let of = |router| ends + ROUTER_QUEUES * router;
        let sender = |port: Port| of(port.router) + FIRST_SENDER + SIDE_SENDERS * port.side;
        match queue {
            Queue::ActiveOut(number) => number,
            Queue::PassiveOut(number) => actives + number,
            Queue::U(port) => of(port.router) + port.side,
            Queue::Q(port) => of(port.router) + SIDES + port.side,
            Queue::F(heading, port) => sender(port) + heading as usize,
            Queue::K(from, port) => sender(port) + 1 + from + usize::from(from < port.side),
            Queue::ActiveIn(number) => of(self.routers()) + number,
            Queue::PassiveIn(number) => of(self.routers()) + actives + number,
        }
    }

    /// The queue of a number.
    pub fn queue(&self, number: usize) -> Queue {
        let (actives, ends) = (self.actives(), self.actives() + self.passives());
        let routers = ends + ROUTER_QUEUES * self.routers();
        if number < actives {
            Queue::ActiveOut(number)
        } else if number < ends {
            Queue::PassiveOut(number - actives)
        } else if number < routers {
            router_queue((number - ends) / ROUTER_QUEUES, (number - ends) % ROUTER_QUEUES)
        } else if number < routers + actives {
            Queue::ActiveIn(number - routers)
        } else {
            Queue::PassiveIn(number - routers - actives)
        }
    }

    /// Every queue, by its number.
    pub fn queues(&self) -> impl Iterator<Item = Queue> + '_ {
        (0..self.queue_count()).map(|number| self.queue(number))
    }

    /// An output's number.
    pub fn output_number(&self, output: Output) -> usize {
        let ends = self.actives() + self.passives();
        let of = |router| ends + ROUTER_OUTPUTS * router;
        match output {
            Output::Active(number) => number,
            Output::Passive(number) => self.actives() + number,
            Output::Side(port) => of(port.router) + port.side,
            Output::ToUnit(router) => of(router) + 4,
            Output::FromUnit(router) => of(router) + 5,
        }
    }

    /// The output of a number.
    pub fn output(&self, number: usize) -> Output {
        let (actives, ends) = (self.actives(), self.actives() + self.passives());
        if number < actives {
            return Output::Active(number);
        }
        if number < ends {
            return Output::Passive(number - actives);
        }
        let router = (number - ends) / ROUTER_OUTPUTS;
        match (number - ends) % ROUTER_OUTPUTS {
            4 => Output::ToUnit(router),
            5 => Output::FromUnit(router),
            side => Output::Side(Port { router, side }),
        }
    }

    /// Every output, by its number.
    pub fn outputs(&self) -> impl Iterator<Item = Output> + '_ {
        (0..self.output_count()).map(|number| self.output(number))
    }

    /// The queues that may send by an output, by rank.
    pub fn senders(&self, output: Output) -> Vec<Queue> {
        match output {
            Output::Active(number) => vec![Queue::ActiveOut(number)],
            Output::Passive(number) => vec![Queue::PassiveOut(number)],
            Output::Side(port) => {
                let crossing = (0..SIDES).filter(|&from| from != port.side);
                let crossing = crossing.map(|from| Queue::K(from, port));
                let units = [Heading::Ahead, Heading::Back].map(|way| Queue::F(way, port));
                units.into_iter().chain(crossing).collect()
            }
            Output::ToUnit(router) => {
                (0..SIDES).map(|side| Queue::U(Port { router, side })).collect()
            }
            Output::FromUnit(router) => {
                (0..SIDES).map(|side| Queue::Q(Port { router, side })).collect()
            }
        }
    }

    /// The output that a queue sends by; none for in-queues.
    pub fn output_of(&self, queue: Queue) -> Option<Output> {
        match queue {
            Queue::ActiveOut(number) => Some(Output::Active(number)),
            Queue::PassiveOut(number) => Some(Output::Passive(number)),
            Queue::U(port) => Some(Output::ToUnit(port.router)),
            Queue::Q(port) => Some(Output::FromUnit(port.router)),
            Queue::F(_, port) | Queue::K(_, port) => Some(Output::Side(port)),
            Queue::ActiveIn(_) | Queue::PassiveIn(_) => None,
        }
    }

    /// The queue that a packet on an output's wire goes to.
    pub fn next_queue(&self, output: Output, packet: &Packet) -> Option<Queue> {
        match output {
            Output::Active(number) => self.entered(self.home(Interface::Active(number)), packet),
            Output::Passive(number) => self.entered(self.home(Interface::Passive(number)), packet),
            Output::Side(port) => match self.joint(port) {
                Joint::Nothing => None,
                Joint::Router(next) => self.entered(next, packet),
                Joint::Active(number) => Some(Queue::ActiveIn(number)),
                Joint::Passive(number) => Some(Queue::PassiveIn(number)),
            },
            Output::ToUnit(router) => {
                // "Split Q by incoming side": the side by which its pair's walk comes in.
                let hop = self.hop(packet.active.into(), packet.passive.into(), router)?;
                Some(Queue::Q(Port { router, side: hop.came_in }))
            }
            Output::FromUnit(router) => {
                let side = self.route(router, destination(packet))?;
                Some(Queue::F(heading(packet), Port { router, side }))
            }
        }
    }

    /// U for the unit's packets, K for answers.
    fn entered(&self, port: Port, packet: &Packet) -> Option<Queue> {
        if heading(packet) == Heading::Ahead {
            return Some(Queue::U(port));
        }
        let side = self.route(port.router, destination(packet))?;
        Some(Queue::K(port.side, Port { router: port.router, side }))
    }

    /// A queue's capacity.
    pub fn capacity(&self, queue: Queue) -> usize {
        let at = match queue {
            Queue::ActiveOut(_) => 0,
            Queue::ActiveIn(_) => 1,
            Queue::U(_) => 2,
            Queue::Q(_) => 3,
            Queue::F(..) => 4,
            Queue::K(..) => 5,
            Queue::PassiveIn(_) => 6,
            Queue::PassiveOut(_) => 7,
        };
        self.fields().capacities[at]
    }
}

/// The queue of a router at that number among its own.
fn router_queue(router: usize, number: usize) -> Queue {
    let Some(row) = number.checked_sub(FIRST_SENDER) else {
        let port = Port { router, side: number % SIDES };
        return if number < SIDES { Queue::U(port) } else { Queue::Q(port) };
    };
    let (side, rank) = (row / SIDE_SENDERS, row % SIDE_SENDERS);
    let port = Port { router, side };
    match rank {
        0 => Queue::F(Heading::Ahead, port),
        1 => Queue::F(Heading::Back, port),
        rank if rank < side + 2 => Queue::K(rank - 2, port),
        rank => Queue::K(rank - 1, port),
    }
}

/// "SETUP and TDOWN go to the passive, ACK and NACK to the active."
pub fn destination(packet: &Packet) -> Interface {
    match heading(packet) {
        Heading::Ahead => Interface::Passive(packet.passive.into()),
        Heading::Back => Interface::Active(packet.active.into()),
    }
}
