//! Names of routers, actives, passives, and by them of sides, queues and wires.

use crate::place::{Heading, Output, Place, Port, Queue, SIDES};

/// The names of a plan's parts, by number.
#[derive(Clone, Debug, Default, PartialEq, Eq)]
pub struct Names {
    /// Of the routers.
    pub routers: Vec<String>,
    /// Of the actives.
    pub actives: Vec<String>,
    /// Of the passives.
    pub passives: Vec<String>,
}

impl Names {
    /// r0, r1, ..; a0, a1, ..; p0, p1, ..
    pub fn numbered(routers: usize, actives: usize, passives: usize) -> Names {
        let names = |letter: char, count| (0..count).map(|n| format!("{letter}{n}")).collect();
        Names {
            routers: names('r', routers),
            actives: names('a', actives),
            passives: names('p', passives),
        }
    }

    /// A router's name; its number where it has none.
    pub fn router(&self, number: usize) -> String {
        name(&self.routers, number)
    }

    /// An active's name; its number where it has none.
    pub fn active(&self, number: usize) -> String {
        name(&self.actives, number)
    }

    /// A passive's name; its number where it has none.
    pub fn passive(&self, number: usize) -> String {
        name(&self.passives, number)
    }

    /// A side, as in `r0.1`.
    pub fn port(&self, port: Port) -> String {
        format!("{}.{}", self.router(port.router), port.side)
    }

    /// A queue, as in `r0.U1`, `r0.Q1`, `r0.F1set`, `r0.F1ans`, `r0.K01`, `camera.out`, `drive.in`.
    pub fn queue(&self, queue: Queue) -> String {
        match queue {
            Queue::ActiveOut(number) => format!("{}.out", self.active(number)),
            Queue::PassiveOut(number) => format!("{}.out", self.passive(number)),
            Queue::U(port) => format!("{}.U{}", self.router(port.router), port.side),
            Queue::Q(port) => format!("{}.Q{}", self.router(port.router), port.side),
            Queue::F(Heading::Ahead, port) => {
                format!("{}.F{}set", self.router(port.router), port.side)
            }
            Queue::F(Heading::Back, port) => {
                format!("{}.F{}ans", self.router(port.router), port.side)
            }
            Queue::K(from, port) => format!("{}.K{from}{}", self.router(port.router), port.side),
            Queue::ActiveIn(number) => format!("{}.in", self.active(number)),
            Queue::PassiveIn(number) => format!("{}.in", self.passive(number)),
        }
    }

    /// A wire, as in `r0.1>`, `r0>unit`, `unit>r0`, `camera>`.
    pub fn wire(&self, output: Output) -> String {
        match output {
            Output::Active(number) => format!("{}>", self.active(number)),
            Output::Passive(number) => format!("{}>", self.passive(number)),
            Output::Side(port) => format!("{}>", self.port(port)),
            Output::ToUnit(router) => format!("{}>unit", self.router(router)),
            Output::FromUnit(router) => format!("unit>{}", self.router(router)),
        }
    }

    /// A place in short.
    pub fn place(&self, place: Place) -> String {
        match place {
            Place::In(queue) => self.queue(queue),
            Place::On(output) => self.wire(output),
        }
    }

    /// A queue in words: "U[0] of r0", "Q[0] of r0's unit", "answer F[1] of r0".
    pub fn queue_words(&self, queue: Queue) -> String {
        match queue {
            Queue::ActiveOut(number) => format!("{}'s out-queue", self.active(number)),
            Queue::PassiveOut(number) => format!("{}'s out-queue", self.passive(number)),
            Queue::U(port) => format!("U[{}] of {}", port.side, self.router(port.router)),
            Queue::Q(port) => format!("Q[{}] of {}'s unit", port.side, self.router(port.router)),
            Queue::F(Heading::Ahead, port) => {
                format!("set-up F[{}] of {}", port.side, self.router(port.router))
            }
            Queue::F(Heading::Back, port) => {
                format!("answer F[{}] of {}", port.side, self.router(port.router))
            }
            Queue::K(from, port) => {
                format!("K[{from},{}] of {}", port.side, self.router(port.router))
            }
            Queue::ActiveIn(number) => format!("{}'s in-queue", self.active(number)),
            Queue::PassiveIn(number) => format!("{}'s in-queue", self.passive(number)),
        }
    }

    /// A place in words: "in U[1] of r0", "on the wire from r1's unit".
    pub fn place_words(&self, place: Place) -> String {
        match place {
            Place::In(queue) => format!("in {}", self.queue_words(queue)),
            Place::On(Output::Active(number)) => {
                format!("on the wire from {}", self.active(number))
            }
            Place::On(Output::Passive(number)) => {
                format!("on the wire from {}", self.passive(number))
            }
            Place::On(Output::Side(port)) => format!("on the wire out of {}", self.port(port)),
            Place::On(Output::ToUnit(router)) => {
                format!("on the wire to {}'s unit", self.router(router))
            }
            Place::On(Output::FromUnit(router)) => {
                format!("on the wire from {}'s unit", self.router(router))
            }
        }
    }

    /// An output in words: "r0.1", "the way to r0's unit", "camera".
    pub fn output_words(&self, output: Output) -> String {
        match output {
            Output::Active(number) => self.active(number),
            Output::Passive(number) => self.passive(number),
            Output::Side(port) => self.port(port),
            Output::ToUnit(router) => format!("the way to {}'s unit", self.router(router)),
            Output::FromUnit(router) => format!("the way from {}'s unit", self.router(router)),
        }
    }

    /// The queue of a name such as `r0.F1set` or `drive.in`.
    pub fn find_queue(&self, text: &str) -> Option<Queue> {
        let (owner, queue) = text.rsplit_once('.')?;
        let find = |names: &[String]| names.iter().position(|name| name == owner);
        match queue {
            "out" => find(&self.actives)
                .map(Queue::ActiveOut)
                .or_else(|| find(&self.passives).map(Queue::PassiveOut)),
            "in" => find(&self.actives)
                .map(Queue::ActiveIn)
                .or_else(|| find(&self.passives).map(Queue::PassiveIn)),
            _ => router_queue(find(&self.routers)?, queue),
        }
    }
}

/// The queue of a router: `U1`, `Q1`, `F1set`, `F1ans`, `K01`.
fn router_queue(router: usize, text: &str) -> Option<Queue> {
    let mut signs = text.chars();
    let letter = signs.next()?;
    let side = |sign: char| sign.to_digit(10).map(|n| n as usize).filter(|&n| n < SIDES);
    let first = Port { router, side: side(signs.next()?)? };
    match (letter, signs.as_str()) {
        ('U', "") => Some(Queue::U(first)),
        ('Q', "") => Some(Queue::Q(first)),
        ('F', "set") => Some(Queue::F(Heading::Ahead, first)),
        ('F', "ans") => Some(Queue::F(Heading::Back, first)),
        ('K', _) => {
            let to =
                side(signs.next()?).filter(|&to| to != first.side && signs.next().is_none())?;
            Some(Queue::K(first.side, Port { router, side: to }))
        }
        _ => None,
    }
}

fn name(names: &[String], number: usize) -> String {
    names.get(number).cloned().unwrap_or_else(|| number.to_string())
}
