//! The places of a plan, numbered: all queues by docs/STATE.md's numbers, then all wires. The page
//! draws a place where its spot says, so places that are added later need no new page.

use trace::plan::Interface;
use trace::{Heading, Joint, Output, Place, Plan, Port, Queue};

/// One place as the page is told of it.
#[derive(Clone, Debug)]
pub struct Told {
    /// Where it is drawn.
    pub spot: &'static str,
    /// The numbers that go with the spot.
    pub numbers: Vec<usize>,
    /// Its name in words.
    pub name: String,
    /// What its tray says.
    pub label: String,
    /// Its capacity; 0 for a wire.
    pub capacity: usize,
    /// Whether it has credit and a flag: a wire leads into it.
    pub credit: bool,
}

/// An output that several senders share.
#[derive(Clone, Debug)]
pub struct Shared {
    /// The output.
    pub output: Output,
    /// Its name in words.
    pub name: String,
    /// The numbers of its senders, in order.
    pub senders: Vec<usize>,
}

/// All places of a plan, and the outputs that several of them share.
#[derive(Clone, Debug)]
pub struct Places {
    queues: usize,
    wires: Vec<Option<usize>>,
    told: Vec<Told>,
    shared: Vec<Shared>,
}

impl Places {
    /// The places of a plan.
    pub fn of(plan: &Plan) -> Places {
        let mut told: Vec<Told> = plan.queues().map(|queue| told_queue(plan, queue)).collect();
        let queues = told.len();
        let mut wires = Vec::new();
        for output in plan.outputs() {
            let wire = told_wire(plan, output);
            wires.push(wire.as_ref().map(|_| told.len()));
            told.extend(wire);
        }
        Places { queues, wires, told, shared: shared(plan) }
    }

    /// The outputs that several senders share, numbered as they stand here.
    pub fn shared(&self) -> &[Shared] {
        &self.shared
    }

    /// The number of a place.
    pub fn number(&self, plan: &Plan, place: Place) -> usize {
        match place {
            Place::In(queue) => plan.queue_number(queue),
            Place::On(output) => self.wires[plan.output_number(output)].expect("the wire is there"),
        }
    }

    /// How many queues there are; they have the first numbers.
    pub fn queues(&self) -> usize {
        self.queues
    }

    /// What the page is told of each place.
    pub fn told(&self) -> &[Told] {
        &self.told
    }
}

/// The sides that are joined, and the ways to the units and from them.
fn shared(plan: &Plan) -> Vec<Shared> {
    let leads = |output: &Output| match *output {
        Output::Side(port) => plan.joint(port) != Joint::Nothing,
        output => plan.senders(output).len() > 1,
    };
    let told = |output| {
        let senders = plan.senders(output).into_iter().map(|queue| plan.queue_number(queue));
        Shared { output, name: plan.names().output_words(output), senders: senders.collect() }
    };
    plan.outputs().filter(leads).map(told).collect()
}

/// A queue.
fn told_queue(plan: &Plan, queue: Queue) -> Told {
    let at = |port: Port| vec![port.router, port.side];
    let (spot, numbers, label) = match queue {
        Queue::ActiveOut(active) => ("active-out", vec![active], String::new()),
        Queue::ActiveIn(active) => ("active-in", vec![active], String::new()),
        Queue::PassiveOut(passive) => ("passive-out", vec![passive], String::new()),
        Queue::PassiveIn(passive) => ("passive-in", vec![passive], String::new()),
        Queue::U(port) => ("in", at(port), format!("U{}", port.side)),
        Queue::Q(port) => ("unit", at(port), format!("Q{}", port.side)),
        Queue::F(Heading::Ahead, port) => ("out", at(port), format!("F{}+", port.side)),
        // The answers that a unit sends are NACKs.
        Queue::F(Heading::Back, port) => ("out-back", at(port), format!("F{}✕", port.side)),
        Queue::K(_, port) => ("cross", at(port), format!("K·{}", port.side)),
    };
    let name = plan.names().queue_words(queue);
    let (capacity, credit) = (plan.capacity(queue), has_credit(plan, queue));
    Told { spot, numbers, name, label, capacity, credit }
}

/// Whether a wire leads into a queue.
fn has_credit(plan: &Plan, queue: Queue) -> bool {
    match queue {
        Queue::ActiveOut(_) | Queue::PassiveOut(_) => false,
        Queue::U(port) => plan.joint(port) != Joint::Nothing,
        Queue::K(side, Port { router, .. }) => plan.joint(Port { router, side }) != Joint::Nothing,
        _ => true,
    }
}

/// The wire of an output; none at a side that is not joined.
fn told_wire(plan: &Plan, output: Output) -> Option<Told> {
    let enters = |port: Port| ("to-side", vec![port.router, port.side]);
    let (spot, numbers) = match output {
        Output::Active(number) => enters(plan.home(Interface::Active(number))),
        Output::Passive(number) => enters(plan.home(Interface::Passive(number))),
        Output::ToUnit(router) => ("to-unit", vec![router]),
        Output::FromUnit(router) => ("from-unit", vec![router]),
        Output::Side(port) => match plan.joint(port) {
            Joint::Nothing => return None,
            Joint::Router(next) => enters(next),
            Joint::Active(number) => ("to-active", vec![number]),
            Joint::Passive(number) => ("to-passive", vec![number]),
        },
    };
    let words = plan.names().place_words(Place::On(output));
    let name = words.trim_start_matches("on the ").to_string();
    Some(Told { spot, numbers, name, label: String::new(), capacity: 0, credit: false })
}
