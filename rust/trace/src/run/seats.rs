//! Which packet is where: every packet keeps its number from its launch on.

use std::collections::VecDeque;

use crate::net::Net;
use crate::place::{Output, Place, Queue};
use crate::plan::Plan;

/// A packet's number in its run, from 0 in the order they were made.
#[derive(Clone, Copy, Debug, PartialEq, Eq, Hash, PartialOrd, Ord)]
pub struct Id(pub usize);

/// The numbers of the packets in each queue and on each wire.
#[derive(Clone, Debug)]
pub struct Seats {
    queues: Vec<VecDeque<Id>>,
    wires: Vec<Option<Id>>,
}

impl Seats {
    /// Of an empty network.
    pub fn empty(plan: &Plan) -> Seats {
        Seats {
            queues: vec![VecDeque::new(); plan.queue_count()],
            wires: vec![None; plan.output_count()],
        }
    }

    /// The packets in a queue, head first.
    pub fn queue(&self, plan: &Plan, queue: Queue) -> &VecDeque<Id> {
        &self.queues[plan.queue_number(queue)]
    }

    /// The packet on a wire.
    pub fn wire(&self, plan: &Plan, output: Output) -> Option<Id> {
        self.wires[plan.output_number(output)]
    }

    /// The packet at a place, in a queue the one of that number from the head.
    pub fn at(&self, plan: &Plan, place: Place, number: usize) -> Option<Id> {
        match place {
            Place::In(queue) => self.queue(plan, queue).get(number).copied(),
            Place::On(output) => self.wire(plan, output),
        }
    }

    /// The head of a queue.
    pub fn head(&self, plan: &Plan, queue: Queue) -> Id {
        *self.queue(plan, queue).front().expect("the queue has a head")
    }

    /// A packet joins a queue.
    pub fn join(&mut self, plan: &Plan, queue: Queue, id: Id) {
        self.queues[plan.queue_number(queue)].push_back(id);
    }

    /// The head of a queue leaves it.
    pub fn leave(&mut self, plan: &Plan, queue: Queue) -> Id {
        let queue = &mut self.queues[plan.queue_number(queue)];
        queue.pop_front().expect("the queue has a head")
    }

    /// A packet enters a wire.
    pub fn enter(&mut self, plan: &Plan, output: Output, id: Id) {
        self.wires[plan.output_number(output)] = Some(id);
    }

    /// The packet on a wire leaves it.
    pub fn exit(&mut self, plan: &Plan, output: Output) -> Option<Id> {
        self.wires[plan.output_number(output)].take()
    }

    /// Whether exactly the places of a state's packets are taken.
    pub fn fit(&self, net: &Net) -> bool {
        let mut queues = self.queues.iter().zip(&net.queues);
        let mut wires = self.wires.iter().zip(&net.outputs);
        queues.all(|(ids, row)| ids.len() == row.packets.len())
            && wires.all(|(id, out)| id.is_some() == out.wire.is_some())
    }
}
