//! A state that a row makes out of Start's.

use model::machine::{Connection, Credit, Kind, Link, Network, Packet, Phase, Slot, State};
use model::Queue;

use super::queues::{ahead, of, side};

/// Of a queue's row: the handled mark; the credit is its first byte.
const HANDLED: usize = 2;
/// Of an output's row: the choice.
const CHOICE: usize = 6;

/// What a row has made out of Start's state.
pub struct Changed<'n> {
    network: &'n Network,
    /// The model's state.
    pub state: State,
    /// What the model's state has no room for: bytes, each with its place.
    pub written: Vec<(usize, u8)>,
}

/// One change for each part of a state.
impl<'n> Changed<'n> {
    /// Start's state.
    pub fn start(network: &'n Network) -> Self {
        Changed { network, state: network.start(), written: Vec::new() }
    }

    /// The bytes.
    pub fn bytes(&self) -> Vec<u8> {
        let mut bytes = self.network.encode(&self.state);
        for &(at, byte) in &self.written {
            bytes[at] = byte;
        }
        bytes
    }

    /// The phase.
    pub fn phase(mut self, phase: Phase) -> Self {
        self.state.phase = phase;
        self
    }

    /// The current slot.
    pub fn slot(mut self, slot: usize) -> Self {
        self.state.slot = Slot(slot);
        self
    }

    /// A queue's packets.
    pub fn queue(mut self, queue: Queue, packets: &[Packet]) -> Self {
        self.state.queues[self.network.queue_index(queue)] = packets.iter().copied().collect();
        self
    }

    /// A queue's credit.
    pub fn credit(mut self, queue: Queue, credit: usize) -> Self {
        if self.network.is_fed_by_a_wire(queue) {
            self.state.credits[self.network.queue_index(queue)] = Credit(credit);
        } else {
            self.written.push((self.network.queue_at(queue), credit as u8));
        }
        self
    }

    /// A queue's flag is up.
    pub fn flag(mut self, queue: Queue) -> Self {
        self.state.flags[self.network.queue_index(queue)] = true;
        self
    }

    /// A queue's head has been handled.
    pub fn handled(mut self, queue: Queue) -> Self {
        if let Queue::Q { router, from } = queue {
            self.state.handled[router][from] = true;
        } else {
            self.written.push((self.network.queue_at(queue) + HANDLED, 1));
        }
        self
    }

    /// A packet on an output's wire.
    pub fn wire(mut self, link: Link, packet: Packet) -> Self {
        self.state.wires[self.network.link_index(link)] = Some(packet);
        self
    }

    /// An output has picked the sender of a rank.
    pub fn choice(mut self, link: Link, rank: usize) -> Self {
        match self.network.senders(link).get(rank) {
            Some(&sender) => self.state.choices[self.network.link_index(link)] = Some(sender),
            None => self.written.push((self.network.output_at(link) + CHOICE, rank as u8 + 1)),
        }
        self
    }

    /// An entry is booked with a side.
    pub fn booked(mut self, [router, side, slot]: [usize; 3], came_in: usize) -> Self {
        self.state.table.set(router, side, Slot(slot), Some(came_in));
        self
    }

    /// A connection is accepted.
    pub fn connection(mut self, [active, passive, start]: [usize; 3]) -> Self {
        self.state.marks.insert(Connection { active, passive, start: Slot(start) });
        self
    }

    /// An active's allowance.
    pub fn allowance(mut self, active: usize, allowance: usize) -> Self {
        self.state.allowances[active] = allowance;
        self
    }

    /// The rank that an output remembers.
    pub fn last(mut self, link: Link, rank: usize) -> Self {
        self.state.last[self.network.link_index(link)] = rank;
        self
    }
}

/// Several changes that go together.
impl Changed<'_> {
    /// So many places of a queue are paid for with its credit, if a wire feeds it.
    fn paid(self, queue: Queue, places: usize) -> Self {
        if !self.network.is_fed_by_a_wire(queue) {
            return self;
        }
        let credit = self.network.capacity(queue) - places;
        self.credit(queue, credit)
    }

    /// So many packets are paid for with active 0's allowance.
    fn spent(self, packets: usize) -> Self {
        let allowance = self.network.start_allowance() - packets;
        self.allowance(0, allowance)
    }

    /// Packets in a queue, their places paid for with its credit; n of them with active 0's allowance.
    pub fn holding(self, queue: Queue, packets: &[Packet], n: usize) -> Self {
        self.paid(queue, packets.len()).spent(n).queue(queue, packets)
    }

    /// One packet that is no tear-down.
    pub fn one(self, queue: Queue, packet: Packet) -> Self {
        self.holding(queue, &[packet], 1)
    }

    /// A tear-down.
    pub fn down(self, queue: Queue, hub: usize) -> Self {
        self.holding(queue, &[of(Kind::Tdown, hub)], 0)
    }

    /// A packet on a wire, its place paid for with the credit of the queue that it goes to.
    pub fn on_wire(self, link: Link, queue: Queue, packet: Packet) -> Self {
        self.paid(queue, 1).spent(1).wire(link, packet)
    }

    /// The same for the credit of no queue.
    pub fn on_no_way(self, link: Link, packet: Packet) -> Self {
        self.spent(1).wire(link, packet)
    }

    /// A set-up in the set-up `F[2]` of router 0, and in WRITE side 2 has picked the sender of a rank.
    pub fn picking(self, rank: usize) -> Self {
        let waiting = self.one(ahead(0, 2), of(Kind::Setup, 2));
        waiting.choice(side(0, 2), rank).phase(Phase::Write)
    }

    /// A packet has left the queue, and no Read came since; with the credit that is left.
    pub fn left(self, queue: Queue, credit: usize) -> Self {
        self.credit(queue, credit).flag(queue)
    }

    /// So many entries of side 2 of router 0 are booked, from slot 0 on.
    pub fn booked_up_to(self, slots: usize) -> Self {
        (0..slots).fold(self, |changed, slot| changed.booked([0, 2, slot], 3))
    }

    /// A connection of active 0 is accepted; its entries begin with slot 1.
    pub fn accepted(self, passive: usize) -> Self {
        self.connection([0, passive, 1])
    }

    /// The first entry of its connections to passives 0 and 3.
    pub fn first_entry(self) -> Self {
        self.booked([1, 0, 1], 1)
    }

    /// A set-up of active 0 for a passive in its out-queue, the allowance spent.
    pub fn launching(self, passive: usize) -> Self {
        let set_up = Packet { passive, ..of(Kind::Setup, 0) };
        self.allowance(0, 0).queue(Queue::ActiveOut(0), &[set_up])
    }
}
