//! A network that is run in whole rounds, for the runs of documents 01 and 02.

// Each file of tests uses a part of it.
#![allow(dead_code)]

use model::machine::{
    Answer, Call, Connection, Hub, Kind, Link, Network, Packet, Rules, Slot, State,
};
use model::Queue;

pub mod lists;
pub mod plans;
pub mod queues;
pub mod watch;

/// A network that is run in whole rounds; the round's number is told by the rounds run so far.
pub struct Run {
    pub network: Network,
    pub state: State,
    pub round: usize,
}

impl Run {
    pub fn new(bytes: &[u8]) -> Run {
        Run::with_rules(bytes, Rules::default())
    }

    /// By other rules than the documents'.
    pub fn with_rules(bytes: &[u8], rules: Rules) -> Run {
        let network = Network::load(bytes).expect("loads").with_rules(rules);
        let state = network.start();
        Run { network, state, round: 0 }
    }

    pub fn launch(&mut self, active: usize, passive: usize, slot: usize) -> Result<(), u32> {
        self.network.launch(&mut self.state, active, passive, slot)
    }

    pub fn close(&mut self, active: usize, passive: usize, slot: usize) -> Result<(), u32> {
        self.network.close(&mut self.state, active, passive, slot)
    }

    /// The accepted connections, each as active, passive and start slot.
    pub fn accepted(&self) -> Vec<(usize, usize, usize)> {
        let numbers =
            |&Connection { active, passive, start }: &Connection| (active, passive, start.0);
        self.state.marks.iter().map(numbers).collect()
    }

    /// Launches and runs until the ACK is dropped and its round ends; what waits at the passive is
    /// accepted.
    pub fn open(&mut self, active: usize, passive: usize, slot: usize) {
        assert_eq!(self.launch(active, passive, slot), Ok(()));
        loop {
            self.run_to_write();
            let _ = self.reply(passive, 1);
            let answer = self.look_and_drop(active);
            self.end();
            if let Ok(packet) = answer {
                assert_eq!(packet.kind, Kind::Ack);
                return;
            }
        }
    }

    /// Whole rounds until no packet is left.
    pub fn run_empty(&mut self) {
        while !self.no_packets() {
            self.up_to(self.round + 1);
        }
    }

    /// Read and Execute: the round's WRITE comes next.
    pub fn run_to_write(&mut self) {
        assert_eq!(self.network.read(&mut self.state), Ok(()));
        assert_eq!(self.network.execute(&mut self.state), Ok(()));
    }

    /// Write: the round ends.
    pub fn end(&mut self) {
        assert_eq!(self.network.write(&mut self.state), Ok(()));
        self.round += 1;
        assert!(self.round < 100, "what was waited for does not come");
    }

    /// Whole rounds up to the start of that one.
    pub fn up_to(&mut self, round: usize) {
        while self.round < round {
            self.run_to_write();
            self.end();
        }
    }

    pub fn reply(&mut self, passive: usize, choice: usize) -> Result<(), u32> {
        self.network.reply(&mut self.state, passive, choice)
    }

    /// As a call of a list, so that a student's Look may do more.
    pub fn look(&mut self, active: usize) -> Result<Packet, u32> {
        match self.network.call(&mut self.state, Call::Look { active })? {
            Answer::Packet(head) => Ok(head),
            other => panic!("Look gave {other:?}"),
        }
    }

    pub fn drop(&mut self, active: usize) -> Result<(), u32> {
        self.network.drop(&mut self.state, active)
    }

    /// Look, and Drop: the packet that was dropped.
    pub fn look_and_drop(&mut self, active: usize) -> Result<Packet, u32> {
        let head = self.look(active);
        self.drop(active)?;
        head
    }

    pub fn entry(&self, router: usize, side: usize, slot: usize) -> u32 {
        self.network.entry(&self.state, router, side, slot).expect("in range")
    }

    pub fn queue(&self, queue: Queue) -> Vec<Packet> {
        self.network.queue(&self.state, queue).iter().copied().collect()
    }

    pub fn len(&self, queue: Queue) -> usize {
        self.queue(queue).len()
    }

    pub fn credit(&self, queue: Queue) -> usize {
        self.state.credits[self.network.queue_index(queue)].0
    }

    /// A queue's flag: 1 up, 0 down.
    pub fn flag(&self, queue: Queue) -> usize {
        usize::from(self.state.flags[self.network.queue_index(queue)])
    }

    /// The last sender that an output served, by its rank.
    pub fn last(&self, link: Link) -> usize {
        self.state.last[self.network.link_index(link)]
    }

    /// The entries of a side, slot by slot.
    pub fn side(&self, router: usize, side: usize) -> Vec<u32> {
        (0..self.network.slots()).map(|slot| self.entry(router, side, slot)).collect()
    }

    /// Whole rounds up to that one, and its Read.
    pub fn read_of(&mut self, round: usize) {
        self.up_to(round);
        assert_eq!(self.network.read(&mut self.state), Ok(()));
    }

    /// After a Read: the round's WRITE comes next.
    pub fn execute(&mut self) {
        assert_eq!(self.network.execute(&mut self.state), Ok(()));
    }

    pub fn no_packets(&self) -> bool {
        self.network.packets(&self.state).next().is_none()
    }
}

pub fn packet(kind: Kind, slot: usize, hub: usize) -> Packet {
    packet_of((0, 0), kind, slot, hub)
}

pub fn packet_of((active, passive): (usize, usize), kind: Kind, slot: usize, hub: usize) -> Packet {
    Packet { kind, active, passive, slot: Slot(slot), hub: Hub(hub) }
}

pub fn set_up(active: usize, passive: usize, slot: usize, hub: usize) -> Packet {
    packet_of((active, passive), Kind::Setup, slot, hub)
}

pub fn tear_down(active: usize, passive: usize, slot: usize, hub: usize) -> Packet {
    packet_of((active, passive), Kind::Tdown, slot, hub)
}

pub fn ack(active: usize, passive: usize, slot: usize, hub: usize) -> Packet {
    packet_of((active, passive), Kind::Ack, slot, hub)
}

pub fn nack(active: usize, passive: usize, slot: usize, hub: usize) -> Packet {
    packet_of((active, passive), Kind::Nack, slot, hub)
}
