//! A network that is only its bytes: calls on them, and what they say by docs/STATE.md.

use std::collections::BTreeSet;

use model::generate::waiting::Sight;
use model::machine::{Call, Connection, Hub, Link, Network, Phase, Slot, Table};
use model::refusal::NOT_A_STATE;
use model::{Queue, SIDES};

use crate::calls::Calls;

/// Where flag and length stand in a queue's row, and the head's kind and hub.
const FLAG: usize = 1;
const LENGTH: usize = 3;
const KIND: usize = 4;
const HUB: usize = 8;
/// The kinds ACK and NACK.
const ACK: u8 = 2;
const NACK: u8 = 3;

/// A started network.
pub struct Net<'c> {
    calls: &'c Calls,
    /// The plan, loaded by the model.
    pub network: Network,
    plan: Vec<u8>,
    /// The state's bytes.
    pub bytes: Vec<u8>,
    /// The rows of all queues and of all outputs.
    rows: Vec<usize>,
    outputs: Vec<usize>,
    /// The accepted connections, told by the calls.
    pub accepted: BTreeSet<Connection>,
    /// Whether only Replies and Drops are tried that can be accepted.
    pub sparing: bool,
}

impl<'c> Net<'c> {
    /// Start.
    pub fn start(calls: &'c Calls, network: Network) -> Net<'c> {
        let plan = network.plan().encode();
        let mut bytes = vec![0; network.size()];
        assert_eq!((calls.start)(&plan, &mut bytes), 0, "start of {plan:02X?}");
        let rows = network.queues().iter().map(|&queue| network.queue_at(queue)).collect();
        let outputs = network.links().iter().map(|&link: &Link| network.output_at(link)).collect();
        let sparing = network.plan().actives() + network.plan().passives() > 8;
        let accepted = BTreeSet::new();
        Net { calls, network, plan, bytes, rows, outputs, accepted, sparing }
    }

    /// Makes a call; its answer. A Drop is told by the Look just before it.
    pub fn call(&mut self, call: Call) -> u32 {
        let looked = match call {
            Call::Drop { active } => self.look(active),
            _ => None,
        };
        let answer = self.calls.run(&self.plan, &mut self.bytes, call, &mut [0; 8]);
        if answer != 0 {
            return answer;
        }
        if let Call::Close { active, passive, slot } = call {
            let closed = Connection { active, passive, start: Slot(slot) };
            assert!(self.accepted.remove(&closed), "{closed:?} was not accepted");
        }
        self.accepted.extend(looked);
        0
    }

    /// The connection of the ACK that a Look shows, if it shows one.
    fn look(&mut self, active: usize) -> Option<Connection> {
        let mut out = [0; 8];
        let answer = self.calls.run(&self.plan, &mut self.bytes, Call::Look { active }, &mut out);
        let [kind, active, passive, slot, hub, ..] = out.map(usize::from);
        let start = Slot(slot).minus(Hub(hub), self.network.slots());
        (answer == 0 && kind == usize::from(ACK)).then_some(Connection { active, passive, start })
    }

    /// Remaining: N and the rounds; it is N, and 256 × S rounds for each.
    pub fn remaining(&mut self) -> usize {
        let mut out = [0; 8];
        let answer = self.calls.run(&self.plan, &mut self.bytes, Call::Remaining, &mut out);
        let number = |at: usize| u32::from_le_bytes([0, 1, 2, 3].map(|k| out[at + k])) as usize;
        let packets = self.packets();
        let expected = (0, packets, 256 * self.network.slots() * packets);
        assert_eq!((answer, number(0), number(4)), expected, "remaining on {:02X?}", self.plan);
        packets
    }

    /// The packets in queues and on wires.
    pub fn packets(&self) -> usize {
        let queued: usize = self.rows.iter().map(|row| usize::from(self.bytes[row + LENGTH])).sum();
        queued + self.outputs.iter().filter(|&&row| self.bytes[row] != 0).count()
    }

    /// Whether a queue holds as many packets as its capacity.
    pub fn is_full(&self, queue: Queue) -> bool {
        let length = self.bytes[self.network.queue_at(queue) + LENGTH];
        usize::from(length) == self.network.capacity(queue)
    }

    /// Whether a Reply or a Drop would be accepted in WRITE.
    pub fn may(&self, act: Call) -> bool {
        let row = |queue| {
            let row = &self.bytes[self.network.queue_at(queue)..];
            (row[FLAG] == 0 && row[LENGTH] > 0, row[KIND] == NACK && row[HUB] > 0)
        };
        match act {
            Call::Reply { passive, .. } => {
                row(Queue::PassiveIn(passive)).0 && !self.is_full(Queue::PassiveOut(passive))
            }
            Call::Drop { active } => row(Queue::ActiveIn(active)) == (true, false),
            _ => false,
        }
    }

    /// Whether no passive can reply and no active can drop any more in this WRITE.
    pub fn all_have_acted(&self) -> bool {
        let plan = self.network.plan();
        let replies = (0..plan.passives()).map(|passive| Call::Reply { passive, choice: 0 });
        let drops = (0..plan.actives()).map(|active| Call::Drop { active });
        !replies.chain(drops).any(|act| self.may(act))
    }

    /// Whether the table is the accepted connections' own.
    pub fn table_is_their_own(&self) -> bool {
        let (routers, slots) = (self.network.plan().routers(), self.network.slots());
        let mut table = Table::free(routers, slots);
        for &connection in &self.accepted {
            let entries = self.network.entries_of(connection).expect("a served pair");
            entries.iter().for_each(|entry| entry.put(&mut table));
        }
        let sides = (0..routers).flat_map(|router| (0..SIDES).map(move |side| (router, side)));
        let mut entries = sides.flat_map(|(r, side)| (0..slots).map(move |slot| (r, side, slot)));
        entries.all(|(router, side, slot)| {
            let byte = usize::from(self.bytes[self.network.entry_at(router, side, slot)]);
            byte.checked_sub(1) == table.entry(router, side, Slot(slot))
        })
    }

    /// The accepted connections are forgotten, in the bytes too.
    pub fn forget_connections(&mut self) {
        let marks = self.network.marks_at(0)..self.network.marks_at(self.network.plan().actives());
        self.bytes[marks].fill(0);
        self.accepted.clear();
    }
}

impl Sight for Net<'_> {
    fn phase(&self) -> Phase {
        [Phase::Read, Phase::Execute, Phase::Write][usize::from(self.bytes[0])]
    }

    fn refuses(&self, call: Call) -> bool {
        let answer = self.calls.run(&self.plan, &mut self.bytes.clone(), call, &mut [0; 8]);
        answer != 0 && answer != NOT_A_STATE
    }

    fn is_tried(&self, act: Call) -> bool {
        !self.sparing || self.may(act)
    }
}
