//! A state read from its bytes, by docs/STATE.md.

use pandabrass::{Entry, Kind, Packet};

use crate::place::{Output, Place, Port, Queue, SIDES};
use crate::plan::Plan;
use crate::run::Connection;

/// "Phase and slot": two bytes, then the queues' rows.
const CLOCK: usize = 2;
/// "A row for each queue": credit, flag, mark, length and seven places of five bytes.
const QUEUE_ROW: usize = 39;
const PACKET: usize = 5;
/// "A row for each output": a wire of six bytes and a choice.
const OUTPUT_ROW: usize = 7;
/// Room for 32 slots on each side, two bytes for each.
const SIDE_ROW: usize = 64;
const ENTRY: usize = 2;
/// The marks of an active: room for 16 passives, four bytes for each, a bit for each of 32 slots.
const MARK_ROW: usize = 64;
const MARKS: usize = 4;

/// "The phase is READ, EXECUTE, WRITE in turn."
#[derive(Clone, Copy, Debug, PartialEq, Eq)]
pub enum Phase {
    /// READ.
    Read,
    /// EXECUTE.
    Execute,
    /// WRITE.
    Write,
}

/// A queue with its packets, head first.
#[derive(Clone, Debug, PartialEq, Eq)]
pub struct Row {
    /// Its credit; its capacity where no wire feeds it.
    pub credit: usize,
    /// Its flag.
    pub flag: bool,
    /// Whether its head is handled; only in Q.
    pub handled: bool,
    /// Its packets.
    pub packets: Vec<Packet>,
}

/// An output's wire and choice, and whom it served last.
#[derive(Clone, Debug, PartialEq, Eq)]
pub struct Out {
    /// The packet on the wire.
    pub wire: Option<Packet>,
    /// The rank of the sender it picked.
    pub choice: Option<usize>,
    /// The rank of the sender it served last; 0 where it has one sender.
    pub last: usize,
}

/// A state.
#[derive(Clone, Debug, PartialEq, Eq)]
pub struct Net {
    /// The phase.
    pub phase: Phase,
    /// The current slot.
    pub slot: usize,
    /// By queue number.
    pub queues: Vec<Row>,
    /// By output number.
    pub outputs: Vec<Out>,
    /// By active.
    pub allowances: Vec<usize>,
    /// The accepted connections that the state keeps, by active, passive and start slot.
    pub accepted: Vec<Connection>,
    slots: usize,
    table: Vec<Entry>,
}

impl Phase {
    /// Its name in document 01.
    pub fn name(self) -> &'static str {
        match self {
            Phase::Read => "READ",
            Phase::Execute => "EXECUTE",
            Phase::Write => "WRITE",
        }
    }
}

impl Net {
    /// Reads a state's bytes; none where they have not the plan's form.
    pub fn decode(plan: &Plan, bytes: &[u8]) -> Option<Net> {
        let (queues, outputs) = (plan.queue_count(), plan.output_count());
        let (clock, rest) = bytes.split_at_checked(CLOCK)?;
        let (rows, rest) = rest.split_at_checked(QUEUE_ROW * queues)?;
        let (outs, rest) = rest.split_at_checked(OUTPUT_ROW * outputs)?;
        let (allowances, rest) = rest.split_at_checked(plan.actives())?;
        let (tables, rest) = rest.split_at_checked(SIDE_ROW * SIDES * plan.routers())?;
        let (marks, rest) = rest.split_at_checked(MARK_ROW * plan.actives())?;
        let (turns, _) = rest.split_at_checked(outputs)?;
        let phase = [Phase::Read, Phase::Execute, Phase::Write].get(usize::from(clock[0]))?;
        Some(Net {
            phase: *phase,
            slot: clock[1].into(),
            queues: rows.chunks_exact(QUEUE_ROW).map(row).collect::<Option<_>>()?,
            outputs: outs.chunks_exact(OUTPUT_ROW).zip(turns).map(out).collect::<Option<_>>()?,
            allowances: allowances.iter().map(|&byte| byte.into()).collect(),
            accepted: accepted(marks, plan),
            slots: plan.slots(),
            table: table(tables, plan.slots())?,
        })
    }

    /// An entry of the slot table.
    pub fn entry(&self, port: Port, slot: usize) -> Entry {
        self.table[(SIDES * port.router + port.side) * self.slots + slot]
    }

    /// All entries, router by router, side by side, slot by slot.
    pub fn entries(&self) -> &[Entry] {
        &self.table
    }

    /// How many entries of a side are free.
    pub fn free_entries(&self, port: Port) -> usize {
        (0..self.slots).filter(|&slot| self.entry(port, slot) == Entry::Free).count()
    }

    /// A queue's row.
    pub fn row(&self, plan: &Plan, queue: Queue) -> &Row {
        &self.queues[plan.queue_number(queue)]
    }

    /// An output's wire and choice.
    pub fn out(&self, plan: &Plan, output: Output) -> &Out {
        &self.outputs[plan.output_number(output)]
    }

    /// The sender that an output served last, where it has several.
    pub fn last_served(&self, plan: &Plan, output: Output) -> Option<Queue> {
        let senders = plan.senders(output);
        let last = senders.get(self.out(plan, output).last).copied();
        last.filter(|_| senders.len() > 1)
    }

    /// The senders of an output that have a packet, in the order in which it looks at them: from the
    /// one behind the last served on.
    pub fn in_turn(&self, plan: &Plan, output: Output) -> Vec<Queue> {
        let mut senders = plan.senders(output);
        let first = (self.out(plan, output).last + 1) % senders.len();
        senders.rotate_left(first);
        senders.retain(|&queue| !self.row(plan, queue).packets.is_empty());
        senders
    }

    /// Every packet with its place, and in a queue its number from the head, queues first.
    pub fn packets<'n>(
        &'n self,
        plan: &'n Plan,
    ) -> impl Iterator<Item = (Place, usize, &'n Packet)> {
        let queued = plan.queues().zip(&self.queues).flat_map(|(queue, row)| {
            let numbered = row.packets.iter().enumerate();
            numbered.map(move |(at, packet)| (Place::In(queue), at, packet))
        });
        let wired = plan.outputs().zip(&self.outputs).filter_map(|(output, out)| {
            out.wire.as_ref().map(|packet| (Place::On(output), 0, packet))
        });
        queued.chain(wired)
    }

    /// Whether every queue and wire is empty.
    pub fn is_empty(&self) -> bool {
        self.queues.iter().all(|row| row.packets.is_empty())
            && self.outputs.iter().all(|out| out.wire.is_none())
    }
}

fn row(bytes: &[u8]) -> Option<Row> {
    let places = bytes[4..].chunks_exact(PACKET).take(bytes[3].into());
    Some(Row {
        credit: bytes[0].into(),
        flag: bytes[1] == 1,
        handled: bytes[2] == 1,
        packets: places.map(packet).collect::<Option<_>>()?,
    })
}

fn out((bytes, &last): (&[u8], &u8)) -> Option<Out> {
    let wire = if bytes[0] == 1 { Some(packet(&bytes[1..1 + PACKET])?) } else { None };
    Some(Out { wire, choice: usize::from(bytes[6]).checked_sub(1), last: last.into() })
}

/// "Five bytes, in a queue's place or on a wire."
pub fn packet(bytes: &[u8]) -> Option<Packet> {
    let &[kind, active, passive, slot, hub] = bytes else { return None };
    let kind = [Kind::Setup, Kind::Tdown, Kind::Ack, Kind::Nack].get(usize::from(kind))?;
    Some(Packet { kind: *kind, active, passive, slot, hub })
}

/// "0 free, else 1 + the side."
fn table(bytes: &[u8], slots: usize) -> Option<Vec<Entry>> {
    let sides = bytes.chunks_exact(SIDE_ROW);
    let entries = sides.flat_map(|side| side.chunks_exact(ENTRY).take(slots));
    let entry = |bytes: &[u8]| match bytes[0] {
        0 => Some(Entry::Free),
        side @ 1..=4 => Some(Entry::Booked(side - 1)),
        _ => None,
    };
    entries.map(entry).collect()
}

/// "The mark of (a, p, t) is bit t%8 of byte 64a + 4p + t/8."
fn accepted(bytes: &[u8], plan: &Plan) -> Vec<Connection> {
    let mut accepted = Vec::new();
    for (active, row) in bytes.chunks_exact(MARK_ROW).enumerate() {
        for (passive, marks) in row.chunks_exact(MARKS).enumerate().take(plan.passives()) {
            let marked = |start: &usize| marks[start / 8] >> (start % 8) & 1 == 1;
            let starts = (0..plan.slots()).filter(marked);
            accepted.extend(starts.map(|start| Connection { active, passive, start }));
        }
    }
    accepted
}
