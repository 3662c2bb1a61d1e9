//! The state's bytes, by docs/STATE.md: what a state is written as, and read from.

use std::collections::VecDeque;

use super::connection::Connection;
use super::network::{Link, Network};
use super::packet::{Hub, Kind, Packet, Slot};
use super::state::{Credit, Phase, State, Table};
use crate::feeding::{Class, Queue};
use crate::fields::SIDES;
use crate::plan::Port;

/// "Phase and slot": two bytes, then the queues' rows.
const CLOCK: usize = 2;
/// "A row for each queue": credit, flag, mark, length and seven places.
const QUEUE_ROW: usize = 39;
const PLACES: usize = 7;
/// "A packet: five bytes."
const PACKET: usize = 5;
/// "A row for each output": a wire of six bytes and a choice.
const OUTPUT_ROW: usize = 7;
/// "There is room for 32 slots on each side, whatever S is", two bytes for each.
const SIDE_ROW: usize = 64;
const ENTRY: usize = 2;
/// "64 bytes for each of the A actives": room for 16 passives, a bit for each of 32 start slots.
const MARK_ROW: usize = 64;
const MARK_PASSIVES: usize = 16;
const MARK_SLOTS: usize = 32;
/// Queues and outputs of a router.
const ROUTER_QUEUES: usize = 28;
const ROUTER_OUTPUTS: usize = 6;

/// The kinds by their bytes.
const KINDS: [Kind; 4] = [Kind::Setup, Kind::Tdown, Kind::Ack, Kind::Nack];
/// The phases by their bytes.
const PHASES: [Phase; 3] = [Phase::Read, Phase::Execute, Phase::Write];

impl Network {
    /// The first byte of a queue's row.
    pub fn queue_at(&self, queue: Queue) -> usize {
        CLOCK + QUEUE_ROW * self.queue_number(queue)
    }

    /// "Queues are numbered so."
    fn queue_number(&self, queue: Queue) -> usize {
        let (actives, passives) = (self.plan().actives(), self.plan().passives());
        let of_router = |router| actives + passives + ROUTER_QUEUES * router;
        let ends = of_router(self.plan().routers());
        match queue {
            Queue::ActiveOut(number) => number,
            Queue::PassiveOut(number) => actives + number,
            Queue::U { router, from } => of_router(router) + from,
            Queue::Q { router, from } => of_router(router) + 4 + from,
            Queue::F { router, class: Class::SetUps, to } => of_router(router) + 8 + 5 * to,
            Queue::F { router, class: Class::Answers, to } => of_router(router) + 8 + 5 * to + 1,
            Queue::K { router, from, to } => {
                of_router(router) + 8 + 5 * to + from + if from < to { 2 } else { 1 }
            }
            Queue::ActiveIn(number) => ends + number,
            Queue::PassiveIn(number) => ends + actives + number,
        }
    }

    /// The first byte of an output's row.
    pub fn output_at(&self, link: Link) -> usize {
        let (actives, passives) = (self.plan().actives(), self.plan().passives());
        let queues = 2 * actives + 2 * passives + ROUTER_QUEUES * self.plan().routers();
        CLOCK + QUEUE_ROW * queues + OUTPUT_ROW * self.output_number(link)
    }

    /// Outputs are numbered so.
    fn output_number(&self, link: Link) -> usize {
        let (actives, passives) = (self.plan().actives(), self.plan().passives());
        let of_router = |router| actives + passives + ROUTER_OUTPUTS * router;
        match link {
            Link::Active(number) => number,
            Link::Passive(number) => actives + number,
            Link::Side(Port { router, side }) => of_router(router) + side,
            Link::Unit(router) => of_router(router) + 4,
            Link::Back(router) => of_router(router) + 5,
        }
    }

    /// The byte of an active's allowance; of A, the first byte after the allowances.
    pub fn allowance_at(&self, active: usize) -> usize {
        let (actives, passives) = (self.plan().actives(), self.plan().passives());
        2 + 85 * actives + 85 * passives + 1134 * self.plan().routers() + active
    }

    /// The first byte of an entry.
    pub fn entry_at(&self, router: usize, side: usize, slot: usize) -> usize {
        let tables = self.allowance_at(self.plan().actives());
        tables + SIDE_ROW * (SIDES * router + side) + ENTRY * slot
    }

    /// The byte that holds a connection's mark, and the value of its bit there.
    pub fn mark_at(&self, connection: Connection) -> (usize, u8) {
        let Connection { active, passive, start: Slot(start) } = connection;
        (self.marks_at(active) + 4 * passive + start / 8, 1 << (start % 8))
    }

    /// The first byte of an active's marks; of A, the first byte after the marks.
    pub fn marks_at(&self, active: usize) -> usize {
        self.entry_at(self.plan().routers(), 0, 0) + MARK_ROW * active
    }

    /// The byte that holds the rank of the sender that an output served last.
    pub fn last_at(&self, link: Link) -> usize {
        self.marks_at(self.plan().actives()) + self.output_number(link)
    }

    /// How many bytes a state has: one for each output is the last part.
    pub fn size(&self) -> usize {
        self.marks_at(self.plan().actives()) + self.links().len()
    }

    /// Whether the layout has a bit for this mark; also where the plan has no such passive or slot.
    pub fn has_mark_bit(&self, connection: &Connection) -> bool {
        let Connection { active, passive, start: Slot(start) } = *connection;
        active < self.plan().actives() && passive < MARK_PASSIVES && start < MARK_SLOTS
    }

    /// The bytes of a state that has the plan's form.
    pub fn encode(&self, state: &State) -> Vec<u8> {
        let mut bytes = vec![0; self.size()];
        bytes[0] = state.phase as u8;
        bytes[1] = state.slot.0 as u8;
        for &queue in self.queues() {
            let at = self.queue_at(queue);
            self.encode_queue(state, queue, &mut bytes[at..at + QUEUE_ROW]);
        }
        for &link in self.links() {
            let at = self.output_at(link);
            self.encode_output(state, link, &mut bytes[at..at + OUTPUT_ROW]);
            bytes[self.last_at(link)] = state.last[self.link_index(link)] as u8;
        }
        for (active, &allowance) in state.allowances.iter().enumerate() {
            bytes[self.allowance_at(active)] = allowance as u8;
        }
        for (router, side, slot) in self.entries() {
            let entry = state.table.entry(router, side, Slot(slot));
            bytes[self.entry_at(router, side, slot)] = entry.map_or(0, |side| side as u8 + 1);
        }
        for &connection in &state.marks {
            let (at, bit) = self.mark_at(connection);
            bytes[at] |= bit;
        }
        bytes
    }

    /// "In an out-queue, and in U and K of a side that is not joined: c."
    fn encode_queue(&self, state: &State, queue: Queue, row: &mut [u8]) {
        let at = self.queue_index(queue);
        let fed = self.is_fed_by_a_wire(queue);
        let credit = if fed { state.credits[at].0 } else { self.capacity(queue) };
        let packets = self.queue(state, queue);
        row[0] = credit as u8;
        row[1] = u8::from(state.flags[at]);
        row[2] = u8::from(state.is_handled(queue));
        row[3] = packets.len() as u8;
        for (place, packet) in row[4..].chunks_exact_mut(PACKET).zip(packets) {
            place.copy_from_slice(&packet_bytes(packet));
        }
    }

    /// "0 nobody; in WRITE also 1 + the rank of a candidate among the output's senders."
    fn encode_output(&self, state: &State, link: Link, row: &mut [u8]) {
        let at = self.link_index(link);
        if let Some(packet) = &state.wires[at] {
            row[0] = 1;
            row[1..1 + PACKET].copy_from_slice(&packet_bytes(packet));
        }
        if let Some(choice) = state.choices[at] {
            let rank = self.rank(link, choice);
            row[6] = rank.map_or(0, |rank| rank as u8 + 1);
        }
    }

    /// Every router, side and slot below S.
    fn entries(&self) -> impl Iterator<Item = (usize, usize, usize)> + '_ {
        let sides =
            (0..self.plan().routers()).flat_map(|router| (0..SIDES).map(move |s| (router, s)));
        sides.flat_map(|(router, side)| (0..self.slots()).map(move |slot| (router, side, slot)))
    }

    /// Every connection that the layout has a bit for.
    fn mark_bits(&self) -> impl Iterator<Item = Connection> + '_ {
        let pairs = (0..self.plan().actives())
            .flat_map(|active| (0..MARK_PASSIVES).map(move |passive| (active, passive)));
        pairs.flat_map(|(active, passive)| {
            let starts = (0..MARK_SLOTS).map(Slot);
            starts.map(move |start| Connection { active, passive, start })
        })
    }

    fn is_marked(&self, bytes: &[u8], connection: Connection) -> bool {
        let (at, bit) = self.mark_at(connection);
        bytes[at] & bit != 0
    }

    /// What has these bytes, if anything of the plan's form has; more bytes may follow. It is a
    /// state if [`Network::is_state`] says so.
    pub fn decode(&self, bytes: &[u8]) -> Option<State> {
        let bytes = bytes.get(..self.size())?;
        let mut state = self.start();
        state.phase = *PHASES.get(usize::from(bytes[0]))?;
        state.slot = Slot(bytes[1].into());
        for &queue in self.queues() {
            let at = self.queue_at(queue);
            self.decode_queue(&mut state, queue, &bytes[at..at + QUEUE_ROW])?;
        }
        for &link in self.links() {
            let at = self.output_at(link);
            self.decode_output(&mut state, link, &bytes[at..at + OUTPUT_ROW])?;
            state.last[self.link_index(link)] = bytes[self.last_at(link)].into();
        }
        for active in 0..self.plan().actives() {
            state.allowances[active] = bytes[self.allowance_at(active)].into();
        }
        state.table = self.decode_table(bytes);
        state.marks = self.mark_bits().filter(|&mark| self.is_marked(bytes, mark)).collect();
        // What the reading above passed over is as it is written.
        (self.encode(&state) == bytes).then_some(state)
    }

    fn decode_queue(&self, state: &mut State, queue: Queue, row: &[u8]) -> Option<()> {
        let at = self.queue_index(queue);
        if self.is_fed_by_a_wire(queue) {
            state.credits[at] = Credit(row[0].into());
        }
        state.flags[at] = row[1] == 1;
        if let Queue::Q { router, from } = queue {
            state.handled[router][from] = row[2] == 1;
        }
        let places = row[4..].chunks_exact(PACKET).take(PLACES.min(row[3].into()));
        state.queues[at] = places.map(packet_of).collect::<Option<VecDeque<_>>>()?;
        Some(())
    }

    fn decode_output(&self, state: &mut State, link: Link, row: &[u8]) -> Option<()> {
        let at = self.link_index(link);
        if row[0] == 1 {
            state.wires[at] = Some(packet_of(&row[1..1 + PACKET])?);
        }
        if row[6] > 0 {
            state.choices[at] = self.senders(link).get(usize::from(row[6]) - 1).copied();
        }
        Some(())
    }

    /// "0 free, else 1 + the side."
    fn decode_table(&self, bytes: &[u8]) -> Table {
        let mut table = Table::free(self.plan().routers(), self.slots());
        for (router, side, slot) in self.entries() {
            let byte = usize::from(bytes[self.entry_at(router, side, slot)]);
            table.set(router, side, Slot(slot), byte.checked_sub(1));
        }
        table
    }
}

/// Kind, active, passive, slot, hub.
pub fn packet_bytes(packet: &Packet) -> [u8; PACKET] {
    let kind = packet.kind as u8;
    [kind, packet.active as u8, packet.passive as u8, packet.slot.0 as u8, packet.hub.0 as u8]
}

fn packet_of(bytes: &[u8]) -> Option<Packet> {
    Some(Packet {
        kind: *KINDS.get(usize::from(bytes[0]))?,
        active: bytes[1].into(),
        passive: bytes[2].into(),
        slot: Slot(bytes[3].into()),
        hub: Hub(bytes[4].into()),
    })
}
