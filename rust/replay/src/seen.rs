//! What a recording sees of a run after a call, by places and numbers.

use trace::run::Hold;
use trace::{Packet, Place, Run};

use crate::places::Places;
use crate::recording::{entry_number, kind_letter};

/// A packet in its place.
#[derive(Clone, Copy, Debug, PartialEq, Eq)]
pub struct Standing {
    /// The packet's number in the run.
    pub id: usize,
    /// The number of its place.
    pub place: usize,
    /// On a wire: the number of the queue it is bound for.
    pub bound: Option<usize>,
    /// The packet.
    pub packet: Packet,
}

/// A state, with the numbers of the packets and the owners of the entries.
#[derive(Clone, Debug, PartialEq, Eq)]
pub struct Seen {
    /// The phase's number.
    pub phase: usize,
    /// The current slot.
    pub slot: usize,
    /// The packets by place, heads first.
    pub packets: Vec<Standing>,
    /// The packets that are picked, with their queues.
    pub picked: Vec<(usize, usize)>,
    /// The flags, by queue.
    pub flags: Vec<bool>,
    /// The handled marks, by queue.
    pub handled: Vec<bool>,
    /// The credits, by queue.
    pub credits: Vec<usize>,
    /// The slot table.
    pub table: Vec<u8>,
    /// Whose an entry is, by the number of its set-up, and how it is held.
    pub owners: Vec<Option<(usize, char)>>,
    /// The allowances, by active.
    pub allowances: Vec<usize>,
    /// The accepted connections that the state keeps, by their numbers.
    pub accepted: Vec<usize>,
    /// The rank of the sender served last, by shared output.
    pub last: Vec<usize>,
}

impl Seen {
    /// What is to be seen of a run now.
    pub fn of(run: &Run, places: &Places) -> Seen {
        let net = run.net();
        let packets = packets(run, places);
        Seen {
            phase: net.phase as usize,
            slot: net.slot,
            picked: picked(run, &packets),
            packets,
            flags: net.queues.iter().map(|row| row.flag).collect(),
            handled: net.queues.iter().map(|row| row.handled).collect(),
            credits: net.queues.iter().map(|row| row.credit).collect(),
            table: net.entries().iter().map(|&entry| entry_number(entry)).collect(),
            owners: owners(run),
            allowances: net.allowances.clone(),
            accepted: run.book().accepted.clone(),
            last: places.shared().iter().map(|one| net.out(run.plan(), one.output).last).collect(),
        }
    }

    /// The whole state as a text, only what is not at rest; the page makes the same text.
    pub fn text(&self, places: &Places) -> String {
        let told = places.told();
        let queues = 0..self.flags.len();
        let credit = |at: &usize| told[*at].credit && self.credits[*at] != told[*at].capacity;
        let mut picked: Vec<usize> = self.picked.iter().map(|&(queue, _)| queue).collect();
        picked.sort_unstable();
        let ranks = places.shared().iter().map(|one| one.senders.len()).zip(&self.last).enumerate();
        let turned = ranks.filter(|(_, (senders, last))| **last + 1 != *senders);
        [
            format!("{},{}", self.phase, self.slot),
            self.packets_text(),
            list(queues.clone().filter(|&at| self.flags[at])),
            list(queues.clone().filter(credit).map(|at| format!("{at}:{}", self.credits[at]))),
            list(queues.filter(|&at| self.handled[at])),
            list(numbered(&self.table).filter(|(_, side)| **side != 4).map(pair)),
            list(numbered(&self.owners).filter_map(owner_text)),
            list(picked),
            list(&self.allowances),
            list(&self.accepted),
            list(turned.map(|(at, (_, last))| format!("{at}:{last}"))),
        ]
        .join("|")
    }

    /// The places that hold packets, with them.
    fn packets_text(&self) -> String {
        let mut text = String::new();
        for (at, standing) in self.packets.iter().enumerate() {
            let same = at > 0 && self.packets[at - 1].place == standing.place;
            match (at, same) {
                (_, true) => text.push(','),
                (0, _) => text += &format!("{}:", standing.place),
                _ => text += &format!(";{}:", standing.place),
            }
            let Packet { kind, active, passive, slot, hub } = standing.packet;
            text += &format!("{}{active}.{passive}.{slot}.{hub}", kind_letter(kind));
        }
        text
    }
}

/// Every packet with the number of its place, by places, heads first.
fn packets(run: &Run, places: &Places) -> Vec<Standing> {
    let plan = run.plan();
    let stand = |seated: trace::run::Seated| {
        let bound = match seated.place {
            Place::In(_) => None,
            Place::On(output) => plan.next_queue(output, &seated.packet),
        };
        Standing {
            id: seated.id.0,
            place: places.number(plan, seated.place),
            bound: bound.map(|queue| plan.queue_number(queue)),
            packet: seated.packet,
        }
    };
    let mut packets: Vec<Standing> = run.packets().into_iter().map(stand).collect();
    // Queues keep their order: the sort is stable.
    packets.sort_by_key(|standing| standing.place);
    packets
}

/// Queue and number of each packet that an output picked.
fn picked(run: &Run, packets: &[Standing]) -> Vec<(usize, usize)> {
    let plan = run.plan();
    let mut picked = Vec::new();
    for (output, out) in plan.outputs().zip(&run.net().outputs) {
        let Some(rank) = out.choice else { continue };
        let queue = plan.queue_number(plan.senders(output)[rank]);
        let head = packets.iter().find(|standing| standing.place == queue);
        picked.extend(head.map(|head| (queue, head.id)));
    }
    picked
}

/// The owner of each entry, as the run tells it.
fn owners(run: &Run) -> Vec<Option<(usize, char)>> {
    let (plan, slots) = (run.plan(), run.plan().slots());
    let mut owners = vec![None; plan.routers() * 4 * slots];
    for (cell, owner) in run.book().owned() {
        let entry = (cell.port.router * 4 + cell.port.side) * slots + cell.slot;
        let set_up = run.book().launches[owner.launch].id;
        owners[entry] = Some((set_up.0, hold_letter(owner.hold)));
    }
    owners
}

/// The letter of a hold.
fn hold_letter(hold: Hold) -> char {
    match hold {
        Hold::Accepted => 'a',
        Hold::Closing => 'c',
        Hold::UnderWay => 'w',
        Hold::LeftBehind => 'l',
        Hold::TearingDown => 'd',
        Hold::Over => 'f',
    }
}

/// Items with commas between them.
fn list<T: ToString>(items: impl IntoIterator<Item = T>) -> String {
    items.into_iter().map(|item| item.to_string()).collect::<Vec<_>>().join(",")
}

/// Items with their numbers.
fn numbered<T>(items: &[T]) -> impl Iterator<Item = (usize, &T)> {
    items.iter().enumerate()
}

/// A number with what it has.
fn pair((at, value): (usize, &u8)) -> String {
    format!("{at}:{value}")
}

/// An entry with its owner.
fn owner_text((at, owner): (usize, &Option<(usize, char)>)) -> Option<String> {
    owner.map(|(set_up, hold)| format!("{at}:{set_up}{hold}"))
}
