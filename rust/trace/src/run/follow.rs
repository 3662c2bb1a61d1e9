//! What a call did: the packets are followed from the state before to the state after.

use pandabrass::{Entry, Kind, Packet};

use super::event::{Cell, Event, Wait, Why};
use super::{Connection, Decline, Hold, Id, Run};
use crate::calls::Call;
use crate::net::{Net, Phase};
use crate::place::{Output, Place, Port, Queue, SIDES};

impl Run<'_> {
    /// The events of an accepted call; `self.net` is already what it left.
    pub(super) fn follow(&mut self, before: &Net, call: Call) -> Vec<Event> {
        let n = |number: u32| number as usize;
        match call {
            Call::Read => self.follow_read(before),
            Call::Execute => self.follow_execute(before),
            Call::Write => self.follow_write(before),
            Call::Launch { active, passive, slot } => {
                let (active, passive) = (n(active), n(passive));
                vec![self.follow_launch(Connection { active, passive, start: n(slot) })]
            }
            Call::Close { active, passive, slot } => {
                let (active, passive) = (n(active), n(passive));
                vec![self.follow_close(before, Connection { active, passive, start: n(slot) })]
            }
            Call::Reply { passive, choice } => vec![self.follow_reply(n(passive), choice == 1)],
            Call::Look { active } => vec![self.follow_look(before, n(active))],
            Call::Drop { active } => vec![self.follow_drop(before, n(active))],
            Call::Entry { .. } | Call::Remaining => Vec::new(),
        }
    }

    /// Each wire's packet joins its queue.
    fn follow_read(&mut self, before: &Net) -> Vec<Event> {
        let plan = self.plan;
        let mut events = Vec::new();
        for (output, out) in plan.outputs().zip(&before.outputs) {
            let Some(packet) = &out.wire else { continue };
            let queue = plan.next_queue(output, packet).expect("its journey goes on");
            let id = self.seats.exit(plan, output).expect("every packet is followed");
            self.seats.join(plan, queue, id);
            events.push(Event::Moved { id, from: Place::On(output), to: Place::In(queue) });
        }
        events
    }

    /// Units, outputs, tear-downs.
    fn follow_execute(&mut self, before: &Net) -> Vec<Event> {
        let plan = self.plan;
        let mut events = Vec::new();
        for (router, side) in (0..plan.routers()).flat_map(|r| (0..SIDES).map(move |s| (r, s))) {
            let handled = self.follow_unit(before, Port { router, side }, &events);
            events.extend(handled);
        }
        for output in plan.outputs() {
            self.follow_output(output, &mut events);
        }
        for active in 0..plan.actives() {
            events.extend(self.follow_tear_down(before, active));
        }
        events
    }

    /// What a unit did with the head that came in by a side, after what the units did before it.
    fn follow_unit(&mut self, before: &Net, from: Port, done: &[Event]) -> Option<Event> {
        let (plan, router, q) = (self.plan, from.router, Queue::Q(from));
        let (row, now) = (before.row(plan, q), self.net.row(plan, q));
        // By a student's rule a head may have to wait.
        let waits = !now.handled && now.packets.len() == row.packets.len();
        let packet = *row.packets.first().filter(|_| !row.handled && !waits)?;
        let hop = plan.hop(packet.active.into(), packet.passive.into(), router)?;
        let port = Port { router, side: hop.side };
        let cell = Cell { port, slot: packet.slot.into() };
        if packet.kind == Kind::Tdown {
            return Some(self.follow_freeing(q, cell, packet));
        }
        let id = self.seats.head(plan, q);
        if now.packets[0].kind == Kind::Setup {
            self.book.book(id, cell);
            return Some(Event::Booked { id, cell });
        }
        let why = match is_booked(before, done, cell) {
            false => Why::LastFree,
            true => Why::Booked(self.book.owner(cell)),
        };
        self.book.decline(id, Decline::Router(router, why));
        Some(Event::Declined { id, cell, why })
    }

    /// A tear-down frees an entry; "with hub 1 the packet ends".
    fn follow_freeing(&mut self, q: Queue, cell: Cell, packet: Packet) -> Event {
        let plan = self.plan;
        let owner = self.book.free(cell);
        let ended = packet.hub == 1;
        let id = if ended { self.seats.leave(plan, q) } else { self.seats.head(plan, q) };
        if ended {
            self.book.end(id);
        }
        Event::Freed { id, cell, owner, ended }
    }

    /// Whom an output picked, and why other heads wait.
    fn follow_output(&self, output: Output, events: &mut Vec<Event>) {
        let plan = self.plan;
        let senders = plan.senders(output);
        let choice = self.net.out(plan, output).choice;
        let picked = choice.map(|rank| self.seats.head(plan, senders[rank]));
        if let Some(id) = picked {
            events.push(Event::Picked { id, output });
        }
        for (rank, &sender) in senders.iter().enumerate() {
            let row = self.net.row(plan, sender);
            // A tear-down that joined an out-queue after the picking has no seat yet.
            let Some(&id) = self.seats.queue(plan, sender).front() else { continue };
            let unhandled = matches!(sender, Queue::Q(_)) && !row.handled;
            if choice == Some(rank) || unhandled {
                continue;
            }
            let packet = &row.packets[0];
            if let Some(wait) = self.wait(output, packet, picked) {
                events.push(Event::Waits { id, output, wait });
            }
        }
    }

    /// Why a head was not picked.
    fn wait(&self, output: Output, packet: &Packet, picked: Option<Id>) -> Option<Wait> {
        debug_assert_eq!(self.net.phase, Phase::Write);
        if let Output::Side(port) = output {
            let slot = self.net.slot;
            if self.net.entry(port, slot) != Entry::Free {
                return Some(Wait::Booked(Cell { port, slot }));
            }
        }
        let next = self.plan.next_queue(output, packet)?;
        if self.net.row(self.plan, next).credit == 0 {
            return Some(Wait::NoCredit(next));
        }
        picked.map(Wait::After)
    }

    /// A NACK that was marked, with the tear-down that joined the out-queue.
    fn follow_tear_down(&mut self, before: &Net, active: usize) -> Option<Event> {
        let plan = self.plan;
        let (out, into) = (Queue::ActiveOut(active), Queue::ActiveIn(active));
        let grown = self.net.row(plan, out).packets.len() > before.row(plan, out).packets.len();
        if !grown {
            return None;
        }
        let nack = self.seats.head(plan, into);
        let tear_down = self.book.tear_down(nack);
        self.seats.join(plan, out, tear_down);
        Some(Event::TornDown { nack, tear_down })
    }

    /// Each picked head enters its wire.
    fn follow_write(&mut self, before: &Net) -> Vec<Event> {
        let plan = self.plan;
        let mut events = Vec::new();
        for (output, out) in plan.outputs().zip(&before.outputs) {
            let Some(rank) = out.choice else { continue };
            let queue = plan.senders(output)[rank];
            let id = self.seats.leave(plan, queue);
            self.seats.enter(plan, output, id);
            events.push(Event::Moved { id, from: Place::In(queue), to: Place::On(output) });
        }
        events
    }

    fn follow_launch(&mut self, connection: Connection) -> Event {
        let id = self.book.launch(connection);
        self.seats.join(self.plan, Queue::ActiveOut(connection.active), id);
        Event::Launched { id, allowance: self.net.allowances[connection.active] }
    }

    /// The tear-down that joined the out-queue; a student's rule may free the entries instead, or
    /// free them too.
    fn follow_close(&mut self, before: &Net, closed: Connection) -> Event {
        let (plan, out) = (self.plan, Queue::ActiveOut(closed.active));
        let connection = self.book.number(closed);
        let at_once = self.follow_clearing(before, closed);
        let grown = self.net.row(plan, out).packets.len() > before.row(plan, out).packets.len();
        if !grown {
            self.book.clear(closed);
            return Event::Closed { connection, tear_down: None, at_once };
        }
        let tear_down = self.book.close(closed);
        self.seats.join(plan, out, tear_down);
        Event::Closed { connection, tear_down: Some(tear_down), at_once }
    }

    /// The entries that a Close itself freed; whether there are any.
    fn follow_clearing(&mut self, before: &Net, closed: Connection) -> bool {
        let entries = Run::entries_of(self.plan, closed).unwrap_or_default();
        let cells = entries.into_iter().map(|(cell, _)| cell);
        let freed = |cell: &Cell| {
            let entry = |net: &Net| net.entry(cell.port, cell.slot);
            entry(before) != Entry::Free && entry(&self.net) == Entry::Free
        };
        let freed: Vec<Cell> = cells.filter(freed).collect();
        for &cell in &freed {
            self.book.free(cell);
        }
        !freed.is_empty()
    }

    fn follow_reply(&mut self, passive: usize, accepts: bool) -> Event {
        let id = self.seats.leave(self.plan, Queue::PassiveIn(passive));
        self.seats.join(self.plan, Queue::PassiveOut(passive), id);
        if !accepts {
            self.book.decline(id, Decline::Passive);
        }
        Event::Answered { id }
    }

    /// The head stays; by a student's rule its connection may come to be accepted.
    fn follow_look(&mut self, before: &Net, active: usize) -> Event {
        let into = Queue::ActiveIn(active);
        let packet = before.row(self.plan, into).packets[0];
        let id = self.seats.head(self.plan, into);
        let accepted = self.follow_acceptance(before, &[id]);
        Event::Looked { id, packet, accepted }
    }

    /// The head leaves; an ACK's connection is accepted.
    fn follow_drop(&mut self, before: &Net, active: usize) -> Event {
        let into = Queue::ActiveIn(active);
        let packet = before.row(self.plan, into).packets[0];
        let id = self.seats.leave(self.plan, into);
        let next = self.seats.queue(self.plan, into).front().copied();
        let accepted = self.follow_acceptance(before, &[id, next.unwrap_or(id)]);
        self.follow_end(id, packet.kind);
        Event::Dropped { id, packet, allowance: self.net.allowances[active], accepted }
    }

    /// The connection that a call accepted, if it did: the ACK is one of these.
    fn follow_acceptance(&mut self, before: &Net, acks: &[Id]) -> Option<usize> {
        let new = |connection: &&Connection| !before.accepted.contains(connection);
        let connection = *self.net.accepted.iter().find(new)?;
        let number = self.book.number(connection);
        let of = |id: &&Id| self.book.connection_of(**id) == number;
        if let Some(&ack) = acks.iter().find(of) {
            self.book.accept(ack);
        }
        Some(number)
    }

    /// What becomes of a launch whose answer has left the network.
    fn follow_end(&mut self, id: Id, kind: Kind) {
        let launch = *self.book.launch_of(id);
        let connection = self.book.connections[launch.connection];
        let torn_down = self.book.packets.iter().any(|made| made.parent == Some(id));
        match kind {
            // By a student's rule it was accepted before, or it never is.
            Kind::Ack if launch.hold != Hold::UnderWay => {}
            Kind::Ack if self.net.accepted.contains(&connection) => self.book.accept(id),
            _ if torn_down => {}
            _ => self.book.end(id),
        }
    }
}

/// Whether an entry was booked when a unit came to it: as the call found it, or as other heads that
/// were handled in the same call left it.
fn is_booked(before: &Net, done: &[Event], cell: Cell) -> bool {
    let last = done.iter().rev().find_map(|event| match *event {
        Event::Booked { cell: at, .. } if at == cell => Some(true),
        Event::Freed { cell: at, .. } if at == cell => Some(false),
        _ => None,
    });
    last.unwrap_or_else(|| before.entry(cell.port, cell.slot) != Entry::Free)
}
