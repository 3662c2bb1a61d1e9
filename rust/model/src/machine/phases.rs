//! A round: what READ, EXECUTE and WRITE do to a state.

use super::connection::Connection;
use super::network::{Link, Network};
use super::packet::{Hub, Kind, Packet, Slot};
use super::rules::Rules;
use super::state::{is_out_queue, Credit, Phase, State, Table};
use crate::feeding::Queue;
use crate::fields::SIDES;
use crate::plan::Port;

impl Network {
    /// "READ: each wire's packet joins its queue and the wire empties. Each raised flag adds one
    /// credit to its queue and is lowered."
    pub(super) fn run_read(&self, state: &mut State) {
        for &link in self.links() {
            if let Some(packet) = state.wires[self.link_index(link)].take() {
                let queue = self.next_queue(link, &packet).expect("its journey goes on");
                self.arrive(state, queue, packet);
            }
        }
        for (flag, credit) in state.flags.iter_mut().zip(&mut state.credits) {
            if std::mem::take(flag) && !self.rules().credit_at_the_arrival {
                *credit = Credit(credit.0 + 1);
            }
        }
        state.phase = Phase::Execute;
    }

    /// A packet joins its queue.
    fn arrive(&self, state: &mut State, queue: Queue, packet: Packet) {
        let at = self.queue_index(queue);
        state.queues[at].push_back(packet);
        if self.rules().credit_at_the_arrival {
            state.credits[at] = Credit(state.credits[at].0 + 1);
        }
        let accepts = matches!(queue, Queue::ActiveIn(_)) && packet.kind == Kind::Ack;
        if self.rules().accepted_at_the_arrival && accepts {
            state.marks.insert(self.connection(&packet));
        }
    }

    /// "EXECUTE, in this order": units, outputs, tear-downs.
    pub(super) fn run_execute(&self, state: &mut State) {
        for router in 0..self.plan().routers() {
            self.handle_heads(state, router);
        }
        for &link in self.links() {
            state.choices[self.link_index(link)] = self.pick(state, link);
        }
        for active in 0..self.plan().actives() {
            self.send_tear_down(state, active);
        }
        state.phase = Phase::Write;
    }

    /// "(1) A unit handles each queue's unhandled head once in a round, side 0 first."
    fn handle_heads(&self, state: &mut State, router: usize) {
        for at in 0..SIDES {
            let from = if self.rules().highest_side_first { SIDES - 1 - at } else { at };
            if self.handle_head(state, router, from) && self.rules().one_head_a_unit {
                return;
            }
        }
    }

    /// The head of one queue, if there is one that is not handled yet; whether there was.
    fn handle_head(&self, state: &mut State, router: usize, from: usize) -> bool {
        let q = self.queue_index(Queue::Q { router, from });
        let handled = &mut state.handled[router][from];
        let Some(head) = state.queues[q].front_mut().filter(|_| !*handled) else {
            return false;
        };
        let found = *head;
        match self.handle(&mut state.table, router, found) {
            Some(packet) => {
                *head = packet;
                *handled = true;
            }
            None => {
                // "The packet ends and Q's flag rises."
                state.queues[q].pop_front();
                state.flags[q] = true;
                if self.rules().accepted_until_torn_down {
                    state.marks.remove(&self.torn_down(router, &found));
                }
            }
        }
        true
    }

    /// The connection of a TDOWN at this router: at the n-th one its slot is the start slot + n.
    fn torn_down(&self, router: usize, tear_down: &Packet) -> Connection {
        let &Packet { active, passive, slot, .. } = tear_down;
        let journey = self.journey(active, passive).expect("a served pair");
        let n = journey.walk.iter().position(|hop| hop.router == router).expect("on the walk");
        Connection { active, passive, start: slot.minus(Hub(n), self.slots()) }
    }

    /// What a unit makes of a packet: another packet, or none if it ends.
    fn handle(&self, table: &mut Table, router: usize, packet: Packet) -> Option<Packet> {
        let journey = self.journey(packet.active, packet.passive).expect("a served pair");
        let hop = journey.walk.iter().find(|hop| hop.router == router).expect("on the walk");
        let next = packet.slot.next(self.slots());
        match packet.kind {
            // "If entry (o, slot) is booked, or is the only free entry of o, the packet becomes a
            // NACK, slot and hub kept."
            Kind::Setup if !self.may_book(table, router, hop.side, packet.slot) => {
                let hub = if self.rules().declined_leaves_nothing { Hub(0) } else { packet.hub };
                Some(Packet { kind: Kind::Nack, hub, ..packet })
            }
            // "Else the entry is booked with the side the walk came in by; hub and slot each grow
            // by one, the slot modulo S."
            Kind::Setup => {
                table.set(router, hop.side, packet.slot, Some(hop.came_in));
                Some(Packet { slot: next, hub: packet.hub.grown(), ..packet })
            }
            // "TDOWN: the entry is freed; with hub 1 the packet ends, else hub falls and slot grows
            // by one modulo S."
            Kind::Tdown => {
                table.set(router, hop.side, packet.slot, None);
                let goes_on = packet.hub != Hub(1);
                goes_on.then(|| Packet { slot: next, hub: packet.hub.fallen(), ..packet })
            }
            Kind::Ack | Kind::Nack => unreachable!("an answer in Q is its handled head"),
        }
    }

    /// "(2) Each output picks a sender", the first that is a candidate when it "looks from the next
    /// one on" after the last that a WRITE served, "cyclically, in the old order"; "a router side
    /// picks nobody when its entry for the current slot is booked".
    fn pick(&self, state: &State, link: Link) -> Option<Queue> {
        if self.is_booked_now(state, link) {
            return None;
        }
        let senders = self.senders(link);
        let next = self.first_asked(state, link);
        let mut in_turn = (next..next + senders.len()).map(|rank| senders[rank % senders.len()]);
        in_turn.find(|&sender| self.is_candidate(state, link, sender))
    }

    /// Whether this is a router side whose entry for the current slot is booked.
    pub fn is_booked_now(&self, state: &State, link: Link) -> bool {
        match link {
            Link::Side(Port { router, side }) => {
                state.table.entry(router, side, state.slot).is_some()
            }
            _ => false,
        }
    }

    /// The rank of the sender that an output asks first.
    fn first_asked(&self, state: &State, link: Link) -> usize {
        let last = state.last[self.link_index(link)];
        match self.rules() {
            Rules { lowest_first: true, .. } => 0,
            Rules { unit_sends_lowest_first: true, .. } if matches!(link, Link::Back(_)) => 0,
            Rules { same_one_again: true, .. } => last,
            _ => last + 1,
        }
    }

    /// "(3) If an active's in-queue starts with an unmarked NACK and its out-queue is not full, a
    /// TDOWN joins the out-queue with the NACK's hub and with slot minus hub modulo S, and the NACK
    /// is marked."
    fn send_tear_down(&self, state: &mut State, active: usize) {
        let out = Queue::ActiveOut(active);
        if self.is_full(state, out) {
            return;
        }
        let head = state.queues[self.queue_index(Queue::ActiveIn(active))].front_mut();
        let Some(nack) = head.filter(|head| head.is_unmarked_nack()) else { return };
        let tear_down = self.tear_down(*nack);
        nack.hub = Hub(0);
        state.queues[self.queue_index(out)].push_back(tear_down);
        state.allowances[active] += usize::from(self.rules().allowance_at_the_mark);
    }

    /// The TDOWN of an unmarked NACK.
    fn tear_down(&self, nack: Packet) -> Packet {
        let rules = self.rules();
        let slot = if rules.slot_minus_hub_unwrapped {
            Slot(nack.slot.0.saturating_sub(nack.hub.0))
        } else {
            nack.slot.minus(nack.hub, self.slots())
        };
        let hub = if rules.tear_down_one_too_far { nack.hub.grown() } else { nack.hub };
        Packet { kind: Kind::Tdown, slot, hub, ..nack }
    }

    /// "WRITE: each picked head enters its wire, its queue's flag rises (none for out-queues), the
    /// next queue's credit falls by one, choices are cleared. The slot grows by one modulo S." Each
    /// output that serves a sender remembers it; one that serves nobody remembers what it did.
    pub(super) fn run_write(&self, state: &mut State) {
        for &link in self.links() {
            let wire = self.link_index(link);
            if let Some(sender) = state.choices[wire].take() {
                let packet = self.send(state, sender);
                let next = self.next_queue(link, &packet).expect("its journey goes on");
                let credit = &mut state.credits[self.queue_index(next)];
                *credit = Credit(credit.0 - 1);
                state.wires[wire] = Some(packet);
                state.last[wire] = self.rank(link, sender).expect("a choice is of a sender");
            } else if self.rules().turn_lost_when_booked && self.is_booked_now(state, link) {
                state.last[wire] = (state.last[wire] + 1) % self.senders(link).len();
            }
        }
        state.slot = state.slot.next(self.slots());
        state.phase = Phase::Read;
    }

    /// Takes the picked head out of its queue; "the handled mark goes when that head leaves".
    fn send(&self, state: &mut State, sender: Queue) -> Packet {
        let at = self.queue_index(sender);
        state.flags[at] = !is_out_queue(sender);
        if let Queue::Q { router, from } = sender {
            state.handled[router][from] = false;
        }
        state.queues[at].pop_front().expect("a candidate has a head")
    }

    /// Whether the entry is free and not the only free one of its side.
    fn may_book(&self, table: &Table, router: usize, side: usize, slot: Slot) -> bool {
        let kept = usize::from(!self.rules().last_free_booked);
        table.entry(router, side, slot).is_none() && table.free_entries(router, side) > kept
    }
}
