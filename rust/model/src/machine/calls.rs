//! The calls, each with its refusals in the documents' order. A refusal alters nothing.

use super::connection::Connection;
use super::network::{Journey, Network};
use super::packet::{Hub, Kind, Packet, Slot};
use super::state::{Phase, State};
use crate::feeding::Queue;
use crate::fields::SIDES;
use crate::refusal::{
    ALLOWANCE, EMPTY, FLAG_UP, FULL, NOT_ACCEPTED, NOT_A_STATE, PHASE, RANGE, UNMARKED, UNSERVED,
};

/// "Else the entry, 4 for free."
pub const FREE: u32 = 4;

/// The refusal, unless the condition for going on holds.
fn ensure(holds: bool, refusal: u32) -> Result<(), u32> {
    holds.then_some(()).ok_or(refusal)
}

impl Network {
    /// Read: 7, 8.
    pub fn read(&self, state: &mut State) -> Result<(), u32> {
        self.ensure_phase(state, Phase::Read)?;
        self.run_read(state);
        Ok(())
    }

    /// Execute: 7, 8.
    pub fn execute(&self, state: &mut State) -> Result<(), u32> {
        self.ensure_phase(state, Phase::Execute)?;
        self.run_execute(state);
        Ok(())
    }

    /// Write: 7, 8.
    pub fn write(&self, state: &mut State) -> Result<(), u32> {
        self.ensure_phase(state, Phase::Write)?;
        self.run_write(state);
        Ok(())
    }

    /// "Launch (active, passive, slot): 8 not READ; 9 a number out of range; 10 pair not served; 11
    /// allowance 0; 12 out-queue full. Else a SETUP, hub 0, joins and the allowance falls by one."
    pub fn launch(
        &self,
        state: &mut State,
        active: usize,
        passive: usize,
        slot: usize,
    ) -> Result<(), u32> {
        self.served_in_read(state, active, passive, slot)?;
        ensure(state.allowances[active] > 0, ALLOWANCE)?;
        let out = Queue::ActiveOut(active);
        ensure(!self.is_full(state, out), FULL)?;
        let set_up = Packet { kind: Kind::Setup, active, passive, slot: Slot(slot), hub: Hub(0) };
        state.queues[self.queue_index(out)].push_back(set_up);
        state.allowances[active] -= 1;
        Ok(())
    }

    /// "Close (active, passive, start slot) in READ: it puts a TDOWN in the active's out-queue,
    /// slot the start slot, hub the number of routers on the walk, and the connection leaves the
    /// accepted ones." "Close refuses 8, 9, 10, then 16 for a connection not accepted, then 12."
    pub fn close(
        &self,
        state: &mut State,
        active: usize,
        passive: usize,
        slot: usize,
    ) -> Result<(), u32> {
        let hub = Hub(self.served_in_read(state, active, passive, slot)?.walk.len());
        let connection = Connection { active, passive, start: Slot(slot) };
        ensure(state.marks.contains(&connection), NOT_ACCEPTED)?;
        if self.rules().close_clears_at_once {
            self.clear(state, connection);
            return Ok(());
        }
        let out = Queue::ActiveOut(active);
        ensure(!self.is_full(state, out), FULL)?;
        let hub = if self.rules().close_one_too_far { hub.grown() } else { hub };
        let tear_down = Packet { kind: Kind::Tdown, active, passive, slot: Slot(slot), hub };
        state.queues[self.queue_index(out)].push_back(tear_down);
        if !self.rules().accepted_until_torn_down {
            state.marks.remove(&connection);
        }
        if self.rules().close_frees_early {
            self.clear(state, connection);
        }
        Ok(())
    }

    /// "Reply (passive, 1 accept or 0 decline): 8 not WRITE; 9 number or choice out of range; 14
    /// in-queue flag up; 13 in-queue empty; 12 out-queue full. Else the head becomes ACK or NACK,
    /// slot and hub kept, in the out-queue; the flag rises."
    pub fn reply(&self, state: &mut State, passive: usize, choice: usize) -> Result<(), u32> {
        self.ensure_phase(state, Phase::Write)?;
        ensure(passive < self.plan().passives() && choice < 2, RANGE)?;
        let head = self.waiting_head(state, Queue::PassiveIn(passive))?;
        let out = Queue::PassiveOut(passive);
        ensure(!self.is_full(state, out), FULL)?;
        let kind = if choice == 1 { Kind::Ack } else { Kind::Nack };
        self.take_head(state, Queue::PassiveIn(passive));
        state.queues[self.queue_index(out)].push_back(Packet { kind, ..head });
        Ok(())
    }

    /// "Look returns the head in any phase and changes nothing." "Look gives 9 and 13." Also with the
    /// flag up, and also an unmarked NACK.
    pub fn look(&self, state: &State, active: usize) -> Result<Packet, u32> {
        self.ensure_state(state)?;
        ensure(active < self.plan().actives(), RANGE)?;
        self.head(state, active).ok_or(EMPTY)
    }

    /// "Drop removes it and returns nothing"; "Drop keeps Consume's 8, 9, 14, 13, 15": 8 not WRITE;
    /// 9; 14 in-queue flag up; 13 in-queue empty; 15 head is an unmarked NACK. Else "the flag rises,
    /// the allowance grows by one". "An ACK counts as accepted when dropped, with the numbers of the
    /// packet that a Look just before would return."
    pub fn drop(&self, state: &mut State, active: usize) -> Result<(), u32> {
        self.ensure_phase(state, Phase::Write)?;
        ensure(active < self.plan().actives(), RANGE)?;
        let head = self.waiting_head(state, Queue::ActiveIn(active))?;
        ensure(!head.is_unmarked_nack(), UNMARKED)?;
        self.take_head(state, Queue::ActiveIn(active));
        let at_the_mark = self.rules().allowance_at_the_mark && head.kind == Kind::Nack;
        let returned = at_the_mark || self.rules().allowance_at_the_look;
        state.allowances[active] += usize::from(!returned);
        if self.rules().next_head_accepted {
            self.accept(state, self.head(state, active).or(Some(head)));
        } else if !self.rules().accepted_at_the_arrival && !self.rules().accepted_at_the_look {
            self.accept(state, Some(head));
        }
        Ok(())
    }

    /// "Entry (router, side, slot): 9. Else the entry, 4 for free."
    pub fn entry(
        &self,
        state: &State,
        router: usize,
        side: usize,
        slot: usize,
    ) -> Result<u32, u32> {
        self.ensure_state(state)?;
        let in_range = router < self.plan().routers() && side < SIDES && slot < self.slots();
        ensure(in_range, RANGE)?;
        let entry = state.table.entry(router, side, Slot(slot));
        Ok(entry.map_or(FREE, |side| side as u32))
    }

    /// The head of an active's in-queue, if there is one.
    pub fn head(&self, state: &State, active: usize) -> Option<Packet> {
        self.queue(state, Queue::ActiveIn(active)).front().copied()
    }

    /// If this packet is an ACK, its connection is accepted.
    fn accept(&self, state: &mut State, head: Option<Packet>) {
        let ack = head.filter(|head| head.kind == Kind::Ack);
        state.marks.extend(ack.map(|ack| self.connection(&ack)));
    }

    /// What a student's Look does besides, after it was accepted.
    pub(super) fn students_look(&self, state: &mut State, active: usize) {
        if self.rules().look_raises_the_flag {
            state.flags[self.queue_index(Queue::ActiveIn(active))] = true;
        }
        if self.rules().accepted_at_the_look {
            self.accept(state, self.head(state, active));
        }
        state.allowances[active] += usize::from(self.rules().allowance_at_the_look);
    }

    /// 7 not a state, then 8 another phase.
    fn ensure_phase(&self, state: &State, phase: Phase) -> Result<(), u32> {
        self.ensure_state(state)?;
        ensure(state.phase == phase, PHASE)
    }

    /// 7 not a state, 8 not READ, 9 a number out of range, 10 pair not served; else its ways.
    fn served_in_read(
        &self,
        state: &State,
        active: usize,
        passive: usize,
        slot: usize,
    ) -> Result<&Journey, u32> {
        self.ensure_phase(state, Phase::Read)?;
        let plan = self.plan();
        let in_range = active < plan.actives() && passive < plan.passives() && slot < self.slots();
        ensure(in_range, RANGE)?;
        self.journey(active, passive).ok_or(UNSERVED)
    }

    /// What a student's Close does who does not wait for the TDOWN: the mark and all entries go.
    fn clear(&self, state: &mut State, connection: Connection) {
        state.marks.remove(&connection);
        for entry in self.entries_of(connection).into_iter().flatten() {
            state.table.set(entry.port.router, entry.port.side, entry.slot, None);
        }
    }

    /// 7 not a state, where the rules are the documents' own.
    pub(super) fn ensure_state(&self, state: &State) -> Result<(), u32> {
        ensure(!self.rules().are_the_documents() || self.is_state(state), NOT_A_STATE)
    }

    /// 14 in-queue flag up, then 13 in-queue empty, else its head.
    fn waiting_head(&self, state: &State, queue: Queue) -> Result<Packet, u32> {
        ensure(!state.flags[self.queue_index(queue)], FLAG_UP)?;
        self.queue(state, queue).front().copied().ok_or(EMPTY)
    }

    /// The head leaves its in-queue and the flag rises.
    fn take_head(&self, state: &mut State, queue: Queue) {
        let at = self.queue_index(queue);
        state.queues[at].pop_front();
        state.flags[at] = true;
    }
}
