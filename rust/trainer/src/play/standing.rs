//! What passives and actives do by themselves in each WRITE.

use trace::{Call, Kind, Queue};

use super::{Player, Teller};

impl Player<'_> {
    /// Standing passives and then actives act where a call would be accepted.
    pub(super) fn act(&mut self, teller: &mut dyn Teller) {
        for passive in 0..self.passives.len() {
            if let (Some(choice), true) = (self.passives[passive], self.may_reply(passive)) {
                self.call(Call::Reply { passive: passive as u32, choice }, teller);
            }
        }
        for active in 0..self.actives.len() {
            if self.actives[active] && self.may_drop(active) {
                self.call(Call::Drop { active: active as u32 }, teller);
            }
        }
    }

    /// Whether a Reply would be accepted.
    pub(super) fn may_reply(&self, passive: usize) -> bool {
        let (plan, net) = (self.run.plan(), self.run.net());
        let (into, out) = (Queue::PassiveIn(passive), Queue::PassiveOut(passive));
        let row = net.row(plan, into);
        let room = net.row(plan, out).packets.len() < plan.capacity(out);
        !row.flag && !row.packets.is_empty() && room
    }

    /// Whether a Drop would be accepted.
    pub(super) fn may_drop(&self, active: usize) -> bool {
        let row = self.run.net().row(self.run.plan(), Queue::ActiveIn(active));
        let ready =
            row.packets.first().is_some_and(|head| head.kind != Kind::Nack || head.hub == 0);
        !row.flag && ready
    }
}

/// One or all do this from here on.
pub(super) fn set<T: Copy>(all: &mut [T], who: Option<usize>, does: T) {
    match who {
        Some(number) => all[number] = does,
        None => all.fill(does),
    }
}
