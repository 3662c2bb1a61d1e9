//! Calls in any order: how a block is dealt, and what becomes of its calls.

use trace::net::Phase;
use trace::run::{letter, Decline, Hold, Why};
use trace::{Call, Connection, Refusal, Run};

use super::{Player, Teller};
use crate::script::Block;

/// Rounds that a reply waits for its set-up.
const PATIENCE: usize = 256;

/// A block's calls in one order, with the rounds between.
#[derive(Clone, Debug, PartialEq, Eq, Hash)]
pub struct Deal {
    /// The numbers of the calls in the block.
    pub order: Vec<usize>,
    /// The rounds before each but the first.
    pub gaps: Vec<usize>,
}

impl Deal {
    /// As it is written, with the fewest rounds between.
    pub fn written(block: &Block) -> Deal {
        let calls = block.items.len();
        Deal { order: (0..calls).collect(), gaps: vec![block.gaps.0; calls - 1] }
    }
}

/// What became of a call in a block.
#[derive(Clone, Copy, Debug, PartialEq, Eq)]
pub enum Outcome {
    /// A launch of that number in the run's book.
    Launched(usize),
    /// A reply was made.
    Replied,
    /// It was refused.
    Refused(Refusal),
}

/// What stopped a set-up at a router.
#[derive(Clone, Copy, Debug, PartialEq, Eq, Hash)]
pub enum Stopper {
    /// An entry of this connection; whether a declined set-up had left it behind.
    Connection(usize, bool),
    /// The entry was its side's last free one.
    LastFree,
    /// An entry whose owner is not known.
    Unknown,
}

/// What became of a launch at the end.
#[derive(Clone, Copy, Debug, PartialEq, Eq, Hash)]
pub enum Result {
    /// Accepted.
    Accepted,
    /// Accepted, and closed since.
    Closed,
    /// Declined by a router, and what stopped it there.
    DeclinedAt(usize, Stopper),
    /// Declined by that passive.
    DeclinedBy(usize),
    /// Not answered yet.
    UnderWay,
    /// A reply was made.
    Replied,
    /// The call was refused.
    Refused(u32),
}

impl Outcome {
    /// What became of it at the end of a run.
    pub fn result(self, run: &Run) -> Result {
        let number = match self {
            Outcome::Launched(number) => number,
            Outcome::Replied => return Result::Replied,
            Outcome::Refused(refusal) => return Result::Refused(refusal.number()),
        };
        let launch = &run.book().launches[number];
        match launch.declined {
            _ if launch.hold == Hold::Accepted => Result::Accepted,
            _ if launch.closed => Result::Closed,
            Some(Decline::Passive) => {
                Result::DeclinedBy(run.book().connections[launch.connection].passive)
            }
            Some(Decline::Router(router, why)) => Result::DeclinedAt(router, stopper(why)),
            None => Result::UnderWay,
        }
    }
}

fn stopper(why: Why) -> Stopper {
    match why {
        Why::LastFree => Stopper::LastFree,
        Why::Booked(None) => Stopper::Unknown,
        Why::Booked(Some(owner)) => {
            let left = !matches!(owner.hold, Hold::UnderWay | Hold::Accepted | Hold::Closing);
            Stopper::Connection(owner.connection, left)
        }
    }
}

impl Player<'_> {
    /// The names of the calls in all blocks: a launch has its connection's letter, a reply a small
    /// one. Letters are given before the first block, so that they are the same in every order.
    pub fn name_blocks(&mut self) -> Vec<Vec<String>> {
        let script = self.script;
        let mut replies = 0;
        let mut label = |run: &mut Run, call: Call| match call {
            Call::Launch { active, passive, slot } => {
                let (active, passive) = (active as usize, passive as usize);
                letter(run.name_connection(Connection { active, passive, start: slot as usize }))
            }
            _ => {
                replies += 1;
                letter(replies - 1).to_lowercase()
            }
        };
        let run = &mut self.run;
        let blocks = script.blocks();
        let named = |block: &Block| block.items.iter().map(|item| label(run, item.0)).collect();
        blocks.map(named).collect()
    }

    /// Makes a block's calls as they are dealt.
    pub(super) fn play_block(&mut self, block: &Block, deal: &Deal, teller: &mut dyn Teller) {
        if self.blocks == 1 {
            self.name_blocks();
        }
        let mut outcomes = Vec::new();
        for (place, &item) in deal.order.iter().enumerate() {
            if self.run.net().phase != Phase::Read {
                self.round(teller);
            }
            let gap = place.checked_sub(1).and_then(|before| deal.gaps.get(before));
            (0..gap.copied().unwrap_or(0)).for_each(|_| self.round(teller));
            let (call, _) = block.items[item];
            if let Call::Reply { passive, .. } = call {
                self.await_head(passive as usize, teller);
            }
            let step = self.call(call, teller);
            let outcome = match (step.answer, call) {
                (Err(refusal), _) => Outcome::Refused(refusal),
                (Ok(_), Call::Launch { .. }) => {
                    Outcome::Launched(self.run.book().launches.len() - 1)
                }
                (Ok(_), _) => Outcome::Replied,
            };
            outcomes.push((item, outcome));
        }
        if self.run.net().phase != Phase::Read {
            self.round(teller);
        }
        outcomes.sort_by_key(|&(item, _)| item);
        self.outcomes.push(outcomes);
    }

    /// Up to a WRITE in which the passive can reply, or in which it is clear that it never can.
    fn await_head(&mut self, passive: usize, teller: &mut dyn Teller) {
        let end = self.run.round() + PATIENCE;
        self.still = 0;
        loop {
            while self.run.net().phase != Phase::Write {
                self.next_phase(teller);
            }
            let known = passive < self.run.plan().passives();
            let arrived = known && self.may_reply(passive);
            let over = self.run.net().is_empty() || self.run.round() >= end;
            if !known || arrived || over || self.still > self.run.plan().slots() {
                return;
            }
            self.next_phase(teller);
        }
    }
}
