//! Request (n), "Empty by a known round": what is under way, when it is gone, and who is waiting.

use super::list::{Answer, Call};
use super::network::Network;
use super::state::{Phase, State};
use crate::feeding::Queue;

/// "At most 256 × S × N rounds."
const FOR_EACH: usize = 256;

/// What Remaining returns.
#[derive(Clone, Copy, Debug, PartialEq, Eq)]
pub struct Remaining {
    /// N: the packets "then in queues, wires".
    pub packets: usize,
    /// "The network is empty after at most" so many rounds of a program that waits.
    pub rounds: usize,
}

impl Network {
    /// Remaining, in any phase: 7 and nothing else; it changes nothing.
    pub fn remaining(&self, state: &State) -> Result<Remaining, u32> {
        self.ensure_state(state)?;
        let packets = self.packets(state).count();
        Ok(Remaining { packets, rounds: FOR_EACH * self.slots() * packets })
    }

    /// Whether every queue and wire is empty.
    pub fn is_empty(&self, state: &State) -> bool {
        self.packets(state).next().is_none()
    }

    /// Whether a Reply would be accepted in WRITE: none of 14, 13 and 12 applies.
    pub fn may_reply(&self, state: &State, passive: usize) -> bool {
        let within = Queue::PassiveIn(passive);
        self.has_a_head_to_take(state, within) && !self.is_full(state, Queue::PassiveOut(passive))
    }

    /// Whether a Drop would be accepted in WRITE: none of 14, 13 and 15 applies.
    pub fn may_drop(&self, state: &State, active: usize) -> bool {
        let unmarked = self.head(state, active).is_some_and(|head| head.is_unmarked_nack());
        self.has_a_head_to_take(state, Queue::ActiveIn(active)) && !unmarked
    }

    fn has_a_head_to_take(&self, state: &State, within: Queue) -> bool {
        !state.flags[self.queue_index(within)] && !self.queue(state, within).is_empty()
    }

    /// "Each passive replies in every WRITE where it can, and each active drops its head in every
    /// WRITE where it can": at the end of a WRITE all have who could, for then nobody can any more.
    /// Whether one can is changed within a WRITE by its own Reply or Drop alone, and that raises its
    /// flag.
    pub fn all_have_acted(&self, state: &State) -> bool {
        !(0..self.plan().passives()).any(|passive| self.may_reply(state, passive))
            && !(0..self.plan().actives()).any(|active| self.may_drop(state, active))
    }
}

/// A list of calls that is watched for request (n): "Suppose from some READ on .. With N packets ..
/// then in queues, wires .., the network is empty after at most 256 × S × N rounds."
#[derive(Clone, Debug, Default)]
pub struct Deadline {
    /// The whole rounds so far.
    rounds: usize,
    /// The round by whose start the network is to be empty; none while the program does not wait.
    empty_by: Option<usize>,
    /// How many times the network was to be empty, and was.
    pub met: usize,
}

impl Deadline {
    /// After a call: what it was given, what it said, what it left. An error where a deadline is
    /// passed, or where Remaining says something else.
    pub fn after(
        &mut self,
        network: &Network,
        (call, answer): (Call, Result<Answer, u32>),
        [before, state]: [&State; 2],
    ) -> Result<(), String> {
        let accepted = answer.is_ok();
        if call == Call::Remaining && accepted {
            told(network, answer, [before, state])?;
        }
        let adds = matches!(call, Call::Launch { .. } | Call::Close { .. });
        let ends = call == Call::Write;
        if accepted && (adds || ends && !network.all_have_acted(before)) {
            self.empty_by = None;
        }
        self.rounds += usize::from(accepted && ends);
        if state.phase == Phase::Read && accepted && (adds || ends) {
            self.in_read(network, state)?;
        }
        Ok(())
    }

    /// In READ a new deadline begins, and the one before is kept where it comes first.
    fn in_read(&mut self, network: &Network, state: &State) -> Result<(), String> {
        let packets = network.packets(state).count();
        let due = self.empty_by.is_some_and(|round| round <= self.rounds);
        if due && packets > 0 {
            return Err(format!("{packets} packets are under way past their deadline"));
        }
        self.met += usize::from(due);
        let new = self.rounds + FOR_EACH * network.slots() * packets;
        self.empty_by = Some(self.empty_by.map_or(new, |round| round.min(new)));
        Ok(())
    }
}

/// Remaining changes nothing and gives the packets in queues and on wires, with 256 × S rounds for each.
fn told(
    network: &Network,
    answer: Result<Answer, u32>,
    [before, state]: [&State; 2],
) -> Result<(), String> {
    let queued: usize = before.queues.iter().map(|queue| queue.len()).sum();
    let packets = queued + before.wires.iter().flatten().count();
    let rounds = packets * network.slots() * 256;
    let right = answer == Ok(Answer::Remaining(Remaining { packets, rounds })) && before == state;
    right.then_some(()).ok_or_else(|| format!("Remaining gave {answer:?}, not {packets} packets"))
}
