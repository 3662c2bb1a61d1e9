//! The program that waits before a wash, as document 02 (n) supposes it: rounds in which each passive
//! replies and each active drops where it can, and nothing is launched or closed. Between these stand
//! calls that only see, and calls that are refused.

use super::calls::stray;
use super::Random;
use crate::machine::{Call, Network, Phase, State};
use crate::refusal::NOT_A_STATE;

/// What a waiting program knows of the network.
pub trait Sight {
    /// The phase.
    fn phase(&self) -> Phase;

    /// Whether this call would be refused now, for another reason than 7.
    fn refuses(&self, call: Call) -> bool;

    /// Whether a Reply or a Drop is worth a call in this WRITE; one that is not would be refused.
    fn is_tried(&self, _act: Call) -> bool {
        true
    }
}

/// The model's own state is seen.
impl Sight for (&Network, &State) {
    fn phase(&self) -> Phase {
        self.1.phase
    }

    fn refuses(&self, call: Call) -> bool {
        let answer = self.0.call(&mut self.1.clone(), call);
        answer.is_err_and(|refusal| refusal != NOT_A_STATE)
    }
}

/// A program that waits, from a READ on. In each WRITE it makes a Reply of each passive, with any
/// choice, and a Drop of each active, in any order.
#[derive(Clone, Debug)]
pub struct Waiter {
    /// The Replies and Drops of this WRITE that are not made yet; none before its first one.
    acts: Option<Vec<Call>>,
    /// How many of 16 replies accept.
    accept: usize,
    /// How many of 16 calls are others than the program's own.
    other: usize,
}

impl Waiter {
    /// A program with some manners.
    pub fn new(random: &mut Random) -> Waiter {
        let accept = random.pick(&[0, 2, 8, 14, 16]).unwrap_or(8);
        Waiter { acts: None, accept, other: random.pick(&[0, 0, 1, 4]).unwrap_or(0) }
    }

    /// The next call.
    pub fn next(&mut self, random: &mut Random, network: &Network, sight: &dyn Sight) -> Call {
        if random.chance(self.other, 16) {
            if let Some(call) = idle(random, network, sight) {
                return call;
            }
        }
        match sight.phase() {
            Phase::Read => Call::Read,
            Phase::Execute => Call::Execute,
            Phase::Write => self.in_write(random, network, sight),
        }
    }

    fn in_write(&mut self, random: &mut Random, network: &Network, sight: &dyn Sight) -> Call {
        if self.acts.is_none() {
            self.acts = Some(self.all_acts(random, network, sight));
        }
        let act = self.acts.as_mut().and_then(Vec::pop);
        act.unwrap_or_else(|| {
            self.acts = None;
            Call::Write
        })
    }

    /// In any order.
    fn all_acts(&self, random: &mut Random, network: &Network, sight: &dyn Sight) -> Vec<Call> {
        let (actives, passives) = (network.plan().actives(), network.plan().passives());
        let mut acts: Vec<Call> = (0..actives).map(|active| Call::Drop { active }).collect();
        acts.extend((0..passives).map(|passive| Call::Reply {
            passive,
            choice: usize::from(random.chance(self.accept, 16)),
        }));
        acts.retain(|&act| sight.is_tried(act));
        for last in (1..acts.len()).rev() {
            acts.swap(last, random.below(last + 1));
        }
        acts
    }
}

/// A call that only sees, or any call that is refused.
fn idle(random: &mut Random, network: &Network, sight: &dyn Sight) -> Option<Call> {
    let call = stray(random, network);
    let sees = matches!(call, Call::Look { .. } | Call::Entry { .. } | Call::Remaining);
    (sees || sight.refuses(call)).then_some(call)
}
