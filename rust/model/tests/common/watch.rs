//! The runs that are evaluated in `crates/rules/proofs/Runs`: a list of calls, and what is told and
//! seen at some moments of it.

use model::machine::{Answer, Call, Packet};
use model::Queue;

use super::Run;

pub use model::machine::Call::{Execute, Read, Write};

/// A whole round, with no other call between its three.
pub const ROUND: [Call; 3] = [Read, Execute, Write];

/// So many whole rounds.
pub fn rounds(count: usize) -> Vec<Call> {
    ROUND.repeat(count)
}

/// A round up to its WRITE, and one call there.
pub fn in_write(call: Call) -> [Call; 3] {
    [Read, Execute, call]
}

pub fn launch(active: usize, passive: usize, slot: usize) -> Call {
    Call::Launch { active, passive, slot }
}

/// Launches of a pair, one for each slot.
pub fn launches(active: usize, passive: usize, slots: &[usize]) -> Vec<Call> {
    slots.iter().map(|&slot| launch(active, passive, slot)).collect()
}

pub fn reply(passive: usize, choice: usize) -> Call {
    Call::Reply { passive, choice }
}

pub fn look(active: usize) -> Call {
    Call::Look { active }
}

pub fn drop(active: usize) -> Call {
    Call::Drop { active }
}

/// One list of several.
pub fn calls(parts: &[&[Call]]) -> Vec<Call> {
    parts.concat()
}

/// A moment of a run.
#[derive(Clone, Debug, PartialEq, Eq)]
pub struct After {
    /// What is told of the calls up to it: the first answer that is not "done".
    pub told: Result<Answer, u32>,
    /// The numbers that are looked at.
    pub numbers: Vec<usize>,
    /// The queues that are looked at.
    pub queues: Vec<Vec<Packet>>,
}

fn after(told: Result<Answer, u32>, numbers: &[usize], queues: &[&[Packet]]) -> After {
    let queues = queues.iter().map(|queue| queue.to_vec()).collect();
    After { told, numbers: numbers.to_vec(), queues }
}

/// All calls are done.
pub fn done(numbers: &[usize], queues: &[&[Packet]]) -> After {
    after(Ok(Answer::Done), numbers, queues)
}

/// One is refused.
pub fn refused(number: u32, numbers: &[usize], queues: &[&[Packet]]) -> After {
    after(Err(number), numbers, queues)
}

/// One is a Look that returns this packet.
pub fn shows(packet: Packet, numbers: &[usize], queues: &[&[Packet]]) -> After {
    after(Ok(Answer::Packet(packet)), numbers, queues)
}

/// After each call of a round that is done and leaves all that is looked at as it was.
pub fn steady(numbers: &[usize], queues: &[&[Packet]]) -> Vec<After> {
    vec![done(numbers, queues); 3]
}

/// What is told of some calls.
fn told(run: &mut Run, calls: &[Call]) -> Result<Answer, u32> {
    let mut told = Ok(Answer::Done);
    for &call in calls {
        let answer = run.network.call(&mut run.state, call);
        if told == Ok(Answer::Done) {
            told = answer;
        }
    }
    told
}

/// A run from some state on: the calls up to each moment, and what is looked at there.
pub fn watching(
    run: &mut Run,
    numbers: impl Fn(&Run) -> Vec<usize>,
    queues: &[Queue],
    parts: &[Vec<Call>],
) -> Vec<After> {
    let mut moments = Vec::new();
    for calls in parts {
        let told = told(run, calls);
        let queues = queues.iter().map(|&queue| run.queue(queue)).collect();
        moments.push(After { told, numbers: numbers(run), queues });
    }
    moments
}

/// A run from Start.
pub fn moments(
    plan: &[u8],
    numbers: impl Fn(&Run) -> Vec<usize>,
    queues: &[Queue],
    parts: &[Vec<Call>],
) -> Vec<After> {
    watching(&mut Run::new(plan), numbers, queues, parts)
}

/// The calls of a run that is looked at after each of them.
pub fn one_by_one(calls: &[Call]) -> Vec<Vec<Call>> {
    calls.iter().map(|&call| vec![call]).collect()
}

/// Entries, 4 for free, as numbers that are looked at.
pub fn numbers(entries: &[u32]) -> Vec<usize> {
    entries.iter().map(|&entry| entry as usize).collect()
}

/// How many packets are in each of these queues.
pub fn lengths(run: &Run, queues: &[Queue]) -> Vec<usize> {
    queues.iter().map(|&queue| run.len(queue)).collect()
}

/// The credits of these queues.
pub fn credits(run: &Run, queues: &[Queue]) -> Vec<usize> {
    queues.iter().map(|&queue| run.credit(queue)).collect()
}
