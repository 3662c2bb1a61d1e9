//! How often each answer was met.

use std::fmt;

use model::machine::Call;

/// The calls by name; Start stands before those on a state.
const NAMES: [&str; 11] = [
    "Start",
    "Read",
    "Execute",
    "Write",
    "Launch",
    "Reply",
    "Look",
    "Drop",
    "Entry",
    "Close",
    "Remaining",
];
/// The rows of Look and of Drop, each with its own refusals in their order.
const OF_AN_ACTIVE: [(usize, &[usize]); 2] = [(LOOK, &[9, 13]), (DROP, &[8, 9, 14, 13, 15])];
const LOOK: usize = 6;
const DROP: usize = 7;
const REMAINING: usize = 10;
/// Accepted, and the refusals 1 to 16.
const ANSWERS: usize = 17;

/// By call and answer.
#[derive(Clone, Copy, Debug, Default, PartialEq, Eq)]
pub struct Tally {
    answers: [[usize; ANSWERS]; NAMES.len()],
    /// Plans, a list on each.
    pub plans: usize,
    /// Of these, how many were refused as rings before request (i): set-ups cross in them.
    pub crossing: usize,
    /// Calls in lists on these.
    pub crossed: usize,
    /// Calls in lists.
    pub listed: usize,
    /// Calls on changed bytes, and how many of these bytes were a state's.
    pub changed: usize,
    /// Of the changed bytes those that are still a state's.
    pub states: usize,
    /// The most packets that were under way at once.
    pub packets: usize,
    /// The most connections that were accepted at once.
    pub accepted: usize,
    /// How many outputs picked in lists while several senders were candidates.
    pub contested: usize,
    /// Of these, how many picked another than the first in order.
    pub turned: usize,
    /// Of the picks among several, how many were those of a unit's way back.
    pub contested_back: usize,
    /// How many times a unit handled heads of several sides in one Execute.
    pub together: usize,
    /// Remainings in lists that were accepted, by phase.
    pub remaining: [usize; 3],
    /// How many sides picked nobody, being booked, while several senders were candidates.
    pub skipped: usize,
}

impl Tally {
    /// Notes a Start.
    pub fn start(&mut self, answer: u32) {
        self.answers[0][answer as usize] += 1;
    }

    /// Notes a call on a state.
    pub fn call(&mut self, call: Call, answer: u32) {
        let row = match call {
            Call::Read => 1,
            Call::Execute => 2,
            Call::Write => 3,
            Call::Launch { .. } => 4,
            Call::Reply { .. } => 5,
            Call::Look { .. } => LOOK,
            Call::Drop { .. } => DROP,
            Call::Entry { .. } => 8,
            Call::Close { .. } => 9,
            Call::Remaining => REMAINING,
        };
        self.answers[row][answer as usize] += 1;
    }

    /// How often an answer was met, in all calls.
    pub fn met(&self, answer: usize) -> usize {
        self.answers.iter().map(|row| row[answer]).sum()
    }

    /// Adds another one.
    pub fn add(&mut self, other: &Tally) {
        for (row, more) in self.answers.iter_mut().zip(&other.answers) {
            row.iter_mut().zip(more).for_each(|(count, more)| *count += more);
        }
        self.plans += other.plans;
        self.crossing += other.crossing;
        self.crossed += other.crossed;
        self.listed += other.listed;
        self.changed += other.changed;
        self.states += other.states;
        self.packets = self.packets.max(other.packets);
        self.accepted = self.accepted.max(other.accepted);
        self.contested += other.contested;
        self.turned += other.turned;
        self.contested_back += other.contested_back;
        self.together += other.together;
        self.skipped += other.skipped;
        self.remaining.iter_mut().zip(other.remaining).for_each(|(count, more)| *count += more);
    }

    /// The refusals, 1 to 16, that were met less often than that.
    pub fn rarer_than(&self, least: usize) -> Vec<usize> {
        (1..ANSWERS).filter(|&answer| self.met(answer) < least).collect()
    }

    /// The refusals of Look and of Drop that these gave less often than that.
    pub fn rarer_of_an_active(&self, least: usize) -> Vec<(&'static str, usize)> {
        let each = OF_AN_ACTIVE.iter().flat_map(|&(row, refusals)| {
            let rare = refusals.iter().filter(move |&&refusal| self.answers[row][refusal] < least);
            rare.map(move |&refusal| (NAMES[row], refusal))
        });
        each.collect()
    }

    /// How often Remaining was accepted in lists, and how often it said 7.
    pub fn remainings(&self) -> [usize; 2] {
        [self.remaining.iter().sum(), self.answers[REMAINING][7]]
    }
}

impl fmt::Display for Tally {
    fn fmt(&self, f: &mut fmt::Formatter) -> fmt::Result {
        let Tally { plans, listed, changed, states, packets, accepted, .. } = self;
        let Tally { contested, turned, skipped, .. } = self;
        let Tally { crossing, crossed, contested_back, together, remaining, .. } = self;
        writeln!(f, "{plans} plans, {listed} calls in lists, {changed} on changed bytes")?;
        writeln!(f, "{crossing} plans crossing, {crossed} calls in lists on these")?;
        writeln!(f, "{states} changed bytes were a state's")?;
        writeln!(f, "most at once: {packets} packets, {accepted} accepted connections")?;
        write!(
            f,
            "{contested} picks among several candidates, {turned} not of the first in order; "
        )?;
        writeln!(f, "{skipped} times several waited at a booked side")?;
        write!(f, "{together} times a unit handled heads of several sides in one Execute, ")?;
        writeln!(f, "{contested_back} picks among several on the way back from a unit")?;
        let [read, execute, write] = remaining;
        write!(f, "Remaining accepted in lists: {read} times in READ, {execute} in EXECUTE, ")?;
        writeln!(f, "{write} in WRITE")?;
        write!(f, "{:>9}", "answer")?;
        (0..ANSWERS).try_for_each(|answer| write!(f, " {answer:>7}"))?;
        for (name, row) in NAMES.iter().zip(&self.answers) {
            write!(f, "\n{name:>9}")?;
            row.iter().try_for_each(|count| write!(f, " {count:>7}"))?;
        }
        write!(f, "\n{:>9}", "in all")?;
        (0..ANSWERS).try_for_each(|answer| write!(f, " {:>7}", self.met(answer)))
    }
}
