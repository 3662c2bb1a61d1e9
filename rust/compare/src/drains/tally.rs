//! What drains needed.

use std::fmt;

use model::Queue;

use super::net::Net;

/// The rounds that a network needed from a READ on until it was empty, its slots and N there.
#[derive(Clone, Copy, Debug, Default, PartialEq, Eq)]
pub struct Needed {
    /// Rounds.
    pub rounds: usize,
    /// S.
    pub slots: usize,
    /// N.
    pub packets: usize,
}

impl Needed {
    /// The rounds for each S × N.
    pub fn share(&self) -> f64 {
        self.rounds as f64 / (self.slots * self.packets).max(1) as f64
    }
}

/// A queue by the number of its interface.
type Numbered = fn(usize) -> Queue;

/// All drains.
#[derive(Clone, Copy, Debug, Default)]
pub struct Drains {
    /// From states that a list of calls reached, from slow lines, and from states that no list need reach.
    pub listed: usize,
    /// See there.
    pub slow: usize,
    /// See there.
    pub elsewhere: usize,
    /// Rounds of all drains: from each READ on the way the claim was looked at.
    pub rounds: usize,
    /// Of all these READs the most rounds for S × N that were needed.
    pub most: Needed,
    /// The same of the READs at which drains from lists began.
    pub most_listed: Needed,
    /// The most packets that were under way when a program began to wait.
    pub packets: usize,
    /// Full queues when drains from lists began: in-queues and out-queues of actives, of passives.
    pub full: [usize; 4],
    /// Drains that ended with accepted connections.
    pub tables: usize,
    /// How often a call from a state that no list reaches had parted connections from the table.
    pub parted: usize,
    /// Drains on plans that cross, and on plans of 16 routers.
    pub crossing: usize,
    /// See there.
    pub sixteen: usize,
}

impl Drains {
    /// Which queues of interfaces are full when the waiting begins.
    pub(super) fn note_queues(&mut self, net: &Net) {
        let (actives, passives) = (net.network.plan().actives(), net.network.plan().passives());
        let queues: [(usize, Numbered); 4] = [
            (actives, Queue::ActiveIn),
            (actives, Queue::ActiveOut),
            (passives, Queue::PassiveIn),
            (passives, Queue::PassiveOut),
        ];
        for (full, (count, queue)) in self.full.iter_mut().zip(queues) {
            *full += (0..count).filter(|&number| net.is_full(queue(number))).count();
        }
    }

    /// N at the READ where a drain from a list began.
    pub(super) fn note_first(&mut self, net: &Net, packets: usize, rounds: usize) {
        keep(&mut self.most_listed, Needed { rounds, slots: net.network.slots(), packets });
    }

    /// N at each READ of a drain.
    pub(super) fn note_counts(&mut self, net: &Net, counts: &[usize]) {
        let (slots, plan) = (net.network.slots(), net.network.plan());
        if counts.is_empty() {
            return;
        }
        self.rounds += counts.len();
        self.packets = self.packets.max(counts[0]);
        self.crossing += usize::from(plan.is_crossing());
        self.sixteen += usize::from(plan.routers() == 16);
        for (round, &packets) in counts.iter().enumerate() {
            keep(&mut self.most, Needed { rounds: counts.len() - round, slots, packets });
        }
    }
}

fn keep(most: &mut Needed, needed: Needed) {
    if needed.share() > most.share() {
        *most = needed;
    }
}

impl fmt::Display for Drains {
    fn fmt(&self, f: &mut fmt::Formatter) -> fmt::Result {
        let Drains { listed, slow, elsewhere, rounds, packets, tables, parted, .. } = self;
        let drains = listed + slow + elsewhere;
        writeln!(f, "{drains} drains in {rounds} rounds, at most {packets} packets under way")?;
        write!(
            f,
            "{listed} from lists, {slow} on slow lines, {elsewhere} from states that no list "
        )?;
        writeln!(f, "reaches ({parted} times connections were parted from the table)")?;
        writeln!(f, "{} on crossing plans, {} on 16 routers", self.crossing, self.sixteen)?;
        let [active_in, active_out, passive_in, passive_out] = self.full;
        write!(
            f,
            "full when the waiting began: {active_in} in-queues and {active_out} out-queues "
        )?;
        writeln!(f, "of actives, {passive_in} and {passive_out} of passives")?;
        writeln!(f, "{tables} ended with accepted connections, the table theirs alone")?;
        for (what, needed) in [("", self.most), (" where a list ended", self.most_listed)] {
            let Needed { rounds, slots, packets } = needed;
            write!(f, "most rounds needed{what}: {:.1} of S x N, ", needed.share())?;
            write!(f, "{:.4} of 256 x S x N ", needed.share() / 256.0)?;
            writeln!(f, "({rounds} rounds, S={slots}, N={packets})")?;
        }
        Ok(())
    }
}
