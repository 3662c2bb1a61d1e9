//! Before a wash: everybody acts in every round, until nothing is under way.

use trace::plan::count;
use trace::{words, Answer, Call, Remaining, Run};

use super::{Player, Silent, Teller};
use crate::script::Statement;
use crate::text::Mistake;

/// Packets that are told by name; of more it is told how many.
const TOLD: usize = 3;

/// How a wait ended.
#[derive(Clone, Debug, PartialEq, Eq)]
pub struct Waited {
    /// What Remaining told before it.
    pub promised: Remaining,
    /// The rounds that it took.
    pub rounds: usize,
    /// What is still under way, which by the proved rules is nothing.
    pub left: Option<String>,
}

impl Waited {
    /// In a sentence.
    pub fn words(&self) -> String {
        let Remaining { packets, rounds: most } = self.promised;
        let rounds = count(self.rounds, "round");
        match &self.left {
            None if packets == 0 => {
                "nothing to wait for: every queue and wire is empty".to_string()
            }
            None => format!("waited {rounds} of at most {most}: every queue and wire is empty"),
            Some(left) => {
                format!("NOT EMPTY after {rounds} of the {most} that were promised: {left}")
            }
        }
    }
}

impl<'s> Player<'s> {
    /// Asks Remaining and makes whole rounds in which every passive replies and every active drops
    /// where it can, until the network is empty; never more than are promised.
    pub(super) fn wait(
        &mut self,
        statement: &'s Statement,
        teller: &mut dyn Teller,
    ) -> Result<(), Mistake> {
        self.needs_read(statement)?;
        let before = self.run.clone();
        let step = self.call(Call::Remaining, teller);
        let Ok(Answer::Remaining(promised)) = step.answer else {
            self.look_for_surprise(statement, &step, teller);
            return Ok(());
        };
        let rounds = self.all_act_until(promised.rounds as usize, teller);
        let left = (!self.is_quiet()).then(|| under_way(&self.run));
        self.failed += usize::from(left.is_some());
        self.waited_from = Some(before);
        teller.waited(self.script, statement, &Waited { promised, rounds, left });
        Ok(())
    }

    /// Rounds in which everybody acts, up to an empty network, and at most so many; ends too when
    /// nobody has moved or acted for S rounds, since then nobody ever will. How many it were.
    fn all_act_until(&mut self, most: usize, teller: &mut dyn Teller) -> usize {
        let standing = (self.passives.clone(), self.actives.clone());
        // Who has no orders accepts.
        self.passives.iter_mut().for_each(|choice| *choice = Some(choice.unwrap_or(1)));
        self.actives.fill(true);
        self.still = 0;
        let mut rounds = 0;
        while !self.run.net().is_empty() && rounds < most && !self.is_stuck() {
            self.round(teller);
            rounds += 1;
        }
        (self.passives, self.actives) = standing;
        rounds
    }

    /// What is there instead of an empty network after so many rounds in which everybody acts; tried
    /// on a copy from here on, or from where the wait began that has just ended.
    pub(super) fn not_empty_within(&self, rounds: usize) -> Option<String> {
        let from = self.waited_from.as_ref().unwrap_or(&self.run);
        let mut copy = Player { run: from.clone(), ..self.clone() };
        copy.all_act_until(rounds, &mut Silent);
        if copy.run.net().is_empty() {
            return None;
        }
        let left = under_way(&copy.run);
        // What is promised at a READ is kept from there on.
        let Ok(Answer::Remaining(promised)) = copy.run.call(Call::Remaining).answer else {
            return Some(left);
        };
        let more = copy.all_act_until(promised.rounds as usize, &mut Silent);
        Some(match copy.run.net().is_empty() {
            true => format!("it takes {}; after {rounds}, {left}", count(rounds + more, "round")),
            false => format!("it is never empty: {left}"),
        })
    }
}

/// "2 packets under way: NACK B in camera's in-queue, ..".
pub fn under_way(run: &Run) -> String {
    let (packets, names) = (run.packets(), run.plan().names());
    let told = packets.iter().take(TOLD).map(|seated| {
        let (kind, letter) = (words::kind(seated.packet.kind), run.letter(seated.id));
        format!("{kind} {letter} {}", names.place_words(seated.place))
    });
    let more = match packets.len().saturating_sub(TOLD) {
        0 => String::new(),
        more => format!(" and {more} more"),
    };
    let told = told.collect::<Vec<_>>().join(", ");
    format!("{} under way: {told}{more}", count(packets.len(), "packet"))
}
