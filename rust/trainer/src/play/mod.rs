//! Plays a script: makes its calls, lets passives and actives act, and looks at what is expected.

mod block;
pub mod deals;
mod expect;
mod standing;
mod teller;
mod waiting;

pub use block::{Deal, Outcome, Result as Played, Stopper};
pub use teller::{Silent, Teller};
pub use waiting::Waited;

use trace::net::Phase;
use trace::{Call, Calls, Entry, Run, Step};

use crate::script::{Deed, Expected, Script, Statement};
use crate::text::Mistake;

/// A script that is being played. A clone goes on by itself.
#[derive(Clone)]
pub struct Player<'s> {
    script: &'s Script,
    /// The run.
    pub run: Run<'s>,
    passives: Vec<Option<u32>>,
    actives: Vec<bool>,
    last: Option<Step>,
    next: usize,
    blocks: usize,
    /// What became of the calls in blocks, block by block.
    pub outcomes: Vec<Vec<(usize, Outcome)>>,
    /// How many expectations were looked at.
    pub checked: usize,
    /// How many of them are not so.
    pub failed: usize,
    /// How many calls were refused without being expected to be.
    pub surprises: usize,
    /// Rounds in a row in which nobody moved or acted.
    still: usize,
    /// Where a wait began, if no call was made since it ended.
    waited_from: Option<Run<'s>>,
}

impl<'s> Player<'s> {
    /// Before the first statement.
    pub fn new(script: &'s Script, calls: &'s dyn Calls) -> Player<'s> {
        Player {
            script,
            run: Run::new(&script.plan, calls),
            passives: vec![None; script.plan.passives()],
            actives: vec![false; script.plan.actives()],
            last: None,
            next: 0,
            blocks: 0,
            outcomes: Vec::new(),
            checked: 0,
            failed: 0,
            surprises: 0,
            still: 0,
            waited_from: None,
        }
    }

    /// Whether all was as expected.
    pub fn is_fine(&self) -> bool {
        self.failed == 0 && self.surprises == 0
    }

    /// Plays up to the next block of calls in any order, or to the end.
    pub fn play_to_block(&mut self, teller: &mut dyn Teller) -> Result<(), Mistake> {
        while let Some(statement) = self.script.statements.get(self.next) {
            if matches!(statement.deed, Deed::AnyOrder(_)) {
                break;
            }
            self.next += 1;
            self.play_statement(statement, teller)?;
        }
        Ok(())
    }

    /// Plays to the end, each block as it is dealt; as it is written where no deal is given.
    pub fn play(&mut self, deals: &[Deal], teller: &mut dyn Teller) -> Result<(), Mistake> {
        loop {
            self.play_to_block(teller)?;
            let Some(statement) = self.script.statements.get(self.next) else { return Ok(()) };
            self.next += 1;
            if let Deed::AnyOrder(block) = &statement.deed {
                let deal = deals.get(self.blocks).cloned().unwrap_or_else(|| Deal::written(block));
                self.blocks += 1;
                self.play_block(block, &deal, teller);
            }
        }
    }

    fn play_statement(
        &mut self,
        statement: &'s Statement,
        teller: &mut dyn Teller,
    ) -> Result<(), Mistake> {
        match &statement.deed {
            Deed::Call(call) => {
                let step = self.call(*call, teller);
                self.look_for_surprise(statement, &step, teller);
            }
            Deed::Rounds(rounds) => {
                self.needs_read(statement)?;
                (0..*rounds).for_each(|_| self.round(teller));
            }
            Deed::UntilRound(round) => self.until_round(statement, *round, teller)?,
            Deed::UntilQuiet(rounds) => self.until_quiet(*rounds, teller),
            Deed::Wait => self.wait(statement, teller)?,
            Deed::ToPhase(phase) => {
                while self.run.net().phase != *phase {
                    self.next_phase(teller);
                }
            }
            Deed::Passive(who, does) => standing::set(&mut self.passives, *who, *does),
            Deed::Active(who, does) => standing::set(&mut self.actives, *who, *does),
            Deed::AnyOrder(_) => {}
            Deed::ShowTable => teller.table(&self.run),
            Deed::ShowWhere => teller.whereabouts(&self.run),
            Deed::Expect(expected) => {
                let found = match expected {
                    Expected::EmptyWithin(rounds) => self.not_empty_within(*rounds),
                    _ => expect::find(&self.run, self.last.as_ref(), expected),
                };
                self.checked += 1;
                self.failed += usize::from(found.is_some());
                teller.expected(self.script, statement, found.as_deref());
            }
        }
        Ok(())
    }

    /// A refusal that the next statement does not look at.
    fn look_for_surprise(&mut self, at: &Statement, step: &Step, teller: &mut dyn Teller) {
        let next = self.script.statements.get(self.next).map(|statement| &statement.deed);
        let looked_at = matches!(
            next,
            Some(Deed::Expect(
                Expected::Accepted
                    | Expected::Refused(_)
                    | Expected::Packet(..)
                    | Expected::Entry(_)
                    | Expected::Remaining(_)
            ))
        );
        if let (Err(refusal), false) = (step.answer, looked_at) {
            self.surprises += 1;
            teller.surprise(self.script, at, refusal);
        }
    }

    fn call(&mut self, call: Call, teller: &mut dyn Teller) -> Step {
        let step = self.run.call(call);
        self.waited_from = None;
        teller.step(&self.run, &step);
        let turns = matches!(call, Call::Read | Call::Execute | Call::Write);
        if step.answer.is_ok() && (!turns || step.events.iter().any(moves)) {
            self.still = 0;
        }
        if call == Call::Write && step.answer.is_ok() {
            self.still += 1;
        }
        self.last = Some(step.clone());
        step
    }

    fn needs_read(&self, statement: &Statement) -> Result<(), Mistake> {
        let phase = self.run.net().phase;
        if phase == Phase::Read {
            return Ok(());
        }
        let message = format!("a whole round starts in READ; the phase is {}", phase.name());
        Err(Mistake::new(statement.at, message))
    }

    /// One whole round from READ on, or what is left of one.
    fn round(&mut self, teller: &mut dyn Teller) {
        loop {
            self.next_phase(teller);
            if self.run.net().phase == Phase::Read {
                return;
            }
        }
    }

    /// Read, Execute or Write; before a Write, standing passives and then actives act.
    fn next_phase(&mut self, teller: &mut dyn Teller) {
        match self.run.net().phase {
            Phase::Read => self.call(Call::Read, teller),
            Phase::Execute => self.call(Call::Execute, teller),
            Phase::Write => {
                self.act(teller);
                self.call(Call::Write, teller)
            }
        };
    }

    fn until_round(
        &mut self,
        statement: &Statement,
        round: usize,
        teller: &mut dyn Teller,
    ) -> Result<(), Mistake> {
        let now = self.run.round();
        if now > round || (now == round && self.run.net().phase != Phase::Read) {
            let message = format!("the start of round {round} has passed; it is round {now}");
            return Err(Mistake::new(statement.at, message));
        }
        while self.run.round() < round {
            self.next_phase(teller);
        }
        Ok(())
    }

    /// Up to an empty network; ends too when nobody has moved or acted for S rounds, since then
    /// nobody ever will.
    fn until_quiet(&mut self, rounds: usize, teller: &mut dyn Teller) {
        let end = self.run.round() + rounds;
        self.still = 0;
        while !self.is_quiet() && self.run.round() < end {
            if self.is_stuck() {
                let rounds = self.still;
                teller.note(&format!("nobody moved or acted for {rounds} rounds: nobody will"));
                return;
            }
            self.next_phase(teller);
        }
        if !self.is_quiet() {
            teller.note(&format!("not quiet after {rounds} rounds"));
        }
    }

    fn is_quiet(&self) -> bool {
        self.run.net().phase == Phase::Read && self.run.net().is_empty()
    }

    /// Whether S whole rounds have passed with nobody moved; the one they began in may be cut.
    fn is_stuck(&self) -> bool {
        self.run.net().phase == Phase::Read && self.still > self.run.plan().slots()
    }
}

/// Whether a packet changed its place or itself.
fn moves(event: &trace::Event) -> bool {
    !matches!(event, trace::Event::Waits { .. })
}

/// An entry in words.
pub fn entry_words(entry: Entry) -> String {
    match entry {
        Entry::Free => "free".to_string(),
        Entry::Booked(side) => format!("side {side}"),
    }
}
