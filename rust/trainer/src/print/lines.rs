//! One line a call, with its answer in words.

use trace::{words, Refusal, Run, Step};

use super::{table, whereabouts, wrap, Colour, Paint};
use crate::play::{Teller, Waited};
use crate::script::{Script, Statement};

/// The column at which a call's answer begins.
const ANSWER: usize = 44;

/// Writes a run's lines to a text.
#[derive(Debug, Default)]
pub struct Lines {
    /// What was written.
    pub text: String,
    paint: Paint,
    brief: bool,
    skipped: usize,
    moved: bool,
}

impl Lines {
    /// Every call, or in brief those that do more than move packets.
    pub fn new(brief: bool, paint: Paint) -> Lines {
        Lines { brief, paint, ..Lines::default() }
    }

    /// Says how many calls were left out.
    pub fn flush(&mut self) {
        if self.skipped > 0 {
            self.text += &skipped(self.skipped, self.moved, self.paint);
            (self.skipped, self.moved) = (0, false);
        }
    }
}

/// How many calls are left out, and whether packets moved in them.
pub fn skipped(calls: usize, moved: bool, paint: Paint) -> String {
    let what = if moved { "packets only move" } else { "nothing happens" };
    let line = format!("      ..  {}: {what}", trace::plan::count(calls, "call"));
    format!("{}\n", paint.text(Colour::Dim, &line))
}

/// One call's line.
pub fn line(run: &Run, step: &Step, paint: Paint) -> String {
    let call = words::call(run.plan().names(), step.call);
    let phase = step.phase.name();
    let head = format!("{:4}  r{:<3}{phase:<8}s{:<3}", step.number, step.round, step.slot);
    let head = format!("{head}{call:<21} ");
    let answer = words::step(run, step);
    let answer = wrap(&answer, ANSWER, head.chars().count());
    format!("{head}{}\n", coloured(step, &answer, paint))
}

/// Refusals and what is left behind stand out.
fn coloured(step: &Step, answer: &str, paint: Paint) -> String {
    let colour = match () {
        () if step.answer.is_err() || answer.contains("DECLINES") => Colour::Red,
        () if answer.contains("ACCEPTED") => Colour::Green,
        () if answer.contains("FREES") || answer.contains("TEAR-DOWN") => Colour::Yellow,
        () if answer.contains("WAITS") => Colour::Yellow,
        () => return answer.to_string(),
    };
    paint.text(colour, answer)
}

impl Teller for Lines {
    fn step(&mut self, run: &Run, step: &Step) {
        if self.brief && !words::is_notable(step) {
            self.skipped += 1;
            self.moved |= !step.events.is_empty();
            return;
        }
        self.flush();
        self.text += &line(run, step, self.paint);
    }

    fn expected(&mut self, script: &Script, statement: &Statement, found: Option<&str>) {
        self.flush();
        let what = statement.text.trim_start_matches("expect ");
        let line = match found {
            None => {
                let text = wrap(&format!("as expected: {what}"), 8, 6);
                self.paint.text(Colour::Green, &format!("      {text}"))
            }
            Some(found) => {
                let place = format!("  {}:{}: ", script.source.name, statement.at);
                let text = format!("NOT AS EXPECTED: {}; found {found}", statement.text);
                let text = wrap(&text, 6, place.chars().count());
                self.paint.text(Colour::Red, &format!("{place}{text}"))
            }
        };
        self.text += &format!("{line}\n");
    }

    fn surprise(&mut self, script: &Script, statement: &Statement, refusal: Refusal) {
        self.flush();
        let place = format!("  {}:{}: ", script.source.name, statement.at);
        let text = format!("NOT EXPECTED TO BE REFUSED: {}", statement.text);
        let hint = format!("(write 'expect refused {}' after it)", refusal.number());
        let text = wrap(&format!("{text} {hint}"), 6, place.chars().count());
        self.text += &format!("{}\n", self.paint.text(Colour::Red, &format!("{place}{text}")));
    }

    fn table(&mut self, run: &Run) {
        self.flush();
        self.text += &table::text(run, self.paint);
    }

    fn whereabouts(&mut self, run: &Run) {
        self.flush();
        self.text += &whereabouts::text(run, self.paint);
    }

    fn waited(&mut self, script: &Script, statement: &Statement, waited: &Waited) {
        if waited.left.is_none() {
            return self.note(&waited.words());
        }
        self.flush();
        let place = format!("  {}:{}: ", script.source.name, statement.at);
        let text = wrap(&waited.words(), 6, place.chars().count());
        self.text += &format!("{}\n", self.paint.text(Colour::Red, &format!("{place}{text}")));
    }

    fn note(&mut self, text: &str) {
        self.flush();
        self.text += &format!("      {}\n", wrap(text, 6, 6));
    }
}
