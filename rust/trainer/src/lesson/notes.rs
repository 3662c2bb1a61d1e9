//! What happened in a played script, call by call, with what must never be seen.

use trace::place::SIDES;
use trace::{words, Calls, Event, Hold, Net, Port, Run, Step};

use crate::play::{Deal, Player, Teller, Waited};
use crate::print::lines;
use crate::print::Paint;
use crate::script::{Script, Statement};

/// One call, taken down.
pub struct Note {
    /// The call.
    pub step: Step,
    /// Its line.
    pub line: String,
    /// What it did, in words.
    pub words: String,
    /// The state after it.
    pub bytes: Vec<u8>,
    /// The same, read.
    pub net: Net,
    /// What document 01 excludes and is seen for the first time.
    pub alarms: Vec<String>,
}

/// A played script.
pub struct Notes<'s> {
    /// The calls.
    pub notes: Vec<Note>,
    /// What was expected, and what was found instead if it is not so.
    pub expected: Vec<(String, Option<String>)>,
    /// Something said of the run.
    pub said: Vec<String>,
    /// The player at the end.
    pub player: Player<'s>,
}

/// Takes down what happens.
#[derive(Default)]
struct Taker {
    notes: Vec<Note>,
    expected: Vec<(String, Option<String>)>,
    said: Vec<String>,
    seen: Vec<String>,
}

/// Plays a script and takes down what happens.
pub fn take<'s>(script: &'s Script, calls: &'s dyn Calls, deals: &[Deal]) -> Notes<'s> {
    let mut player = Player::new(script, calls);
    let mut taker = Taker::default();
    if let Err(mistake) = player.play(deals, &mut taker) {
        taker.said.push(mistake.message);
    }
    let Taker { notes, expected, said, .. } = taker;
    Notes { notes, expected, said, player }
}

impl Teller for Taker {
    fn step(&mut self, run: &Run, step: &Step) {
        let alarms: Vec<String> =
            alarms(run, step).into_iter().filter(|alarm| !self.seen.contains(alarm)).collect();
        self.seen.extend(alarms.iter().cloned());
        self.notes.push(Note {
            step: step.clone(),
            line: lines::line(run, step, Paint::none()),
            words: words::step(run, step),
            bytes: run.bytes().to_vec(),
            net: run.net().clone(),
            alarms,
        });
    }

    fn expected(&mut self, _: &Script, statement: &Statement, found: Option<&str>) {
        let what = statement.text.trim_start_matches("expect ").to_string();
        self.expected.push((what, found.map(str::to_string)));
    }

    fn waited(&mut self, _: &Script, _: &Statement, waited: &Waited) {
        self.said.push(waited.words());
    }

    fn note(&mut self, text: &str) {
        self.said.push(text.to_string());
    }
}

/// What must never be seen: a queue over its capacity, a side with no free entry, an entry freed
/// that is another's, an entry that nobody will free.
fn alarms(run: &Run, step: &Step) -> Vec<String> {
    let (plan, net, names) = (run.plan(), run.net(), run.plan().names());
    let mut alarms = Vec::new();
    for (queue, row) in plan.queues().zip(&net.queues) {
        let capacity = plan.capacity(queue);
        if row.packets.len() > capacity {
            let (queue, held) = (names.queue_words(queue), row.packets.len());
            alarms.push(format!("{queue} HOLDS {held}, ITS CAPACITY IS {capacity}"));
        }
    }
    let sides = (0..plan.routers()).flat_map(|router| (0..SIDES).map(move |s| (router, s)));
    for (router, side) in sides {
        let port = Port { router, side };
        if net.free_entries(port) == 0 {
            alarms.push(format!("{} HAS NO FREE ENTRY", names.port(port)));
        }
    }
    for event in &step.events {
        if let Event::Freed { id, cell, owner: Some(owner), .. } = event {
            if owner.launch != run.book().packets[id.0].launch {
                let (entry, letter) = (words::cell(names, *cell), words::owner_letter(*owner));
                alarms.push(format!("{entry} IS FREED AND {letter} STILL COUNTS ON IT"));
            }
        }
    }
    let over = step.events.iter().any(|event| match event {
        Event::Freed { ended, .. } => *ended,
        Event::Dropped { .. } => true,
        _ => false,
    });
    for (cell, owner) in run.book().owned() {
        if over && owner.hold == Hold::Over {
            let entry = words::cell(names, cell);
            alarms.push(format!("{entry} IS BOOKED FOR NOBODY"));
        }
    }
    alarms
}
