//! A recording: the lines of a run's calls, and all that the page must know beside them.

use trace::run::letter;
use trace::{Answer, Call, Connection, Entry, Kind, Packet, Plan, Remaining, Run, Step};

use crate::changes;
use crate::check;
use crate::places::Places;
use crate::seen::Seen;

/// The format of the data, with its number. A page refuses every number but its own.
pub const FORMAT: &str = "pandabrass-run/4";

/// A run as the page needs it.
#[derive(Clone, Debug)]
pub struct Recording {
    pub(crate) title: String,
    pub(crate) note: String,
    pub(crate) plan: Plan,
    pub(crate) places: Places,
    pub(crate) start: String,
    pub(crate) connections: Vec<Connection>,
    lines: Vec<String>,
    last: Seen,
}

impl Recording {
    /// Begins a recording with the state that a run is in, which is the one after Start.
    pub fn start(run: &Run, title: &str, note: &str) -> Recording {
        assert_eq!(run.calls_made(), 0, "a recording begins with Start");
        let places = Places::of(run.plan());
        let last = Seen::of(run, &places);
        Recording {
            title: title.to_string(),
            note: note.to_string(),
            plan: run.plan().clone(),
            start: check::sum(&last.text(&places)),
            places,
            connections: Vec::new(),
            lines: Vec::new(),
            last,
        }
    }

    /// Records a step; `run` is as the step left it.
    pub fn push(&mut self, step: &Step, run: &Run) {
        let seen = Seen::of(run, &self.places);
        let mut line = format!("{} {}", call_text(step), check::sum(&seen.text(&self.places)));
        for token in changes::tokens(&self.last, &seen, run, &self.places) {
            line.push(' ');
            line.push_str(&token);
        }
        self.lines.push(line);
        self.last = seen;
        let told = &run.book().connections;
        self.connections.extend_from_slice(&told[self.connections.len()..]);
    }

    /// The lines recorded so far, one for each call.
    pub fn lines(&self) -> &[String] {
        &self.lines
    }

    /// The letters of the connections, in the order of their first launch.
    pub(crate) fn letters(&self) -> impl Iterator<Item = (Connection, String)> + '_ {
        self.connections.iter().enumerate().map(|(number, &told)| (told, letter(number)))
    }
}

/// A call with its refusal or its answer: the first part of a line. A call that is added to the
/// library is one arm here.
fn call_text(step: &Step) -> String {
    let call = match step.call {
        Call::Read => "R".to_string(),
        Call::Execute => "X".to_string(),
        Call::Write => "W".to_string(),
        Call::Launch { active, passive, slot } => format!("L{active},{passive},{slot}"),
        Call::Close { active, passive, slot } => format!("K{active},{passive},{slot}"),
        Call::Reply { passive, choice } => format!("P{passive},{choice}"),
        Call::Look { active } => format!("H{active}"),
        Call::Drop { active } => format!("D{active}"),
        Call::Entry { router, side, slot } => format!("E{router},{side},{slot}"),
        Call::Remaining => "N".to_string(),
    };
    match step.answer {
        Err(refusal) => format!("{call}!{}", refusal.number()),
        Ok(Answer::Done) => call,
        Ok(Answer::Entry(entry)) => format!("{call}={}", entry_number(entry)),
        Ok(Answer::Remaining(Remaining { packets, rounds })) => {
            format!("{call}={packets},{rounds}")
        }
        Ok(Answer::Packet(Packet { kind, active, passive, slot, hub })) => {
            format!("{call}={},{active},{passive},{slot},{hub}", kind_letter(kind))
        }
    }
}

/// The letter of a packet's kind.
pub(crate) fn kind_letter(kind: Kind) -> char {
    match kind {
        Kind::Setup => 'S',
        Kind::Tdown => 'T',
        Kind::Ack => 'A',
        Kind::Nack => 'N',
    }
}

/// "The entry, 4 for free."
pub(crate) fn entry_number(entry: Entry) -> u8 {
    match entry {
        Entry::Free => 4,
        Entry::Booked(side) => side,
    }
}
