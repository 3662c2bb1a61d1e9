//! What happened in a step, as sentences.

mod telling;

use pandabrass::{Kind, Packet, Refusal, Remaining};

use crate::calls::Call;
use crate::names::Names;
use crate::plan::count;
use crate::run::{letter, Cell, Connection, Event, Hold, Owner, Run, Step, Wait};
use telling::Telling;

/// A packet's kind, as document 01 writes it.
pub fn kind(kind: Kind) -> &'static str {
    match kind {
        Kind::Setup => "SETUP",
        Kind::Tdown => "TDOWN",
        Kind::Ack => "ACK",
        Kind::Nack => "NACK",
    }
}

/// A kind's sign: + and - go to the passive, o and x come back.
pub fn sign(kind: Kind) -> char {
    match kind {
        Kind::Setup => '+',
        Kind::Tdown => '-',
        Kind::Ack => 'o',
        Kind::Nack => 'x',
    }
}

/// Kind, slot and hub: "ACK slot 1 hub 1".
pub fn packet(packet: &Packet) -> String {
    format!("{} slot {} hub {}", kind(packet.kind), packet.slot, packet.hub)
}

/// How an entry is held, in a word or two.
pub fn hold(hold: Hold) -> &'static str {
    match hold {
        Hold::UnderWay => "under way",
        Hold::Accepted => "accepted",
        Hold::Closing => "closed and being torn down",
        Hold::LeftBehind => "declined and left behind",
        Hold::TearingDown => "being torn down",
        Hold::Over => "declined and left for good",
    }
}

/// What is under way: "3 packets under way: wait at most 3072 rounds".
pub fn remaining(remaining: Remaining) -> String {
    let Remaining { packets, rounds } = remaining;
    match packets {
        0 => "nothing under way".to_string(),
        _ => {
            format!("{} under way: wait at most {rounds} rounds", count(packets as usize, "packet"))
        }
    }
}

/// An entry by name: "r0.1 slot 3".
pub fn cell(names: &Names, cell: Cell) -> String {
    format!("{} slot {}", names.port(cell.port), cell.slot)
}

/// A call as a script writes it: "launch camera drive 0".
pub fn call(names: &Names, call: Call) -> String {
    let active = |number: u32| names.active(number as usize);
    let passive = |number: u32| names.passive(number as usize);
    match call {
        Call::Read => "read".to_string(),
        Call::Execute => "execute".to_string(),
        Call::Write => "write".to_string(),
        Call::Launch { active: a, passive: p, slot } => {
            format!("launch {} {} {slot}", active(a), passive(p))
        }
        Call::Close { active: a, passive: p, slot } => {
            format!("close {} {} {slot}", active(a), passive(p))
        }
        Call::Reply { passive: p, choice } => match choice {
            0 => format!("reply {} decline", passive(p)),
            1 => format!("reply {} accept", passive(p)),
            choice => format!("reply {} {choice}", passive(p)),
        },
        Call::Look { active: a } => format!("look {}", active(a)),
        Call::Drop { active: a } => format!("drop {}", active(a)),
        Call::Entry { router, side, slot } => {
            format!("entry {}.{side} {slot}", names.router(router as usize))
        }
        Call::Remaining => "remaining".to_string(),
    }
}

/// A step's answer and what it did, right after the call: "ok: picks A", "REFUSED 11: ..".
pub fn step(run: &Run, step: &Step) -> String {
    match step.answer {
        Err(refusal) => format!("REFUSED {}: {}", refusal.number(), refused(run, step, refusal)),
        Ok(answer) => format!("ok: {}", Telling::new(run).done(step, answer)),
    }
}

/// Whether a step did more than move packets: what a short account keeps.
pub fn is_notable(step: &Step) -> bool {
    let moves = |event: &Event| match event {
        Event::Moved { .. } | Event::Picked { .. } => true,
        Event::Waits { wait, .. } => !matches!(wait, Wait::Booked(_)),
        _ => false,
    };
    let asks = matches!(step.call, Call::Entry { .. } | Call::Remaining);
    step.answer.is_err() || asks || !step.events.iter().all(moves)
}

/// A refusal in the words of the case.
fn refused(run: &Run, step: &Step, refusal: Refusal) -> String {
    let names = run.plan().names();
    match (refusal, step.call) {
        (Refusal::WrongPhase, _) => format!("the phase is {}", step.phase.name()),
        (Refusal::NoAllowance, Call::Launch { .. }) => "allowance is spent".to_string(),
        (
            Refusal::NotServed,
            Call::Launch { active, passive, .. } | Call::Close { active, passive, .. },
        ) => format!(
            "pair {} -> {} is not served",
            names.active(active as usize),
            names.passive(passive as usize)
        ),
        (Refusal::NotAccepted, Call::Close { active, passive, slot }) => {
            let (active, passive) = (active as usize, passive as usize);
            let (from, to) = (names.active(active), names.passive(passive));
            let why = standing(run, Connection { active, passive, start: slot as usize });
            format!("{from} -> {to} from {slot} is not accepted: {why}")
        }
        (Refusal::QueueFull, _) => "out-queue is full".to_string(),
        (Refusal::QueueEmpty, _) => "in-queue is empty".to_string(),
        (Refusal::FlagUp, _) => "the in-queue's flag is up: one packet a round".to_string(),
        (Refusal::Unmarked, _) => {
            "the head is an unmarked NACK: its tear-down comes first".to_string()
        }
        (refusal, _) => refusal.sentence().to_string(),
    }
}

/// How a connection stands that is not accepted, by its last launch.
pub fn standing(run: &Run, connection: Connection) -> &'static str {
    let book = run.book();
    let number = book.connections.iter().position(|other| *other == connection);
    let last = number.and_then(|number| book.last_of(number)).map(|at| &book.launches[at]);
    match last {
        None => "it was never launched",
        Some(launch) if launch.closed => "it was closed",
        Some(launch) if launch.declined.is_some() => "it was declined",
        Some(launch) => match run.packet(launch.id).map(|seated| seated.packet.kind) {
            Some(Kind::Ack) => "its ACK is not dropped yet",
            Some(_) => "it is under way",
            // Only by a student's rule.
            None => "its ACK was dropped, and it was not accepted",
        },
    }
}

/// The letter of an owner's connection.
pub fn owner_letter(owner: Owner) -> String {
    letter(owner.connection)
}
