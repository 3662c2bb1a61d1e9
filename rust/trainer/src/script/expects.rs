//! What a script expects.

use trace::{Connection, Kind, Queue};

use super::parse::Parser;
use super::Expected;
use crate::plan::text::port;
use crate::text::{quoted, At, Mistake};

/// What can be expected.
const WHAT: &str = "ok, refused, ack, nack, free, side, remaining, quiet, empty within, round, \
                    entry, allowance, accepted, not accepted, at, last, table";

/// The queues that share an output.
const SHARED: &str =
    "of ROUTER.U0 to U3 one went to the unit last, of .Q0 to Q3 one came from it last, \
                      of .F0set, .F0ans, .K10, .K20, .K30 one left by side 0";

/// What follows `expect`.
pub fn parse(parser: &mut Parser) -> Result<Expected, Mistake> {
    let word = parser.cursor.word("what is expected")?;
    Ok(match word.text {
        "ok" => Expected::Accepted,
        "refused" => Expected::Refused(parser.cursor.number("a refusal's number")?),
        "ack" => packet(parser, Kind::Ack)?,
        "nack" => packet(parser, Kind::Nack)?,
        "free" => Expected::Entry(None),
        "side" => Expected::Entry(Some(parser.cursor.number("a side")?)),
        "remaining" => Expected::Remaining(parser.cursor.number("a number of packets")?),
        "quiet" => Expected::Quiet,
        "empty" => {
            parser.cursor.keyword("within")?;
            Expected::EmptyWithin(parser.rounds()?)
        }
        "round" => Expected::Round(parser.cursor.number("a round")? as usize),
        "entry" => entry(parser)?,
        "allowance" => {
            let active = active(parser)?;
            Expected::Allowance(active, parser.cursor.number("an allowance")? as usize)
        }
        "accepted" => Expected::Connected(connection(parser)?, true),
        "not" => {
            parser.cursor.keyword("accepted")?;
            Expected::Connected(connection(parser)?, false)
        }
        "at" => at(parser)?,
        "last" => last(parser)?,
        "table" => table(parser)?,
        text => {
            return Err(Mistake::new(word.at, format!("nothing to expect named {}", quoted(text)))
                .note(format!("to expect: {WHAT}")))
        }
    })
}

/// "slot N hub N".
fn slot_and_hub(parser: &mut Parser) -> Result<(u32, u32), Mistake> {
    parser.cursor.keyword("slot")?;
    let slot = parser.cursor.number("a slot")?;
    parser.cursor.keyword("hub")?;
    Ok((slot, parser.cursor.number("a hub count")?))
}

fn packet(parser: &mut Parser, kind: Kind) -> Result<Expected, Mistake> {
    let (slot, hub) = slot_and_hub(parser)?;
    Ok(Expected::Packet(kind, slot, hub))
}

fn entry(parser: &mut Parser) -> Result<Expected, Mistake> {
    let word = parser.cursor.word("a side, as in r0.1")?;
    let port = port(parser.names, &word)?;
    let slot = slot(parser)?;
    let side = match parser.cursor.one_of(&["free", "side"])? {
        0 => None,
        _ => Some(parser.cursor.number("a side")?),
    };
    Ok(Expected::Table(port, slot, side))
}

/// A slot of the plan.
fn slot(parser: &mut Parser) -> Result<usize, Mistake> {
    let (at, slots) = (parser.cursor.peek().at, parser.plan.slots());
    let slot = parser.cursor.number("a slot")? as usize;
    if slot >= slots {
        return Err(Mistake::new(at, format!("no slot {slot}: the slots end at {}", slots - 1)));
    }
    Ok(slot)
}

/// An active of the plan.
fn active(parser: &mut Parser) -> Result<usize, Mistake> {
    let (at, count) = (parser.cursor.peek().at, parser.plan.actives());
    let active = parser.active()? as usize;
    in_range(active, count).map_err(|message| Mistake::new(at, message))
}

fn in_range(number: usize, count: usize) -> Result<usize, String> {
    let message = || format!("no number {number}: the numbers end at {}", count - 1);
    (number < count).then_some(number).ok_or_else(message)
}

/// "ACTIVE PASSIVE SLOT".
fn connection(parser: &mut Parser) -> Result<Connection, Mistake> {
    let active = active(parser)?;
    let at = parser.cursor.peek().at;
    let passive = parser.passive()? as usize;
    let passive = in_range(passive, parser.plan.passives());
    let passive = passive.map_err(|message| Mistake::new(at, message))?;
    Ok(Connection { active, passive, start: slot(parser)? })
}

/// A queue, as in "r0.F1set" or "drive.in", and where it stands.
fn queue(parser: &mut Parser) -> Result<(Queue, At), Mistake> {
    let word = parser.cursor.word("a queue, as in r0.F1set or drive.in")?;
    let queue = parser.names.find_queue(word.text).ok_or_else(|| {
        Mistake::new(word.at, format!("no queue {}", quoted(word.text))).note(
            "queues: ROUTER.U0 to U3, .Q0 to Q3, .F0set to F3set, .F0ans to F3ans, .K01 and so on; \
             ACTIVE.out, .in; PASSIVE.in, .out",
        )
    })?;
    Ok((queue, word.at))
}

/// "r0.K10": a queue that shares its output with others.
fn last(parser: &mut Parser) -> Result<Expected, Mistake> {
    let (queue, at) = queue(parser)?;
    match queue {
        Queue::U(_) | Queue::Q(_) | Queue::F(..) | Queue::K(..) => Ok(Expected::Last(queue)),
        _ => Err(Mistake::new(at, "a queue that shares no output has nothing to take turns with")
            .note(SHARED)),
    }
}

/// "r0.F1set setup slot 1 hub 1".
fn at(parser: &mut Parser) -> Result<Expected, Mistake> {
    let (queue, _) = queue(parser)?;
    let kinds = [Kind::Setup, Kind::Tdown, Kind::Ack, Kind::Nack];
    let kind = kinds[parser.cursor.one_of(&["setup", "tdown", "ack", "nack"])?];
    let (slot, hub) = slot_and_hub(parser)?;
    Ok(Expected::At(queue, kind, slot, hub))
}

/// "empty", or connections with commas between.
fn table(parser: &mut Parser) -> Result<Expected, Mistake> {
    if parser.cursor.takes("empty") {
        return Ok(Expected::TableOf(Vec::new()));
    }
    let mut connections = Vec::new();
    loop {
        let at = parser.cursor.peek().at;
        let connection = connection(parser)?;
        if parser.plan.served(connection.active, connection.passive).is_none() {
            return Err(Mistake::new(at, "this pair is not served, so it makes no entries"));
        }
        connections.push(connection);
        if !parser.cursor.takes(",") {
            return Ok(Expected::TableOf(connections));
        }
    }
}
