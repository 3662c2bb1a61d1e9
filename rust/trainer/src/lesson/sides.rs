//! Two played scripts side by side: what both have, where they part, and what each goes on to.

use trace::place::SIDES;
use trace::run::Cell;
use trace::{words, Call, Event, Net, Plan, Port, Step};

use super::notes::{Note, Notes};
use crate::print::{lines, table, whereabouts, Colour, Paint};

/// The widths of the first column and of the two others.
const WHEN: usize = 12;
const SIDE: usize = 42;

/// The whole comparison.
pub fn text(right: &Notes, wrong: &Notes, headings: [String; 2], paint: Paint) -> String {
    let parting = parting(right, wrong);
    let mut text = common(&right.notes[..parting], paint);
    if parting == right.notes.len() && parting == wrong.notes.len() {
        return text + "The two do not part.\n";
    }
    let line = format!("-- here they part {}", "-".repeat(WHEN + 2 * SIDE + 4 - 19));
    text += &format!("{}\n", paint.text(Colour::Bold, &line));
    text += &row("", &headings[0], &headings[1], paint);
    let (one, other) = difference(right, wrong, parting);
    text += &row("they differ", &one, &other, paint);
    text += &columns(&right.notes[parting..], &wrong.notes[parting..], paint);
    for (notes, side) in [(right, 0), (wrong, 1)] {
        for said in &notes.said {
            let cells = if side == 0 { (said.as_str(), "") } else { ("", said.as_str()) };
            text += &row("at the end", cells.0, cells.1, paint);
        }
    }
    text += &expected(right, wrong, paint);
    for (notes, heading) in [(right, &headings[0]), (wrong, &headings[1])] {
        text += &format!("\n{}\n", paint.text(Colour::Bold, heading));
        text += &table::text(&notes.player.run, paint);
    }
    text
}

/// The first call that differs, in itself, in its answer or in the state after it.
pub fn parting(right: &Notes, wrong: &Notes) -> usize {
    let same = |one: &Note, other: &Note| {
        (one.step.call, one.step.answer) == (other.step.call, other.step.answer)
            && one.bytes == other.bytes
    };
    let pairs = right.notes.iter().zip(&wrong.notes);
    pairs.take_while(|(one, other)| same(one, other)).count()
}

/// The first thing in which the two differ at their parting, as each has it.
fn difference(right: &Notes, wrong: &Notes, parting: usize) -> (String, String) {
    let (Some(one), Some(other)) = (right.notes.get(parting), wrong.notes.get(parting)) else {
        return ("makes another call".to_string(), "makes another call".to_string());
    };
    let plan = right.player.run.plan();
    if one.step.call != other.step.call {
        let call = |note: &Note| words::call(plan.names(), note.step.call);
        return (call(one), call(other));
    }
    let told = (facts(plan, &one.net), facts(plan, &other.net));
    let differ = told.0.into_iter().zip(told.1).find(|(one, other)| one != other);
    differ.unwrap_or_else(|| ("the answer".to_string(), "the answer".to_string()))
}

/// What a state holds, thing by thing: the entries, the allowances, the packets, the credits, the
/// accepted connections, whom the outputs pick and whom they served last.
fn facts(plan: &Plan, net: &Net) -> Vec<String> {
    let names = plan.names();
    let sides = (0..plan.routers()).flat_map(|router| (0..SIDES).map(move |s| (router, s)));
    let mut facts = Vec::new();
    for (router, side) in sides {
        let port = Port { router, side };
        for slot in 0..plan.slots() {
            let entry = crate::play::entry_words(net.entry(port, slot));
            facts.push(format!("{}: {entry}", words::cell(names, Cell { port, slot })));
        }
    }
    for (active, allowance) in net.allowances.iter().enumerate() {
        facts.push(format!("{}'s allowance: {allowance}", names.active(active)));
    }
    for (queue, row) in plan.queues().zip(&net.queues) {
        let packets: Vec<String> = row.packets.iter().map(words::packet).collect();
        let packets = if packets.is_empty() { "empty".to_string() } else { packets.join(", ") };
        facts.push(format!("{}: {packets}", names.queue_words(queue)));
        facts.push(format!("{}: credit {}", names.queue_words(queue), row.credit));
    }
    let accepted: Vec<String> =
        net.accepted.iter().map(|&connection| whereabouts::told(names, connection)).collect();
    facts.push(format!("accepted: {}", accepted.join(", ")));
    for (output, out) in plan.outputs().zip(&net.outputs) {
        let (words, senders) = (names.output_words(output), plan.senders(output));
        let picked = out.choice.map(|rank| names.queue(senders[rank]));
        facts.push(format!("{words}: picks {}", picked.unwrap_or("nobody".to_string())));
        let last = net.last_served(plan, output).map(|last| names.queue(last));
        facts.push(format!("{words}: {} went last", last.unwrap_or("nobody".to_string())));
    }
    facts
}

/// The calls that both have, in brief.
fn common(notes: &[Note], paint: Paint) -> String {
    let mut text = String::new();
    let quiet = |note: &Note| !words::is_notable(&note.step);
    let mut rest = notes;
    while let Some(note) = rest.first() {
        let skipped = rest.iter().take_while(|note| quiet(note)).count();
        if skipped == 0 {
            text += &note.line;
            rest = &rest[1..];
            continue;
        }
        let moved = rest[..skipped].iter().any(|note| !note.step.events.is_empty());
        text += &lines::skipped(skipped, moved, paint);
        rest = &rest[skipped..];
    }
    text
}

/// What each goes on to, round by round; an Execute that was told before is not told again.
fn columns(right: &[Note], wrong: &[Note], paint: Paint) -> String {
    let (right, wrong) = (told(right), told(wrong));
    let mut times: Vec<(usize, u8)> = right.iter().chain(&wrong).map(|(time, _)| *time).collect();
    times.sort_unstable();
    times.dedup();
    let mut text = String::new();
    for time in times {
        let cell = |side: &[((usize, u8), String)]| {
            let lines = side.iter().filter(|(at, _)| *at == time).map(|(_, told)| told.as_str());
            lines.collect::<Vec<_>>().join("\n")
        };
        let phase = ["READ", "EXECUTE", "WRITE"][usize::from(time.1)];
        text += &row(&format!("r{:<3}{phase}", time.0), &cell(&right), &cell(&wrong), paint);
    }
    text
}

/// Each notable call with its time: round and phase.
fn told(notes: &[Note]) -> Vec<((usize, u8), String)> {
    let mut told: Vec<((usize, u8), String)> = Vec::new();
    for (number, note) in notes.iter().enumerate() {
        let time = (note.step.round, note.step.phase as u8);
        let words = note.words.trim_start_matches("ok: ").to_string();
        let told_before = told.iter().any(|(_, before)| *before == words);
        let new = note.step.call != Call::Execute || !told_before;
        if (is_told(&note.step) || number == 0) && new {
            told.push((time, words));
        }
        for alarm in &note.alarms {
            told.push((time, format!("!! {alarm}")));
        }
    }
    told
}

/// Whether a call is told: it does more than move packets, or somebody must wait.
fn is_told(step: &Step) -> bool {
    let waits = |event: &Event| matches!(event, Event::Waits { .. });
    words::is_notable(step) || step.events.iter().any(waits)
}

/// Two cells beside each other, each broken into lines.
fn row(when: &str, left: &str, right: &str, paint: Paint) -> String {
    let (left, right) = (broken(left), broken(right));
    let mut text = String::new();
    for at in 0..left.len().max(right.len()).max(1) {
        let when = if at == 0 { when } else { "" };
        let empty = String::new();
        let (one, other) = (left.get(at).unwrap_or(&empty), right.get(at).unwrap_or(&empty));
        let alarm = |cell: &str| match cell.starts_with("!!") {
            true => paint.text(Colour::Red, cell),
            false => cell.to_string(),
        };
        let fill = SIDE.saturating_sub(one.chars().count());
        let line = format!("{when:WHEN$}{}{:fill$}  {}", alarm(one), "", alarm(other));
        text += &format!("{}\n", line.trim_end());
    }
    text
}

/// A cell's lines.
fn broken(cell: &str) -> Vec<String> {
    let mut lines: Vec<String> = Vec::new();
    for paragraph in cell.lines() {
        let mut line = String::new();
        for word in paragraph.split(' ') {
            let longer = line.chars().count() + 1 + word.chars().count();
            if !line.is_empty() && longer > SIDE {
                lines.push(std::mem::take(&mut line));
                line = format!("  {word}");
            } else {
                let blank = if line.is_empty() { "" } else { " " };
                line += &format!("{blank}{word}");
            }
        }
        lines.push(line);
    }
    lines
}

/// What the script expects, by both.
fn expected(right: &Notes, wrong: &Notes, paint: Paint) -> String {
    let mut text = String::new();
    for ((what, found), (_, other)) in right.expected.iter().zip(&wrong.expected) {
        let told = |found: &Option<String>| match found {
            None => "as expected".to_string(),
            Some(found) => format!("!! NOT SO: {found}"),
        };
        if text.is_empty() {
            text += "what the script expects\n";
        }
        text += &format!("   {what}\n");
        text += &row("", &told(found), &told(other), paint);
    }
    text
}
