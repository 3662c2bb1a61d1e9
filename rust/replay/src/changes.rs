//! What a call changed, as the tokens of its line. A token that is added to the format is one
//! function here.

use std::collections::BTreeMap;

use trace::run::Id;
use trace::Run;

use crate::places::Places;
use crate::recording::kind_letter;
use crate::seen::{Seen, Standing};

/// All tokens that lead from what was seen before to what is seen after.
pub fn tokens(before: &Seen, after: &Seen, run: &Run, places: &Places) -> Vec<String> {
    let mut tokens = Vec::new();
    if before.phase != after.phase {
        tokens.push(format!("p{}", after.phase));
    }
    if before.slot != after.slot {
        tokens.push(format!("s{}", after.slot));
    }
    packets(before, after, run, &mut tokens);
    picks(before, after, &mut tokens);
    flags(before, after, &mut tokens);
    marks(before, after, places, &mut tokens);
    table(before, after, &mut tokens);
    for (active, (old, new)) in before.allowances.iter().zip(&after.allowances).enumerate() {
        if old != new {
            tokens.push(format!("a{active},{new}"));
        }
    }
    accepted(before, after, &mut tokens);
    served(before, after, &mut tokens);
    tokens
}

/// Packets that changed, moved, ended or were made, in this order.
fn packets(before: &Seen, after: &Seen, run: &Run, tokens: &mut Vec<String>) {
    let now: BTreeMap<usize, &Standing> = after.packets.iter().map(|one| (one.id, one)).collect();
    let old: BTreeMap<usize, &Standing> = before.packets.iter().map(|one| (one.id, one)).collect();
    let kept = old.values().filter_map(|one| Some((*one, *now.get(&one.id)?)));
    for (was, is) in kept.clone().filter(|(was, is)| was.packet != is.packet) {
        let (kind, slot, hub) = (kind_letter(is.packet.kind), is.packet.slot, is.packet.hub);
        tokens.push(format!("={},{kind},{slot},{hub}", base36(was.id)));
    }
    for (was, is) in kept.filter(|(was, is)| was.place != is.place) {
        let bound = is.bound.map(|queue| format!(",{}", base36(queue))).unwrap_or_default();
        tokens.push(format!(">{},{}{bound}", base36(was.id), base36(is.place)));
    }
    for one in old.values().filter(|one| !now.contains_key(&one.id)) {
        tokens.push(format!("-{}", base36(one.id)));
    }
    for one in now.values().filter(|one| !old.contains_key(&one.id)) {
        tokens.push(made(one, run));
    }
}

/// A packet that was made, with its connection, and a tear-down with the NACK it answers or with
/// the ACK whose connection it closes.
fn made(one: &Standing, run: &Run) -> String {
    let packet = one.packet;
    let parent = run.book().packets[one.id].parent;
    let parent = parent.map(|answer| format!(",{}", base36(answer.0))).unwrap_or_default();
    let connection = run.book().connection_of(Id(one.id));
    format!(
        "+{},{},{},{},{},{},{},{}{parent}",
        base36(one.id),
        kind_letter(packet.kind),
        packet.active,
        packet.passive,
        packet.slot,
        packet.hub,
        base36(one.place),
        base36(connection),
    )
}

/// Packets that were picked, or that the choices were cleared.
fn picks(before: &Seen, after: &Seen, tokens: &mut Vec<String>) {
    let cleared = before.picked.iter().any(|pick| !after.picked.contains(pick));
    if cleared {
        tokens.push("*".to_string());
    }
    for pick in after.picked.iter().filter(|pick| cleared || !before.picked.contains(pick)) {
        tokens.push(format!("*{}", base36(pick.1)));
    }
}

/// Flags that rose, or that all were lowered.
fn flags(before: &Seen, after: &Seen, tokens: &mut Vec<String>) {
    let both = || before.flags.iter().zip(&after.flags).enumerate();
    let lowered = both().any(|(_, (old, new))| *old && !*new);
    if lowered {
        tokens.push("_".to_string());
    }
    for (queue, (old, new)) in both() {
        if *new && (lowered || !*old) {
            tokens.push(format!("^{}", base36(queue)));
        }
    }
}

/// Handled marks.
fn marks(before: &Seen, after: &Seen, places: &Places, tokens: &mut Vec<String>) {
    for queue in 0..places.queues() {
        if before.handled[queue] != after.handled[queue] {
            tokens.push(format!("h{},{}", base36(queue), u8::from(after.handled[queue])));
        }
    }
}

/// Entries and their owners.
fn table(before: &Seen, after: &Seen, tokens: &mut Vec<String>) {
    for (entry, (old, new)) in before.table.iter().zip(&after.table).enumerate() {
        if old != new {
            tokens.push(format!("t{},{new}", base36(entry)));
        }
    }
    for (entry, (old, new)) in before.owners.iter().zip(&after.owners).enumerate() {
        match new {
            new if old == new => {}
            None => tokens.push(format!("o{}", base36(entry))),
            Some((set_up, hold)) => {
                tokens.push(format!("o{},{},{hold}", base36(entry), base36(*set_up)));
            }
        }
    }
}

/// Connections that are accepted now, and those that no longer are.
fn accepted(before: &Seen, after: &Seen, tokens: &mut Vec<String>) {
    for number in before.accepted.iter().filter(|number| !after.accepted.contains(number)) {
        tokens.push(format!("c{},0", base36(*number)));
    }
    for number in after.accepted.iter().filter(|number| !before.accepted.contains(number)) {
        tokens.push(format!("c{},1", base36(*number)));
    }
}

/// Outputs that served another sender than the last time.
fn served(before: &Seen, after: &Seen, tokens: &mut Vec<String>) {
    for (output, (old, new)) in before.last.iter().zip(&after.last).enumerate() {
        if old != new {
            tokens.push(format!("l{},{new}", base36(output)));
        }
    }
}

/// A number in base 36.
pub fn base36(mut number: usize) -> String {
    let mut signs = Vec::new();
    loop {
        signs.push(char::from_digit((number % 36) as u32, 36).expect("a digit below 36"));
        number /= 36;
        if number == 0 {
            return signs.into_iter().rev().collect();
        }
    }
}

#[cfg(test)]
mod tests {
    use super::base36;

    #[test]
    fn numbers_in_base_36() {
        let numbers = [(0, "0"), (35, "z"), (36, "10"), (1295, "zz"), (1296, "100")];
        for (number, text) in numbers {
            assert_eq!(base36(number), text);
        }
    }
}
