//! Where every packet is, what is left of the allowances, which connections are accepted, and whose
//! turn it is where several senders wait.

use trace::run::{letter, Connection, Seated};
use trace::{words, Names, Output, Place, Queue, Run};

use super::{columns, wrap, Paint};

/// All of it.
pub fn text(run: &Run, paint: Paint) -> String {
    let (net, names) = (run.net(), run.plan().names());
    let mut text = super::heading("where is everything", run, paint);
    let rows: Vec<Vec<String>> = run.packets().iter().map(|seated| row(run, seated)).collect();
    if rows.is_empty() {
        text += "       every queue and wire is empty\n";
    }
    for line in columns(&rows) {
        text += &format!("       {line}\n");
    }
    let most = run.plan().start_allowance();
    let allowance =
        |(active, left): (usize, &usize)| format!("{} {left} of {most}", names.active(active));
    let allowances: Vec<String> = net.allowances.iter().enumerate().map(allowance).collect();
    let connections = &run.book().connections;
    let accepted =
        |&number: &usize| format!("{} {}", letter(number), told(names, connections[number]));
    let accepted: Vec<String> = run.book().accepted.iter().map(accepted).collect();
    text += &(listed("allowance", &allowances) + &listed("accepted", &accepted));
    for output in run.plan().outputs() {
        text += &turn(run, output).map(|turn| listed("turn", &[turn])).unwrap_or_default();
    }
    text
}

/// Where several senders of an output have a packet, whom it served last and the order of the
/// others: "r0.0: K[2,0] went last; A in answer F[0] is next, then B in K[1,0]".
fn turn(run: &Run, output: Output) -> Option<String> {
    let (plan, net) = (run.plan(), run.net());
    let (last, waiting) = (net.last_served(plan, output)?, net.in_turn(plan, output));
    if waiting.len() < 2 {
        return None;
    }
    let packets = run.packets();
    let heads = waiting.iter().filter_map(|&queue| {
        let head = packets.iter().find(|seated| (seated.place, seated.at) == (Place::In(queue), 0));
        head.map(|seated| format!("{} in {}", run.letter(seated.id), short(plan.names(), queue)))
    });
    let heads: Vec<String> = heads.collect();
    let (next, later) = heads.split_first()?;
    let (output, last) = (plan.names().output_words(output), short(plan.names(), last));
    Some(format!("{output}: {last} went last; {next} is next, then {}", later.join(", ")))
}

/// A router's queue without the router: "K[2,0]".
fn short(names: &Names, queue: Queue) -> String {
    let words = names.queue_words(queue);
    words.split_once(" of ").map_or(words.clone(), |(queue, _)| queue.to_string())
}

/// A packet: letter, kind, slot, hub, place, connection.
fn row(run: &Run, seated: &Seated) -> Vec<String> {
    let names = run.plan().names();
    let connection = run.book().connections[run.book().connection_of(seated.id)];
    vec![
        run.letter(seated.id),
        words::kind(seated.packet.kind).to_string(),
        format!("slot {}", seated.packet.slot),
        format!("hub {}", seated.packet.hub),
        names.place_words(seated.place),
        told(names, connection),
    ]
}

/// "camera -> drive from 3".
pub fn told(names: &Names, connection: Connection) -> String {
    let Connection { active, passive, start } = connection;
    format!("{} -> {} from {start}", names.active(active), names.passive(passive))
}

fn listed(name: &str, items: &[String]) -> String {
    let items = if items.is_empty() { "none".to_string() } else { items.join(", ") };
    format!("       {name:9}  {}\n", wrap(&items, 18, 18))
}
