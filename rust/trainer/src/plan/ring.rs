//! The ring of feeding queues that makes a plan refused with 6, and the pairs that make it.

use std::collections::{HashMap, VecDeque};

use trace::place::{Heading, Port, Queue, SIDES};
use trace::plan::{count, Served};
use trace::{Fields, Joint, Names};

use crate::print::wrap;

/// Queues that feed each other in a ring, with a pair for each step.
#[derive(Clone, Debug)]
pub struct Ring {
    /// The queues, each feeding the next, the last the first.
    pub queues: Vec<Queue>,
    /// Some pairs that make it, active and passive.
    pub pairs: Vec<Ends>,
}

impl Ring {
    /// "a ring of 6 queues: each waits for the next", the chain and the pairs.
    pub fn sentence(&self, names: &Names) -> String {
        let queues = count(self.queues.len(), "queue");
        format!("a ring of {queues}: each waits for the next\n{}", self.chain(names))
    }

    fn chain(&self, names: &Names) -> String {
        let mut links: Vec<String> = self.queues.iter().map(|&q| names.queue(q)).collect();
        links.push("(again)".to_string());
        let mut lines = vec![String::new()];
        for (at, link) in links.iter().enumerate() {
            let arrow = if at == 0 { "" } else { " -> " };
            let line = lines.last_mut().expect("there is a line");
            if line.len() + arrow.len() + link.len() > 92 {
                lines.push(format!("-> {link}"));
            } else {
                *line += &format!("{arrow}{link}");
            }
        }
        let chain: Vec<String> = lines.iter().map(|line| format!("    {line}")).collect();
        let pairs: Vec<String> = self.pairs.iter().map(|&(a, p)| pair(names, a, p)).collect();
        let made = match pairs.split_last() {
            Some((last, rest)) if !rest.is_empty() => format!("{} and {last}", rest.join(", ")),
            _ => pairs.join(""),
        };
        let made = format!("made by {made}: serve fewer pairs, or move one end");
        format!("{}\n    {}", chain.join("\n"), wrap(&made, 6, 4))
    }
}

fn pair(names: &Names, active: usize, passive: usize) -> String {
    format!("{} -> {}", names.active(active), names.passive(passive))
}

/// An active and a passive.
type Ends = (usize, usize);

/// Which queue feeds which, with the pairs that make it so.
type Feeding = HashMap<Queue, Vec<(Queue, Vec<Ends>)>>;

/// A shortest ring.
pub fn find(fields: &Fields) -> Option<Ring> {
    let feeding = feeding(fields);
    let mut starts: Vec<Queue> = feeding.keys().copied().collect();
    starts.sort_by_key(|queue| format!("{queue:?}"));
    let rings = starts.into_iter().filter_map(|start| ring_from(&feeding, start));
    rings.min_by_key(|ring| ring.queues.len())
}

/// A shortest ring through a queue.
fn ring_from(feeding: &Feeding, start: Queue) -> Option<Ring> {
    let mut before: HashMap<Queue, Queue> = HashMap::new();
    let mut border = VecDeque::from([start]);
    while let Some(queue) = border.pop_front() {
        for &(next, _) in feeding.get(&queue).into_iter().flatten() {
            if before.contains_key(&next) {
                continue;
            }
            before.insert(next, queue);
            if next == start {
                let queues = walk_back(&before, start);
                return Some(Ring { pairs: pairs(feeding, &queues), queues });
            }
            border.push_back(next);
        }
    }
    None
}

fn walk_back(before: &HashMap<Queue, Queue>, start: Queue) -> Vec<Queue> {
    let mut queues = vec![before[&start]];
    while queues[queues.len() - 1] != start {
        queues.push(before[&queues[queues.len() - 1]]);
    }
    queues.reverse();
    queues
}

/// A few pairs that make all steps of a ring: again and again the one that makes most of those left.
fn pairs(feeding: &Feeding, queues: &[Queue]) -> Vec<Ends> {
    let nexts = queues.iter().cycle().skip(1);
    let step = |(queue, next): (&Queue, &Queue)| {
        let fed = feeding[queue].iter().find(|(fed, _)| fed == next);
        fed.map_or_else(Vec::new, |(_, pairs)| pairs.clone())
    };
    let mut left: Vec<Vec<Ends>> = queues.iter().zip(nexts).map(step).collect();
    let mut chosen = Vec::new();
    while let Some(first) = left.first() {
        let steps = |pair: &Ends| left.iter().filter(|pairs| pairs.contains(pair)).count();
        let Some(&pair) = first.iter().rev().max_by_key(|&pair| steps(pair)) else { break };
        left.retain(|pairs| !pairs.contains(&pair));
        chosen.push(pair);
    }
    chosen.sort();
    chosen
}

/// "Queue X feeds Y if a packet of a served pair can go next from X to Y."
fn feeding(fields: &Fields) -> Feeding {
    let mut feeding = Feeding::new();
    for active in 0..fields.actives {
        let Some(home) = home(fields, active) else { continue };
        for passive in 0..fields.passives {
            let Ok(served) = fields.pair(home, active, passive) else { continue };
            for (from, to) in steps(fields, active, passive, &served) {
                let fed = feeding.entry(from).or_default();
                match fed.iter_mut().find(|(known, _)| *known == to) {
                    Some((_, pairs)) => pairs.push((active, passive)),
                    None => fed.push((to, vec![(active, passive)])),
                }
            }
        }
    }
    feeding
}

/// Every step from queue to queue that a pair's packets can make.
fn steps(fields: &Fields, active: usize, passive: usize, served: &Served) -> Vec<(Queue, Queue)> {
    let mut steps = Vec::new();
    let mut from = Queue::ActiveOut(active);
    for (hop, back) in served.walk.iter().zip(&served.back) {
        let entry = Port { router: hop.router, side: hop.came_in };
        let (u, q) = (Queue::U(entry), Queue::Q(entry));
        let f = Queue::F(Heading::Ahead, Port { router: hop.router, side: hop.side });
        steps.extend([(from, u), (u, q), (q, f)]);
        from = f;
        let first = Queue::F(Heading::Back, back[0]);
        steps.push((q, first));
        crossing(fields, first, back, &mut steps);
    }
    steps.push((from, Queue::PassiveIn(passive)));
    if let (Some(last), Some(back)) = (served.walk.last(), served.back.last()) {
        let first = Queue::K(last.side, back[0]);
        steps.push((Queue::PassiveOut(passive), first));
        crossing(fields, first, back, &mut steps);
    }
    steps
}

/// An answer's steps from its first router's queue on.
fn crossing(fields: &Fields, first: Queue, back: &[Port], steps: &mut Vec<(Queue, Queue)>) {
    let mut from = first;
    for (at, &exit) in back.iter().enumerate() {
        let to = match fields.joint(exit) {
            Joint::Router(next) => Queue::K(next.side, back[at + 1]),
            Joint::Active(number) => Queue::ActiveIn(number),
            Joint::Nothing | Joint::Passive(_) => return,
        };
        steps.push((from, to));
        from = to;
    }
}

fn home(fields: &Fields, active: usize) -> Option<Port> {
    let mut ports = (0..fields.joints.len())
        .flat_map(|router| (0..SIDES).map(move |side| Port { router, side }));
    ports.find(|&port| fields.joint(port) == Joint::Active(active))
}
