//! What an accepted call did, event by event.

use pandabrass::{Entry, Kind, Packet};

use super::{cell, hold, owner_letter, packet, remaining, sign};
use crate::calls::{Answer, Call};
use crate::names::Names;
use crate::net::Phase;
use crate::place::{Place, Port, Queue};
use crate::plan::count;
use crate::run::{letter, Cell, Event, Hold, Id, Owner, Run, Seated, Step, Wait, Why};

/// The packets as they are after the call, to tell of.
pub(super) struct Telling<'r, 'a> {
    run: &'r Run<'a>,
    packets: Vec<Seated>,
}

impl<'r, 'a> Telling<'r, 'a> {
    /// Right after the call.
    pub(super) fn new(run: &'r Run<'a>) -> Self {
        Telling { run, packets: run.packets() }
    }

    fn names(&self) -> &Names {
        self.run.plan().names()
    }

    /// What an accepted call did.
    pub(super) fn done(&self, step: &Step, answer: Answer) -> String {
        if let (Call::Entry { router, side, slot }, Answer::Entry(entry)) = (step.call, answer) {
            let port = Port { router: router as usize, side: side as usize };
            return self.entry(Cell { port, slot: slot as usize }, entry);
        }
        if let Answer::Remaining(told) = answer {
            return remaining(told);
        }
        let picked = self.picked(step);
        let told = step.events.iter().filter_map(|event| self.event(event));
        let mut parts: Vec<String> = told.collect();
        // Whom the outputs pick stands before those who wait and before tear-downs made after it.
        if !picked.is_empty() {
            let handled = step.events.iter().take_while(|event| is_handling(event)).count();
            parts.insert(handled, format!("picks {}", picked.join(", ")));
        }
        match parts.is_empty() {
            true => self.nothing(step),
            false => parts.join("; "),
        }
    }

    /// A call that moved nobody.
    fn nothing(&self, step: &Step) -> String {
        match step.phase {
            Phase::Read => "no packet on a wire".to_string(),
            Phase::Execute => "nobody to handle or send".to_string(),
            Phase::Write => format!("nobody leaves; slot {} is next", self.run.net().slot),
        }
    }

    fn picked(&self, step: &Step) -> Vec<String> {
        let picked = |event: &Event| match event {
            Event::Picked { id, .. } => Some(self.run.letter(*id)),
            _ => None,
        };
        step.events.iter().filter_map(picked).collect()
    }

    fn entry(&self, cell: Cell, entry: Entry) -> String {
        let Entry::Booked(side) = entry else { return "free".to_string() };
        match self.run.owner(cell.port, cell.slot) {
            Some(owner) => format!("side {side}: {}, {}", owner_letter(owner), hold(owner.hold)),
            None => format!("side {side}"),
        }
    }

    /// A packet as it is now.
    fn packet(&self, id: Id) -> Option<&Packet> {
        self.packets.iter().find(|seated| seated.id == id).map(|seated| &seated.packet)
    }

    fn shown(&self, id: Id) -> String {
        self.packet(id).map_or_else(String::new, packet)
    }

    fn event(&self, event: &Event) -> Option<String> {
        let names = self.names();
        let name = |id: Id| self.run.letter(id);
        Some(match *event {
            Event::Launched { id, allowance } => {
                let active = self.packet(id).map_or(0, |packet| packet.active.into());
                let queue = names.queue_words(Queue::ActiveOut(active));
                format!("set-up {} joins {queue}; allowance {allowance} left", name(id))
            }
            Event::Closed { connection, tear_down, at_once } => {
                self.closed(connection, tear_down, at_once)
            }
            Event::Moved { id, from, to } => self.moved(id, from, to),
            Event::Booked { id, cell: at } => {
                let hub = self.packet(id).map_or(0, |packet| packet.hub);
                format!("books {} for {}, hub {hub}", cell(names, at), name(id))
            }
            Event::Declined { id, cell, why } => self.declined(id, cell, why),
            Event::Freed { id, cell, owner, ended } => self.freed(id, cell, owner, ended),
            Event::Waits { id, wait, .. } => self.waits(id, wait),
            Event::TornDown { tear_down, .. } => self.torn_down(tear_down),
            Event::Answered { id } => format!("{} becomes {}", name(id), self.shown(id)),
            Event::Looked { id, packet, accepted } => self.looked(id, &packet, accepted),
            Event::Dropped { id, packet: left, allowance, accepted } => {
                let outcome = self.outcome(id, left.kind, accepted);
                format!("{}{outcome}; allowance {allowance}", packet(&left))
            }
            Event::Picked { .. } => return None,
        })
    }

    /// What became of a connection whose answer was dropped. By a student's rule another one may be
    /// accepted, or this one was before.
    fn outcome(&self, id: Id, kind: Kind, accepted: Option<usize>) -> String {
        let book = self.run.book();
        let name = self.run.letter(id);
        match accepted {
            Some(number) => format!(": {} is ACCEPTED", letter(number)),
            None if kind == Kind::Nack => format!(": {name} was declined"),
            None if book.accepted.contains(&book.connection_of(id)) => " leaves".to_string(),
            None => format!(": {name} is NOT ACCEPTED"),
        }
    }

    /// "sees ACK slot 1 hub 1 of A", "sees NACK slot 0 hub 1 of B, unmarked".
    fn looked(&self, id: Id, seen: &Packet, accepted: Option<usize>) -> String {
        let unmarked = seen.kind == Kind::Nack && seen.hub > 0;
        let mark = if unmarked { ", unmarked" } else { "" };
        let accepted = accepted.map(|number| format!("; {} is ACCEPTED", letter(number)));
        let accepted = accepted.unwrap_or_default();
        format!("sees {} of {}{mark}{accepted}", packet(seen), self.run.letter(id))
    }

    fn moved(&self, id: Id, from: Place, to: Place) -> String {
        let sign = self.packet(id).map_or(' ', |packet| sign(packet.kind));
        let packet = format!("{sign}{}", self.run.letter(id));
        match (from, to) {
            (Place::In(queue), _) => format!("{packet} leaves {}", self.names().queue_words(queue)),
            (_, Place::In(queue)) => {
                format!("{packet} reaches {}", self.names().queue_words(queue))
            }
            _ => packet,
        }
    }

    fn declined(&self, id: Id, at: Cell, why: Why) -> String {
        let names = self.names();
        let entry = cell(names, at);
        let why = match why {
            Why::LastFree => format!("{entry} is its side's last free entry"),
            Why::Booked(None) => format!("{entry} is booked"),
            Why::Booked(Some(owner)) => match owner.hold {
                Hold::UnderWay | Hold::Accepted => {
                    format!("{entry} is booked by {}", owner_letter(owner))
                }
                state => format!("{entry} is booked by {}, {}", owner_letter(owner), hold(state)),
            },
        };
        let left = match self.run.book().launch_of(id).entries {
            0 => "nothing is booked".to_string(),
            entries => format!("{} STILL BOOKED", count(entries, "router")),
        };
        let router = names.router(at.port.router);
        format!("{router} DECLINES {}: {why}. {}: {left}", self.run.letter(id), self.shown(id))
    }

    fn freed(&self, id: Id, at: Cell, owner: Option<Owner>, ended: bool) -> String {
        let (tear_down, entry) = (self.run.letter(id), cell(self.names(), at));
        let launch = self.run.book().packets[id.0].launch;
        let freed = match owner {
            None => format!("tear-down {tear_down} FINDS {entry} FREE ALREADY"),
            Some(owner) if owner.launch != launch => format!(
                "tear-down {tear_down} FREES {entry}, WHICH BELONGS TO {} ({})",
                owner_letter(owner),
                hold(owner.hold)
            ),
            Some(_) => format!("tear-down {tear_down} FREES {entry}"),
        };
        match (ended, self.packet(id)) {
            (false, Some(packet)) => format!("{freed}, hub {}", packet.hub),
            _ => format!("{freed} and ends"),
        }
    }

    fn waits(&self, id: Id, wait: Wait) -> String {
        let (packet, names) = (self.run.letter(id), self.names());
        match wait {
            Wait::Booked(at) => {
                format!("{packet} WAITS: {} is booked in slot {}", names.port(at.port), at.slot)
            }
            Wait::NoCredit(queue) => {
                format!("{packet} waits: no credit for {}", names.queue_words(queue))
            }
            Wait::After(other) => format!("{packet} waits: {} goes first", self.run.letter(other)),
        }
    }

    /// "A is CLOSED: TEAR-DOWN slot 3 hub 2 joins camera's out-queue: frees exactly r0, r1".
    fn closed(&self, connection: usize, tear_down: Option<Id>, at_once: bool) -> String {
        let freed = if at_once { ", its entries freed AT ONCE" } else { "" };
        let closed = format!("{} is CLOSED{freed}", letter(connection));
        let Some(packet) = tear_down.and_then(|id| self.packet(id)) else {
            return format!("{closed}: no tear-down is sent");
        };
        let queue = self.names().queue_words(Queue::ActiveOut(packet.active.into()));
        let (slot, hub, routers) = (packet.slot, packet.hub, self.routers(packet));
        format!("{closed}: TEAR-DOWN slot {slot} hub {hub} joins {queue}: {routers}")
    }

    /// "camera answers with TEAR-DOWN B slot 3 hub 1: frees exactly r0".
    fn torn_down(&self, id: Id) -> String {
        let Some(packet) = self.packet(id) else { return String::new() };
        let (active, name) = (self.names().active(packet.active.into()), self.run.letter(id));
        let (slot, hub, routers) = (packet.slot, packet.hub, self.routers(packet));
        format!("{active} answers with TEAR-DOWN {name} slot {slot} hub {hub}: {routers}")
    }

    /// The routers that a tear-down frees: "frees exactly r0, r1".
    fn routers(&self, tear_down: &Packet) -> String {
        let (names, hub) = (self.names(), usize::from(tear_down.hub));
        let served = self.run.plan().served(tear_down.active.into(), tear_down.passive.into());
        let walk = served.map_or(&[][..], |served| &served.walk);
        let routers: Vec<String> =
            walk.iter().take(hub).map(|hop| names.router(hop.router)).collect();
        format!("frees exactly {}", routers.join(", "))
    }
}

/// Whether a unit did this.
fn is_handling(event: &Event) -> bool {
    matches!(event, Event::Booked { .. } | Event::Declined { .. } | Event::Freed { .. })
}
