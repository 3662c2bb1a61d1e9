//! A run: calls from Start on, with every packet, connection and owner followed.

mod book;
mod event;
mod follow;
mod seats;

pub use book::{letter, Book, Connection, Decline, Hold, Launch, Made, Owner};
pub use event::{Cell, Event, Step, Wait, Why};
pub use seats::{Id, Seats};

use pandabrass::{Entry, Packet};

use crate::calls::{Call, Calls};
use crate::net::Net;
use crate::place::{Place, Port};
use crate::plan::Plan;

/// A run on one plan. A clone goes on by itself.
#[derive(Clone)]
pub struct Run<'a> {
    plan: &'a Plan,
    calls: &'a dyn Calls,
    bytes: Vec<u8>,
    net: Net,
    seats: Seats,
    book: Book,
    round: usize,
    number: usize,
}

/// A packet with its number and place.
#[derive(Clone, Copy, Debug, PartialEq, Eq)]
pub struct Seated {
    /// The packet's number in the run.
    pub id: Id,
    /// Where it is.
    pub place: Place,
    /// In a queue, its number from the head.
    pub at: usize,
    /// The packet.
    pub packet: Packet,
}

impl<'a> Run<'a> {
    /// Start.
    pub fn new(plan: &'a Plan, calls: &'a dyn Calls) -> Run<'a> {
        let bytes = calls.start();
        let net = Net::decode(plan, &bytes).expect("Start leaves a state");
        let (seats, book) = (Seats::empty(plan), Book::default());
        Run { plan, calls, bytes, net, seats, book, round: 0, number: 0 }
    }

    /// Makes one call and follows what it did.
    pub fn call(&mut self, call: Call) -> Step {
        let (round, phase, slot) = (self.round, self.net.phase, self.net.slot);
        let answer = self.calls.call(&mut self.bytes, call);
        self.number += 1;
        let events = match answer {
            Ok(_) => {
                let net = Net::decode(self.plan, &self.bytes).expect("a call leaves a state");
                let before = std::mem::replace(&mut self.net, net);
                let events = self.follow(&before, call);
                self.book.keep_accepted(&self.net.accepted);
                events
            }
            Err(_) => Vec::new(),
        };
        assert!(self.seats.fit(&self.net), "every packet is followed");
        if call == Call::Write && answer.is_ok() {
            self.round += 1;
        }
        Step { number: self.number, round, phase, slot, call, answer, events }
    }

    /// The plan.
    pub fn plan(&self) -> &'a Plan {
        self.plan
    }

    /// The state's bytes.
    pub fn bytes(&self) -> &[u8] {
        &self.bytes
    }

    /// The state.
    pub fn net(&self) -> &Net {
        &self.net
    }

    /// How many whole rounds have passed.
    pub fn round(&self) -> usize {
        self.round
    }

    /// How many calls were made.
    pub fn calls_made(&self) -> usize {
        self.number
    }

    /// Launches, connections and packets made so far.
    pub fn book(&self) -> &Book {
        &self.book
    }

    /// Gives a connection its letter before its first launch; its number.
    pub fn name_connection(&mut self, connection: Connection) -> usize {
        self.book.number(connection)
    }

    /// Every packet in the network, queues first, by the numbers of their places.
    pub fn packets(&self) -> Vec<Seated> {
        let seated = |(place, at, &packet): (Place, usize, &Packet)| {
            let id = self.seats.at(self.plan, place, at).expect("every packet is followed");
            Seated { id, place, at, packet }
        };
        self.net.packets(self.plan).map(seated).collect()
    }

    /// Who owns a booked entry; none where it is free.
    pub fn owner(&self, port: Port, slot: usize) -> Option<Owner> {
        self.book.owner(Cell { port, slot })
    }

    /// A packet's letter: its connection's.
    pub fn letter(&self, id: Id) -> String {
        letter(self.book.connection_of(id))
    }

    /// A packet as it is now, if it is in the network.
    pub fn packet(&self, id: Id) -> Option<Seated> {
        self.packets().into_iter().find(|seated| seated.id == id)
    }

    /// The entries that some connections make: "(walk's side, start slot + n modulo S), holding the
    /// side the walk came in by". None where a pair is not served.
    pub fn entries_of(plan: &Plan, connection: Connection) -> Option<Vec<(Cell, Entry)>> {
        let served = plan.served(connection.active, connection.passive)?;
        let entry = |(n, hop): (usize, &crate::plan::Hop)| {
            let port = Port { router: hop.router, side: hop.side };
            let slot = (connection.start + n) % plan.slots();
            (Cell { port, slot }, Entry::Booked(hop.came_in as u8))
        };
        Some(served.walk.iter().enumerate().map(entry).collect())
    }
}
