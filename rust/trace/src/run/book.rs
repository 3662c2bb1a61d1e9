//! Launches, connections, and who owns a booked entry.

use std::collections::HashMap;

use super::event::{Cell, Why};
use super::seats::Id;

/// Active, passive, start slot.
#[derive(Clone, Copy, Debug, PartialEq, Eq, Hash)]
pub struct Connection {
    /// The active.
    pub active: usize,
    /// The passive.
    pub passive: usize,
    /// The start slot.
    pub start: usize,
}

/// How far a launch has come, and so how it holds its entries.
#[derive(Clone, Copy, Debug, PartialEq, Eq)]
pub enum Hold {
    /// Its set-up or its ACK is on its way.
    UnderWay,
    /// Its ACK was dropped.
    Accepted,
    /// It was closed, and its tear-down is on its way.
    Closing,
    /// Declined, and no tear-down has been made: what it booked is left behind.
    LeftBehind,
    /// Its tear-down is on its way.
    TearingDown,
    /// Declined or closed, or by a student's rule dropped and not accepted, and nothing of it is under
    /// way any more. By the documents' rules it then owns nothing; by a student's it may, and then for
    /// good.
    Over,
}

/// Who owns a booked entry.
#[derive(Clone, Copy, Debug, PartialEq, Eq)]
pub struct Owner {
    /// The launch, from 0 in the order of the calls.
    pub launch: usize,
    /// The number of its connection.
    pub connection: usize,
    /// How it holds the entry.
    pub hold: Hold,
}

/// One accepted Launch.
#[derive(Clone, Copy, Debug)]
pub struct Launch {
    /// Its set-up, and later its ACK or NACK.
    pub id: Id,
    /// The number of its connection.
    pub connection: usize,
    /// How far it has come.
    pub hold: Hold,
    /// How many entries it owns.
    pub entries: usize,
    /// Where and why it was declined, if it was.
    pub declined: Option<Decline>,
    /// Whether its connection was closed.
    pub closed: bool,
}

/// Who declined a set-up.
#[derive(Clone, Copy, Debug, PartialEq, Eq)]
pub enum Decline {
    /// A router, and why.
    Router(usize, Why),
    /// The passive.
    Passive,
}

/// A packet that was made in the run.
#[derive(Clone, Copy, Debug)]
pub struct Made {
    /// Its launch.
    pub launch: usize,
    /// The NACK that a tear-down follows, or the ACK whose connection it closes.
    pub parent: Option<Id>,
}

/// All that a run's calls told.
#[derive(Clone, Debug, Default)]
pub struct Book {
    /// Connections in the order of their first launch.
    pub connections: Vec<Connection>,
    /// The accepted Launches.
    pub launches: Vec<Launch>,
    /// The packets by their numbers.
    pub packets: Vec<Made>,
    /// The accepted connections that the state keeps, by their numbers, in the order of these.
    pub accepted: Vec<usize>,
    owners: HashMap<Cell, usize>,
}

impl Book {
    /// A connection's number; the next one if it has none yet.
    pub fn number(&mut self, connection: Connection) -> usize {
        let known = self.connections.iter().position(|&other| other == connection);
        known.unwrap_or_else(|| {
            self.connections.push(connection);
            self.connections.len() - 1
        })
    }

    /// Notes an accepted Launch and gives its set-up's number.
    pub fn launch(&mut self, connection: Connection) -> Id {
        let number = self.number(connection);
        let id = self.make(self.launches.len(), None);
        self.begin(id, number);
        id
    }

    /// A launch begins with that packet.
    fn begin(&mut self, id: Id, connection: usize) {
        let (hold, declined) = (Hold::UnderWay, None);
        self.launches.push(Launch { id, connection, hold, entries: 0, declined, closed: false });
    }

    /// A new packet of a launch.
    fn make(&mut self, launch: usize, parent: Option<Id>) -> Id {
        self.packets.push(Made { launch, parent });
        Id(self.packets.len() - 1)
    }

    /// The tear-down of a NACK is made.
    pub fn tear_down(&mut self, nack: Id) -> Id {
        let launch = self.packets[nack.0].launch;
        self.launches[launch].hold = Hold::TearingDown;
        self.make(launch, Some(nack))
    }

    /// A connection is closed, and its tear-down made.
    pub fn close(&mut self, connection: Connection) -> Id {
        let number = self.number(connection);
        let launch = self.last_of(number).unwrap_or_else(|| {
            // A student's rule may accept what was never launched.
            self.begin(Id(self.packets.len()), number);
            self.launches.len() - 1
        });
        let set_up = self.launches[launch].id;
        self.launches[launch].hold = Hold::Closing;
        self.launches[launch].closed = true;
        let parent = Some(set_up).filter(|id| id.0 < self.packets.len());
        self.make(launch, parent)
    }

    /// A connection is closed by a student's rule that makes no tear-down.
    pub fn clear(&mut self, connection: Connection) {
        let number = self.number(connection);
        if let Some(launch) = self.last_of(number) {
            self.launches[launch].hold = Hold::Over;
            self.launches[launch].closed = true;
        }
    }

    /// The last launch of a connection, by its number; one that is accepted, if there is such.
    pub fn last_of(&self, connection: usize) -> Option<usize> {
        let of = |launch: &&Launch| launch.connection == connection;
        let accepted = |launch: &Launch| of(&launch) && launch.hold == Hold::Accepted;
        let last = self.launches.iter().rposition(accepted);
        last.or_else(|| self.launches.iter().rposition(|launch| of(&launch)))
    }

    /// Takes down the accepted connections of a state.
    pub(super) fn keep_accepted(&mut self, accepted: &[Connection]) {
        self.accepted = accepted.iter().map(|&connection| self.number(connection)).collect();
        self.accepted.sort_unstable();
    }

    /// The launch that a packet belongs to.
    pub fn launch_of(&self, id: Id) -> &Launch {
        &self.launches[self.packets[id.0].launch]
    }

    fn launch_mut(&mut self, id: Id) -> &mut Launch {
        &mut self.launches[self.packets[id.0].launch]
    }

    /// The number of the connection that a packet belongs to.
    pub fn connection_of(&self, id: Id) -> usize {
        self.launch_of(id).connection
    }

    /// A set-up booked an entry.
    pub fn book(&mut self, id: Id, cell: Cell) {
        let launch = self.packets[id.0].launch;
        self.launches[launch].entries += 1;
        self.owners.insert(cell, launch);
    }

    /// A tear-down frees an entry; its owner, if it was booked.
    pub fn free(&mut self, cell: Cell) -> Option<Owner> {
        let owner = self.owner(cell)?;
        self.owners.remove(&cell);
        self.launches[owner.launch].entries -= 1;
        Some(owner)
    }

    /// A router or the passive declined a set-up.
    pub fn decline(&mut self, id: Id, by: Decline) {
        let launch = self.launch_mut(id);
        launch.hold = Hold::LeftBehind;
        launch.declined = Some(by);
    }

    /// An ACK was dropped: its connection is accepted.
    pub fn accept(&mut self, id: Id) {
        self.launch_mut(id).hold = Hold::Accepted;
    }

    /// A tear-down has ended, or a NACK without one was dropped.
    pub fn end(&mut self, id: Id) {
        self.launch_mut(id).hold = Hold::Over;
    }

    /// Who owns an entry.
    pub fn owner(&self, cell: Cell) -> Option<Owner> {
        let &launch = self.owners.get(&cell)?;
        let Launch { connection, hold, .. } = self.launches[launch];
        Some(Owner { launch, connection, hold })
    }

    /// Every owned entry, by router, side and slot.
    pub fn owned(&self) -> Vec<(Cell, Owner)> {
        let mut cells: Vec<Cell> = self.owners.keys().copied().collect();
        cells.sort_by_key(|cell| (cell.port, cell.slot));
        cells.into_iter().filter_map(|cell| Some((cell, self.owner(cell)?))).collect()
    }
}

/// A connection's letter: A to Z, then AA, AB, ..
pub fn letter(number: usize) -> String {
    let last = char::from(b'A' + (number % 26) as u8);
    match number / 26 {
        0 => last.to_string(),
        more => format!("{}{last}", letter(more - 1)),
    }
}
