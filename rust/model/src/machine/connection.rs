//! Connections: which one an ACK tells of, and the entries that a connection makes.

use super::network::Network;
use super::packet::{Packet, Slot};
use super::state::Table;
use crate::plan::Port;

/// "Those three numbers": active, passive, start slot.
#[derive(Clone, Copy, Debug, PartialEq, Eq, Hash, PartialOrd, Ord)]
pub struct Connection {
    /// The active.
    pub active: usize,
    /// The passive.
    pub passive: usize,
    /// The start slot.
    pub start: Slot,
}

/// An entry that a connection makes.
#[derive(Clone, Copy, Debug, PartialEq, Eq)]
pub struct OwnEntry {
    /// The router, and the walk's side there.
    pub port: Port,
    /// Start slot + n modulo S at the n-th router.
    pub slot: Slot,
    /// The side the walk came in by.
    pub came_in: usize,
}

impl OwnEntry {
    /// Whether the table holds exactly this entry.
    pub fn is_in(&self, table: &Table) -> bool {
        table.entry(self.port.router, self.port.side, self.slot) == Some(self.came_in)
    }

    /// Puts this entry into the table.
    pub fn put(&self, table: &mut Table) {
        table.set(self.port.router, self.port.side, self.slot, Some(self.came_in));
    }
}

impl Network {
    /// "With that packet's active and passive and, as its start slot, the packet's slot minus hub
    /// modulo S."
    pub fn connection(&self, ack: &Packet) -> Connection {
        let start = ack.slot.minus(ack.hub, self.slots());
        Connection { active: ack.active, passive: ack.passive, start }
    }

    /// "At its n-th router, n from 0, an accepted connection makes the entry (walk's side, start
    /// slot + n modulo S), holding the side the walk came in by." None if the pair is not served.
    pub fn entries_of(&self, connection: Connection) -> Option<Vec<OwnEntry>> {
        let Connection { active, passive, start } = connection;
        let walk = self.journey(active, passive)?.walk.iter().enumerate();
        let entries = walk.map(|(n, hop)| OwnEntry {
            port: Port { router: hop.router, side: hop.side },
            slot: start.after(n, self.slots()),
            came_in: hop.came_in,
        });
        Some(entries.collect())
    }
}
