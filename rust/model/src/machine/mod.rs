//! The whole machine of documents 01 and 02: its state, the three phases of a round, the calls with
//! their refusals, refusal 7's condition, and the claims that hold of every list of calls.
//!
//! * [`packet`]: packets, slots, hub counts. [`network`]: a loaded plan, its journeys, its links.
//! * [`state`]: queues, wires, credits, flags, choices, table, allowances, accepted connections,
//!   senders last served.
//! * [`connection`]: which connection an ACK tells of, and the entries that it makes.
//! * [`phases`]: what READ, EXECUTE and WRITE do. [`calls`]: the calls with their refusals.
//! * [`valid`]: what is a state (refusal 7), and [`places`], where a packet of a pair can be.
//! * [`bytes`]: a state's bytes, by docs/STATE.md. [`rules`]: what students write instead.
//! * [`waiting`]: what is under way, and by which round a program that waits finds the network empty.
//! * [`list`]: calls as values. [`claims`]: demand 3, watched from outside by the calls, their answers
//!   and the states between them.

pub mod bytes;
pub mod calls;
pub mod claims;
pub mod connection;
pub mod list;
pub mod network;
pub mod packet;
pub mod phases;
pub mod places;
pub mod rules;
pub mod state;
pub mod valid;
pub mod waiting;

pub use connection::{Connection, OwnEntry};
pub use list::{Answer, Call};
pub use network::{Journey, Link, Network};
pub use packet::{Hub, Kind, Packet, Slot};
pub use rules::Rules;
pub use state::{Credit, Phase, State, Table};
pub use waiting::Remaining;
