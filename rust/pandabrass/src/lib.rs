//! The proved calls of the arm controller's reservation network, for Rust programs.
//!
//! A [`Plan`] is plan bytes that load; a [`State`] is the bytes of a network that was started on
//! it. Every call gives what it returns or a [`Refusal`], and a refusal alters no byte. The rules
//! are those of documents 01 and 02, the state's bytes are those of docs/STATE.md.
//!
//! Document 01's first run: a launch in round 0 waits at the passive from round 4 on, is accepted
//! there, and its ACK comes in round 7 with slot 1 and hub 1. A Look gives it in every phase and
//! changes nothing; the Drop of an ACK gives back the allowance and accepts the connection.
//!
//! ```
//! use pandabrass::{Choice, Entry, Kind, Plan, Refusal};
//!
//! let plan = Plan::load(&[0x08, 0x42, 0x11, 0x24, 0x92, 0x4C, 0x06, 0x00, 0x00, 0x00, 0x20])?;
//! let mut state = plan.start();
//! state.launch(0, 0, 0)?;
//! for round in 0..7 {
//!     state.read()?;
//!     state.execute()?;
//!     if round == 4 {
//!         state.reply(0, Choice::Accept)?;
//!     }
//!     state.write()?;
//! }
//! state.read()?;
//! let ack = state.look(0)?;
//! assert_eq!((ack.kind, ack.slot, ack.hub), (Kind::Ack, 1, 1));
//! assert_eq!(state.drop(0), Err(Refusal::WrongPhase));
//! state.execute()?;
//! assert_eq!(state.look(0)?, ack);
//! state.drop(0)?;
//! assert_eq!(state.look(0), Err(Refusal::QueueEmpty));
//! // The connection stays: router 0 sends slot 0 out by side 1, as it came in by side 0.
//! assert_eq!(state.entry(0, 1, 0)?, Entry::Booked(0));
//! assert_eq!(state.entry(0, 1, 1)?, Entry::Free);
//! // Closed in the next READ, it is freed two rounds later by a tear-down.
//! state.write()?;
//! state.close(0, 0, 0)?;
//! assert_eq!(state.close(0, 0, 0), Err(Refusal::NotAccepted));
//! for _ in 0..3 {
//!     state.read()?;
//!     state.execute()?;
//!     state.write()?;
//! }
//! assert_eq!(state.entry(0, 1, 0)?, Entry::Free);
//! # Ok::<(), Refusal>(())
//! ```
//!
//! Before a wash a program stops launching and closing and waits: [`State::remaining`] tells, in every
//! phase, how many packets are under way and after how many rounds there is none.
//!
//! [`bytes`] has the same calls on slices, with numbers for answers.

pub mod bytes;
mod plan;
mod refusal;
mod state;

pub use bytes::{load, walk};
pub use plan::Plan;
pub use refusal::Refusal;
pub use state::{Choice, Entry, Kind, Packet, Remaining, State};
