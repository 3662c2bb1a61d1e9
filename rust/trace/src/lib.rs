//! Plans, states and calls of the reservation network as things that people can read.
//!
//! * [`plan`]: [`Plan`], a plan that the proved library loaded: joints, routes, walks, ways back,
//!   unserved pairs with the reason; and [`Fields`], what plan bytes say, with the place of a fault.
//! * [`place`]: queues, outputs and wires, numbered as in docs/STATE.md. [`names`]: their names.
//! * [`net`]: [`Net`], a state read from its bytes.
//! * [`calls`]: the calls as values, and [`Calls`], who answers them: the proved library
//!   ([`Proved`]) or the model by the documents' rules or by a student's ([`Modelled`]).
//! * [`run`]: [`Run`] makes calls from Start on and follows every packet, every connection and the
//!   owner of every booked entry. Each call gives a [`Step`] with its [`Event`]s.
//! * [`words`]: what happened in a step, as sentences.
//!
//! ```
//! use trace::{words, Call, Names, Plan, Proved, Run};
//!
//! let bytes = [0x08, 0x42, 0x11, 0x24, 0x92, 0x4C, 0x06, 0x00, 0x00, 0x00, 0x20];
//! let plan = Plan::load(&bytes, Names::numbered(1, 1, 1)).unwrap();
//! let proved = Proved::new(&plan);
//! let mut run = Run::new(&plan, &proved);
//! let step = run.call(Call::Launch { active: 0, passive: 0, slot: 0 });
//! assert_eq!(words::step(&run, &step), "ok: set-up A joins a0's out-queue; allowance 0 left");
//! ```

#![forbid(unsafe_code)]

pub mod calls;
pub mod names;
pub mod net;
pub mod place;
pub mod plan;
pub mod run;
pub mod words;

pub use calls::{Answer, Call, Calls, Modelled, Proved};
pub use names::Names;
pub use net::Net;
pub use pandabrass::{Choice, Entry, Kind, Packet, Refusal, Remaining};
pub use place::{Heading, Output, Place, Port, Queue};
pub use plan::{Fault, Fields, Hop, Joint, Pair, Plan, Served};
pub use run::{Connection, Event, Hold, Id, Owner, Run, Step};
