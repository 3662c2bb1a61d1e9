//! An independent model of the arm controller's reservation network, written from documents 01 and
//! 02 alone and compared with the proved code in tests.
//!
//! * [`Fields`]: what the plan bytes say, one number after the other (refusals 1 to 4).
//! * [`Plan`]: a plan that obeys every plan rule (refusals 5 and 6), its walks and served pairs.
//! * [`feeding`]: which queue feeds which, and whether they form a ring.
//! * [`machine`]: the whole machine: state, round, calls, refusal 7, the claims of demand 3.
//! * [`generate`]: random, damaged and ringed plans from a seed; [`named`]: plans with a name.

#![forbid(unsafe_code)]

pub mod bits;
pub mod feeding;
pub mod fields;
pub mod generate;
pub mod machine;
pub mod named;
pub mod plan;
pub mod refusal;
pub mod walk;

pub use feeding::{Class, Feeding, Queue, Split};
pub use fields::{Capacities, Fields, Joint, Router, SIDES};
pub use plan::{Plan, Port};
pub use walk::{Hop, Interface};
