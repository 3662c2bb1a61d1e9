//! Calls on bytes compared with the model: lists of calls, and calls on changed bytes. Compared are
//! the answer, all bytes of the state, the bytes past it and what is returned.
//!
//! * [`Calls`]: the calls on slices, whoever has them. [`Tally`]: how often each answer was met.
//! * [`lists`]: lists of calls on random plans. [`change`]: changed bytes. [`loads`]: Load alone.
//! * [`mod@drains`]: programs that wait until the network is empty.

#![forbid(unsafe_code)]

pub mod calls;
pub mod change;
pub mod drains;
pub mod lists;
pub mod loads;
pub mod tally;

pub use calls::Calls;
pub use drains::{drains, Drains};
pub use lists::compare;
pub use loads::compare_loads;
pub use tally::Tally;
