//! Plans from a seed: good ones of all sizes, crossing ones, damaged ones, plans with rings; calls,
//! states and programs that wait.

pub mod calls;
pub mod crossing;
pub mod damage;
pub mod draft;
pub mod good;
pub mod marks;
pub mod random;
pub mod rings;
pub mod states;
pub mod waiting;

pub use draft::Draft;
pub use random::Random;
