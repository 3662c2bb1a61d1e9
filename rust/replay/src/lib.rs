//! Records a run and makes the page that replays it: one file that opens from disk.
//!
//! * [`Recording`]: the calls of a [`trace::Run`], each with what it changed, and with the owners of
//!   the entries as the run tells them.
//! * [`page`]: the recording joined with the page's sources, which are in `page/`.
//!
//! The format of the recording, `pandabrass-run/4`, is described in the README of this crate.
//!
//! ```
//! use replay::Recording;
//! use trace::{Call, Names, Plan, Proved, Run};
//!
//! let bytes = [0x08, 0x42, 0x11, 0x24, 0x92, 0x4C, 0x06, 0x00, 0x00, 0x00, 0x20];
//! let plan = Plan::load(&bytes, Names::numbered(1, 1, 1)).unwrap();
//! let proved = Proved::new(&plan);
//! let mut run = Run::new(&plan, &proved);
//! let mut recording = Recording::start(&run, "First run", "a launch on plan T");
//! let step = run.call(Call::Launch { active: 0, passive: 0, slot: 0 });
//! recording.push(&step, &run);
//! assert!(recording.lines()[0].ends_with(" +0,S,0,0,0,0,0,0 a0,0"));
//! let page = replay::page(&recording);
//! assert!(page.starts_with("<!doctype html>") && page.contains("pandabrass-run/4"));
//! ```

#![forbid(unsafe_code)]

mod changes;
mod check;
mod data;
mod page;
mod places;
mod recording;
mod seen;

pub use page::page;
pub use recording::{Recording, FORMAT};
