//! `pandabrass`: one program for the people who write and teach network tables, over the proved
//! library. What it shows is what the controller does.
//!
//! * [`text`]: words, places and mistakes of texts. [`plan`]: plan text, hex and bytes, and why the
//!   library refuses a plan. [`script`]: scripts as they are written.
//! * [`play`]: plays a script over the proved library. [`print`]: what is printed.
//! * [`lesson`]: what students write instead, played beside the proved rule.
//! * [`commands`]: show, check, encode, decode, run, orders, lesson, replay.

#![forbid(unsafe_code)]

pub mod commands;
pub mod lesson;
pub mod plan;
pub mod play;
pub mod print;
pub mod script;
pub mod text;
