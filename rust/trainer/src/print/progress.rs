//! A progress bar on the standard error, on a terminal only.

use std::io::IsTerminal;
use std::time::{Duration, Instant};

use super::output;

/// How long nothing is shown, and how often it is renewed.
const QUIET: Duration = Duration::from_millis(300);
const RENEWED: Duration = Duration::from_millis(100);
const WIDTH: usize = 40;

/// How far some work has come.
#[derive(Debug)]
pub struct Progress {
    total: usize,
    done: usize,
    shown: Option<Instant>,
    began: Instant,
    on: bool,
}

impl Progress {
    /// Before the work.
    pub fn new(total: usize) -> Progress {
        let on = std::io::stderr().is_terminal();
        Progress { total, done: 0, shown: None, began: Instant::now(), on }
    }

    /// One part is done.
    pub fn step(&mut self) {
        self.done += 1;
        let due = self.shown.map_or(self.began + QUIET, |shown| shown + RENEWED);
        if self.on && Instant::now() >= due {
            self.show();
            self.shown = Some(Instant::now());
        }
    }

    fn show(&self) {
        let full = WIDTH * self.done / self.total.max(1);
        let left = self.began.elapsed().as_secs_f64() * (self.total - self.done) as f64
            / self.done.max(1) as f64;
        let bar = format!("[{}{}]", "#".repeat(full), ".".repeat(WIDTH - full));
        show(&format!("\r{bar} {} of {}, {left:.0} s left  ", self.done, self.total));
    }
}

impl Drop for Progress {
    fn drop(&mut self) {
        if self.shown.is_some() {
            show(&format!("\r{:78}\r", ""));
        }
    }
}

/// A bar that cannot be shown is left out: it is no part of what was asked for.
fn show(text: &str) {
    let _ = output::err(text);
}
