//! Writes the pages that the browser tests open into a folder: twelve runs and some on random plans
//! for the self-test, and one of 5,000 calls on the largest plan for the times.
//!
//!     cargo run --release -p replay --example pages -- FOLDER

mod callers;
mod plans;

use std::path::Path;
use std::process::ExitCode;

use replay::Recording;
use trace::{Call, Plan, Proved, Run};

use callers::{Caller, Waiter};

/// Records calls on a plan and writes the page.
fn write(folder: &Path, file: &str, title: &str, note: &str, plan: &Plan, calls: &mut dyn Calls) {
    let proved = Proved::new(plan);
    let mut run = Run::new(plan, &proved);
    let mut recording = Recording::start(&run, title, note);
    while let Some(call) = calls.next(&run) {
        let step = run.call(call);
        recording.push(&step, &run);
    }
    let page = replay::page(&recording);
    let path = folder.join(file).with_extension("html");
    std::fs::write(&path, &page).expect("the folder can be written");
    println!("{}: {} calls, {} bytes", path.display(), recording.lines().len(), page.len());
}

/// Somebody who makes the next call.
trait Calls {
    /// The next call on a run, none at the end.
    fn next(&mut self, run: &Run) -> Option<Call>;
}

/// A list of calls.
impl Calls for std::vec::IntoIter<Call> {
    fn next(&mut self, _: &Run) -> Option<Call> {
        Iterator::next(self)
    }
}

/// A caller that keeps the network busy, for a number of calls.
impl Calls for (Caller, usize) {
    fn next(&mut self, run: &Run) -> Option<Call> {
        self.1 = self.1.checked_sub(1)?;
        Some(self.0.next(run))
    }
}

/// The same, with a Remaining now and then.
struct Asking((Caller, usize));

impl Calls for Asking {
    fn next(&mut self, run: &Run) -> Option<Call> {
        let asks = self.0 .1 % 10 == 5;
        let call = self.0.next(run)?;
        Some(if asks { Call::Remaining } else { call })
    }
}

/// One that waits until the network is empty.
impl Calls for Waiter {
    fn next(&mut self, run: &Run) -> Option<Call> {
        Waiter::next(self, run)
    }
}

/// Short runs on random plans.
fn random(folder: &Path) {
    for (number, plan) in plans::random(10).iter().enumerate() {
        let file = format!("random-{number}");
        let mut calls = Asking((Caller::new(number as u64, 10), 120));
        write(folder, &file, &file, "A random plan.", plan, &mut calls);
    }
}

/// Seven runs that show one thing each.
fn scripted_runs(folder: &Path) {
    let scripted = |calls: Vec<Call>| calls.into_iter();
    let note = "Document 01's first run: a set-up is accepted and stays booked.";
    write(folder, "t", "First run on plan T", note, &plans::t(), &mut scripted(callers::first()));
    let note = "The second router declines; the tear-down frees one router only.";
    let two = plans::two_routers();
    write(folder, "declined", "A declined set-up", note, &two, &mut scripted(callers::declined()));
    let note = "A connection is closed and its slots are used again.";
    write(folder, "closed", "A closed connection", note, &two, &mut scripted(callers::closed()));
    let note = "Several senders at one output take turns.";
    let one = plans::one_router();
    write(folder, "turns", "Turn about at an output", note, &one, &mut scripted(callers::turns()));
    let note = "A unit handles the heads of all its queues, and sends one packet.";
    write(folder, "heads", "Heads of a unit", note, &one, &mut scripted(callers::heads()));
    let note = "Answers are looked at in every phase, and then dropped.";
    write(folder, "looked", "Look before dropping", note, &one, &mut scripted(callers::looked()));
    let note = "Before a wash: how much is under way, and for how long?";
    write(folder, "waited", "Empty by a known round", note, &two, &mut Waiter::new());
}

fn main() -> ExitCode {
    let Some(folder) = std::env::args().nth(1) else {
        eprintln!("pages: name a folder to write the pages to");
        return ExitCode::from(2);
    };
    let folder = Path::new(&folder);
    std::fs::create_dir_all(folder).expect("the folder can be made");
    let busy = |seed, calls| (Caller::new(seed, 10), calls);
    scripted_runs(folder);
    let note = "Three sensors, two drives, any calls.";
    write(folder, "arm", "An arm of three routers", note, &plans::arm(), &mut busy(3, 420));
    let note = "Sensors and drives on each end of the line: set-ups cross.";
    let double_box = plans::double_box();
    write(folder, "crossing", "The double-box arm", note, &double_box, &mut busy(8, 500));
    let note = "Nine routers; sensors left and above, drives below and right.";
    write(folder, "mesh", "A mesh of nine routers", note, &plans::mesh(), &mut busy(4, 500));
    // The title has every sign that could end a tag, a string or the data block.
    let note = "One router in the middle of three others.";
    let title = "Four routers in a \"star\" <b>&amp;</b></script>";
    write(folder, "star", title, note, &plans::star(), &mut busy(5, 400));
    let note = "16 routers, 16 actives, 16 passives, 32 slots.";
    let largest = plans::largest();
    write(folder, "largest", "The largest plan", note, &largest, &mut busy(6, 500));
    let note = "5,000 calls on the largest plan.";
    let mut eager = (Caller::new(7, 14), 5000);
    write(folder, "long", "A long run", note, &largest, &mut eager);
    random(folder);
    ExitCode::SUCCESS
}
