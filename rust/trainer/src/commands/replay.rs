//! `replay`: the page that replays a run, one file.

use replay::Recording;
use trace::{Proved, Run, Step};

use super::orders::dealt;
use super::run::unplayed;
use super::{Args, Command, Done, FINE, REFUSED, UNREAD};
use crate::play::{Player, Teller};
use crate::print::{grouped, output};
use crate::script::{self, Script};

/// The command.
pub const REPLAY: Command = Command {
    name: "replay",
    usage: "SCRIPT -o FILE [--order ORDER] [--title TITLE]",
    summary: "a page that replays a script's run: one file that opens from disk",
    help: "\
Plays the script as pandabrass run does and writes the page into FILE: map with packets, slot tables
by owner, calls and refusals, timeline. Open it in any browser; the key ? tells its keys. --order
plays one order of the script's blocks. The title is the script's first comment, unless given.
",
    flags: &[],
    options: &["-o", "--order", "--title"],
    run,
};

fn run(args: &Args) -> Done {
    let ([name], Some(file)) = (args.names.as_slice(), args.value("-o")) else {
        let usage = "which script, into which file? pandabrass replay SCRIPT -o FILE\n";
        return Done::error(usage, UNREAD);
    };
    let script = match script::open(name) {
        Ok(script) => script,
        Err(broken) => return unplayed(broken),
    };
    let deals = match dealt(&script, args) {
        Ok(deals) => deals,
        Err(done) => return done,
    };
    let proved = Proved::new(&script.plan);
    let mut player = Player::new(&script, &proved);
    let title = args.value("--title").map_or_else(|| title(&script), str::to_string);
    let mut recorder = Recorder(Recording::start(&player.run, &title, &script::short(name)));
    if let Err(mistake) = player.play(&deals, &mut recorder) {
        return Done::error(mistake.show(&script.source), UNREAD);
    }
    let page = replay::page(&recorder.0);
    if let Err(unwritten) = output::file(file, page.as_bytes()) {
        return unwritten.into();
    }
    let calls = trace::plan::count(player.run.calls_made(), "call");
    let told = format!("{file}: {calls}, {} bytes; open it in a browser\n", grouped(page.len()));
    Done::text(told, if player.is_fine() { FINE } else { REFUSED })
}

/// The script's first comment, else its name.
fn title(script: &Script) -> String {
    let mut lines = script.source.text.lines().map(str::trim);
    let comment = lines.find_map(|line| line.strip_prefix('#')).map(str::trim);
    comment.filter(|text| !text.is_empty()).unwrap_or(&script.source.name).to_string()
}

/// Records every call.
struct Recorder(Recording);

impl Teller for Recorder {
    fn step(&mut self, run: &Run, step: &Step) {
        self.0.push(step, run);
    }
}
