//! `orders`: the same messages in every order and with every gap that a script allows.

mod code;
mod sheet;

pub use code::dealt;

use trace::Proved;

use super::run::unplayed;
use super::{Args, Command, Done, FINE, REFUSED, UNREAD};
use crate::play::deals::{sample, Deals};
use crate::play::{Deal, Player, Silent};
use crate::print::progress::Progress;
use crate::script::{self, Script};
use sheet::{Row, Sheet};

/// Orders that are played without sampling.
const SAMPLES: u64 = 2_000;

/// The command.
pub const ORDERS: Command = Command {
    name: "orders",
    usage: "SCRIPT [--samples N] [--seed N] [--all] [--json]",
    summary: "plays a script's calls in every order and with every gap that it allows",
    help: "\
A script says what may come in any order, launches and replies:
  any order spaced 0..3 { launch camera drive 0; launch force drive 1; reply drive accept }
The gaps count the rounds between one call and the next. A reply waits for its set-up. Several
blocks are combined. Of more than --samples (2000) orders and gaps that many are taken at random,
by --seed (1). Told is who is accepted in which, what stopped whom, and whether all end empty.
pandabrass run SCRIPT --order C3B3A plays one of them.
",
    flags: &["--all", "--json"],
    options: &["--samples", "--seed"],
    run,
};

fn run(args: &Args) -> Done {
    let [name] = args.names.as_slice() else {
        return Done::error("which script? pandabrass orders SCRIPT\n", UNREAD);
    };
    let script = match script::open(name) {
        Ok(script) => script,
        Err(broken) => return unplayed(broken),
    };
    let numbers = (args.number("--samples"), args.number("--seed"));
    let (samples, seed) = match numbers {
        (Ok(samples), Ok(seed)) => (samples.unwrap_or(SAMPLES).max(1), seed.unwrap_or(1)),
        (Err(message), _) | (_, Err(message)) => return Done::error(message + "\n", UNREAD),
    };
    if script.blocks().next().is_none() {
        let message = format!("{}: no block 'any order {{ .. }}' in it\n", script.source.name);
        return Done::error(message, UNREAD);
    }
    play(&script, samples as usize, seed, args)
}

fn play(script: &Script, samples: usize, seed: u64, args: &Args) -> Done {
    let proved = Proved::new(&script.plan);
    let mut player = Player::new(script, &proved);
    if let Err(mistake) = player.play_to_block(&mut Silent) {
        return Done::error(mistake.show(&script.source), UNREAD);
    }
    let labels = player.name_blocks();
    let deals = Deals::new(script.blocks());
    let numbers = sample(deals.count(), samples, seed);
    let mut progress = Progress::new(numbers.len());
    let mut rows = Vec::new();
    for &number in &numbers {
        let deal = deals.deal(number);
        let mut player = player.clone();
        if let Err(mistake) = player.play(&deal, &mut Silent) {
            return Done::error(mistake.show(&script.source), UNREAD);
        }
        rows.push(row(&player, script, &labels, &deal));
        progress.step();
    }
    drop(progress);
    let sheet = Sheet { script, labels, deals, rows, seed };
    let status = if sheet.rows.iter().all(|row| row.fine) { FINE } else { REFUSED };
    match args.has("--json") {
        true => Done::text(format!("{}\n", sheet.json().write()), status),
        false => Done::text(sheet.text(args.has("--all"), args.paint()), status),
    }
}

fn row(player: &Player, script: &Script, labels: &[Vec<String>], deal: &[Deal]) -> Row {
    let outcomes = player.outcomes.iter().flatten();
    Row {
        code: code::write(script, labels, deal),
        results: outcomes.map(|&(_, outcome)| outcome.result(&player.run)).collect(),
        rounds: player.run.round(),
        packets: player.run.packets().len(),
        fine: player.is_fine(),
    }
}
