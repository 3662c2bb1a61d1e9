//! `run`: plays a script.

use trace::plan::count;
use trace::{words, Proved, Run, Step};

use super::orders::dealt;
use super::{Args, Command, Done, FINE, REFUSED, UNREAD};
use crate::play::{Player, Teller, Waited};
use crate::print::lines::Lines;
use crate::print::{wrap, Colour, Json, Paint};
use crate::script::{self, Broken, Script, Statement};
use crate::text::Source;

/// The command.
pub const RUN: Command = Command {
    name: "run",
    usage: "SCRIPT [--brief] [--order ORDER] [--json]",
    summary: "plays a script: one line a call, slot tables, expectations",
    help: "\
A script names its plan first, then what is to be done, a statement a line (or with ; between):
  plan FILE | plan bytes HEX..            the plan's file is looked for beside the script
  launch ACTIVE PASSIVE SLOT              reply PASSIVE accept|decline
  look ACTIVE                             the head of its in-queue, in any phase; nothing changes
  remaining                               what is under way, in any phase; nothing changes
  drop ACTIVE                             removes it; the Drop of an ACK accepts the connection
  close ACTIVE PASSIVE SLOT               an accepted connection, by the slot of its launch
  entry ROUTER.SIDE SLOT                  read    execute    write
  round [N]                               N whole rounds
  until round N    until quiet [within N] to READ|EXECUTE|WRITE
  wait                                    whole rounds until the network is empty: asks Remaining,
                                          then every passive replies (as it stands, else it accepts)
                                          and every active drops; at most the rounds promised
  passive NAME|all accepts|declines|waits standing, from here on, in each WRITE of a whole round
  active NAME|all drops|waits             the same
  any order [spaced N[..N]] { launch ..; reply .. }
                                          as written; pandabrass orders tries all orders and gaps
  show table    show where
  expect ok | refused N | ack|nack slot N hub N | free | side N | remaining N      of the last call
  expect quiet | round N | entry ROUTER.SIDE SLOT free|side N | allowance ACTIVE N
  expect empty within N                   as 'wait' from here on would find it, tried on a copy, a
                                          round that has begun counts; right after 'wait': from
                                          where that began
  expect [not] accepted ACTIVE PASSIVE SLOT                             accepted, not closed since
  expect at r0.F1set|drive.in|.. setup|tdown|ack|nack slot N hub N
  expect last r0.U0|r0.Q0|r0.F1set|r0.F1ans|r0.K01|..                   its output served it last
  expect table empty | table ACTIVE PASSIVE SLOT, ..                    the table is theirs alone
Names or numbers; a number out of range is passed on, so that refusal 9 can be shown.

--brief leaves out calls that only move packets. --order plays one order of the blocks: letters as
pandabrass orders gives them, with the rounds between (C3B3A), + between blocks.
A call that is refused while no expect line follows makes the exit status 1.
",
    flags: &["--brief", "--json"],
    options: &["--order"],
    run,
};

/// The first starred run, for a program without arguments.
const FIRST: &str = include_str!("../../../../scripts/first.run");

fn run(args: &Args) -> Done {
    let [name] = args.names.as_slice() else {
        return Done::error("which script? pandabrass run SCRIPT\n", UNREAD);
    };
    match script::open(name) {
        Err(broken) => unplayed(broken),
        Ok(script) => play(&script, args),
    }
}

/// A script that cannot be played.
pub fn unplayed(broken: Broken) -> Done {
    match broken {
        Broken::Unread(message) => Done::error(message, UNREAD),
        Broken::Refused(message) => Done::error(message, REFUSED),
    }
}

fn play(script: &Script, args: &Args) -> Done {
    let deals = match dealt(script, args) {
        Ok(deals) => deals,
        Err(done) => return done,
    };
    let proved = Proved::new(&script.plan);
    let mut player = Player::new(script, &proved);
    if args.has("--json") {
        let mut teller = JsonLines::default();
        let played = player.play(&deals, &mut teller);
        let ended = played.map_err(|mistake| mistake.show(&script.source));
        return teller.done(&player, script, ended);
    }
    let mut lines = Lines::new(args.has("--brief"), args.paint());
    let played = player.play(&deals, &mut lines);
    lines.flush();
    if let Err(mistake) = played {
        let (out, err) = (lines.text.into_bytes(), mistake.show(&script.source));
        return Done { out, err, status: UNREAD };
    }
    let status = if player.is_fine() { FINE } else { REFUSED };
    Done::text(lines.text + &summary(&player, script, args.paint()), status)
}

/// "first.run: 28 calls in 8 rounds, 5 expectations, 0 failed".
fn summary(player: &Player, script: &Script, paint: Paint) -> String {
    let mut line = format!(
        "{}: {} in {}, {}, {} failed",
        script.source.name,
        count(player.run.calls_made(), "call"),
        count(player.run.round(), "round"),
        count(player.checked, "expectation"),
        player.failed
    );
    if player.surprises > 0 {
        line += &format!(", {} not expected", count(player.surprises, "refusal"));
    }
    let colour = if player.is_fine() { Colour::Green } else { Colour::Red };
    format!("{}\n", paint.text(colour, &wrap(&line, 4, 0)))
}

/// Without arguments: the first starred run on T.
pub fn first() -> Done {
    let source = Source { name: "first.run".to_string(), text: FIRST.to_string() };
    let script = match script::of_text(source, &|_| Ok(crate::plan::PlanFile::t())) {
        Ok(script) => script,
        Err(broken) => return unplayed(broken),
    };
    let mut done = play(&script, &Args::default());
    done.out.extend_from_slice(b"pandabrass --help tells what else there is.\n");
    done
}

/// A run's calls for other programs, one JSON object a line.
#[derive(Default)]
struct JsonLines {
    text: String,
}

impl JsonLines {
    fn push(&mut self, value: Vec<(&'static str, Json)>) {
        self.text += &format!("{}\n", Json::Object(value).write());
    }

    fn done(mut self, player: &Player, script: &Script, ended: Result<(), String>) -> Done {
        let fine = player.is_fine() && ended.is_ok();
        self.push(vec![
            ("script", Json::text(&script.source.name)),
            ("calls", Json::Number(player.run.calls_made())),
            ("rounds", Json::Number(player.run.round())),
            ("expectations", Json::Number(player.checked)),
            ("failed", Json::Number(player.failed)),
            ("refusals_not_expected", Json::Number(player.surprises)),
            ("fine", Json::Bool(fine)),
        ]);
        let status = match ended {
            Err(_) => UNREAD,
            Ok(()) if fine => FINE,
            Ok(()) => REFUSED,
        };
        Done { out: self.text.into_bytes(), err: ended.err().unwrap_or_default(), status }
    }
}

impl Teller for JsonLines {
    fn step(&mut self, run: &Run, step: &Step) {
        let refused = step.answer.err().map(|refusal| Json::Number(refusal.number() as usize));
        self.push(vec![
            ("number", Json::Number(step.number)),
            ("round", Json::Number(step.round)),
            ("phase", Json::text(step.phase.name())),
            ("slot", Json::Number(step.slot)),
            ("call", Json::text(words::call(run.plan().names(), step.call))),
            ("refused", Json::option(refused)),
            ("words", Json::text(words::step(run, step))),
        ]);
    }

    fn expected(&mut self, _: &Script, statement: &Statement, found: Option<&str>) {
        self.push(vec![
            ("expect", Json::text(statement.text.trim_start_matches("expect "))),
            ("line", Json::Number(statement.at.line)),
            ("found", Json::option(found.map(Json::text))),
        ]);
    }

    fn table(&mut self, run: &Run) {
        self.push(vec![("table", super::table_json(run))]);
    }

    fn whereabouts(&mut self, run: &Run) {
        let names = run.plan().names();
        let packets = Json::list(run.packets(), |seated| {
            Json::Object(vec![
                ("connection", Json::text(run.letter(seated.id))),
                ("kind", Json::text(words::kind(seated.packet.kind))),
                ("slot", Json::Number(seated.packet.slot.into())),
                ("hub", Json::Number(seated.packet.hub.into())),
                ("place", Json::text(names.place(seated.place))),
            ])
        });
        self.push(vec![("where", packets)]);
    }

    fn waited(&mut self, _: &Script, statement: &Statement, waited: &Waited) {
        self.push(vec![
            ("wait", Json::text(waited.words())),
            ("line", Json::Number(statement.at.line)),
            ("packets", Json::Number(waited.promised.packets as usize)),
            ("promised", Json::Number(waited.promised.rounds as usize)),
            ("rounds", Json::Number(waited.rounds)),
            ("empty", Json::Bool(waited.left.is_none())),
        ]);
    }

    fn note(&mut self, text: &str) {
        self.push(vec![("note", Json::text(text))]);
    }
}
