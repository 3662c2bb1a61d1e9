//! The commands, listed in one place.

mod args;
mod check;
mod code;
mod help;
mod lesson;
mod orders;
mod replay;
mod run;
mod show;

pub use args::Args;

use crate::print::{output, Unwritten};

/// All is well.
pub const FINE: u8 = 0;
/// An expectation failed, or something was refused.
pub const REFUSED: u8 = 1;
/// Something cannot be read or written.
pub const UNREAD: u8 = 2;
/// The reader of the output has gone away, as `head` does: the status that a shell gives to a program
/// which a closed pipe ends, 128 + 13 (SIGPIPE).
pub const GONE: u8 = 141;

/// What a command leaves.
#[derive(Clone, Debug, Default)]
pub struct Done {
    /// For the standard output.
    pub out: Vec<u8>,
    /// For the standard error.
    pub err: String,
    /// The exit status.
    pub status: u8,
}

impl Done {
    /// Text for the standard output.
    pub fn text(text: impl Into<String>, status: u8) -> Done {
        Done { out: text.into().into_bytes(), err: String::new(), status }
    }

    /// A message for the standard error.
    pub fn error(message: impl Into<String>, status: u8) -> Done {
        Done { out: Vec::new(), err: message.into(), status }
    }

    /// Writes it all and gives the exit status; what cannot be written is told last.
    pub fn deliver(self) -> u8 {
        let out = output::out(&self.out);
        let err = output::err(&self.err);
        let Err(unwritten) = out.and(err) else { return self.status };
        let failed = Done::from(unwritten);
        // Where this cannot be told either, the status tells it.
        let _ = output::err(&failed.err);
        failed.status
    }
}

impl From<Unwritten> for Done {
    fn from(unwritten: Unwritten) -> Done {
        match unwritten {
            Unwritten::Gone => Done::error("", GONE),
            Unwritten::Failed(message) => Done::error(message, UNREAD),
        }
    }
}

/// A command.
pub struct Command {
    /// Its name.
    pub name: &'static str,
    /// How it is called.
    pub usage: &'static str,
    /// What it does, in a line.
    pub summary: &'static str,
    /// What more there is to know.
    pub help: &'static str,
    /// Options without a value.
    pub flags: &'static [&'static str],
    /// Options with a value.
    pub options: &'static [&'static str],
    /// Does it.
    pub run: fn(&Args) -> Done,
}

/// All commands.
pub const COMMANDS: &[Command] = &[
    show::SHOW,
    check::CHECK,
    code::ENCODE,
    code::DECODE,
    run::RUN,
    orders::ORDERS,
    lesson::LESSON,
    replay::REPLAY,
];

/// Does what the words after the program's name say.
pub fn main(words: &[String]) -> Done {
    let Some(name) = words.first() else { return run::first() };
    if matches!(name.as_str(), "--help" | "-h" | "help") {
        return match words.get(1).and_then(|name| find(name)) {
            Some(command) => Done::text(help::command(command), FINE),
            None => Done::text(help::program(), FINE),
        };
    }
    if name == "--version" {
        return Done::text(format!("pandabrass {}\n", env!("CARGO_PKG_VERSION")), FINE);
    }
    let Some(command) = find(name) else {
        let names: Vec<&str> = COMMANDS.iter().map(|command| command.name).collect();
        let message = format!("no command '{name}'\ncommands: {}\n", names.join(", "));
        return Done::error(message, UNREAD);
    };
    match Args::parse(&words[1..], command) {
        Ok(args) if args.has("--help") => Done::text(help::command(command), FINE),
        Ok(args) => (command.run)(&args),
        Err(message) => {
            let usage = format!("usage: pandabrass {} {}\n", command.name, command.usage);
            Done::error(format!("{message}\n{usage}"), UNREAD)
        }
    }
}

fn find(name: &str) -> Option<&'static Command> {
    COMMANDS.iter().find(|command| command.name == name)
}

/// "1 router, 1 active, 1 passive, 2 slots".
fn counts(plan: &trace::Plan) -> String {
    let counts = [
        (plan.routers(), "router"),
        (plan.actives(), "active"),
        (plan.passives(), "passive"),
        (plan.slots(), "slot"),
    ];
    counts.map(|(number, name)| trace::plan::count(number, name)).join(", ")
}

/// A refused plan's message.
pub fn told(file: &crate::plan::PlanFile, refused: &crate::plan::faults::Refused) -> String {
    check::told(file, refused, crate::print::Paint::none())
}

/// The booked entries of a table with their owners.
fn table_json(run: &trace::Run) -> crate::print::Json {
    use crate::print::Json;
    let entry = |(cell, owner): (trace::run::Cell, trace::Owner)| {
        Json::Object(vec![
            ("router", Json::Number(cell.port.router)),
            ("side", Json::Number(cell.port.side)),
            ("slot", Json::Number(cell.slot)),
            ("connection", Json::text(trace::run::letter(owner.connection))),
            ("hold", Json::text(trace::words::hold(owner.hold))),
        ])
    };
    Json::list(run.book().owned(), entry)
}
