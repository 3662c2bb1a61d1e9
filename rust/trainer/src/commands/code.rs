//! `encode` and `decode`: plan text to bytes and back.

use super::check::told;
use super::{Args, Command, Done, FINE, REFUSED, UNREAD};
use crate::plan::{decode, faults, PlanFile};
use crate::print::{output, Json, Paint};

/// Text to bytes.
pub const ENCODE: Command = Command {
    name: "encode",
    usage: "PLAN [--bytes] [-o FILE] [--json]",
    summary: "a plan's bytes, as hex digits or as they are",
    help: "\
PLAN is a file with plan text, hex digits or bytes, or - for the standard input. Hex digits are
printed; with --bytes the bytes themselves; with -o they go into FILE. A plan that the library
refuses is encoded all the same; then the refusal is told and the exit status is 1.

Plan text has a statement a line, in any order; # begins a comment:
  slots N                                   2 to 32
  capacity KIND N, ..                       1 to 7; KIND: all, active-out, active-in, U, Q, F, K,
                                            passive-in, passive-out; 1 where none is given;
                                            of the Q of each side, and of both its F
  router NAME, ..                           numbered in order, from 0
  active NAME at ROUTER.SIDE                passive NAME at ROUTER.SIDE
  joint ROUTER.SIDE -- ROUTER.SIDE          both ends, once
  serve all | ACTIVE -> PASSIVE, ..         all where nothing is said
  route ROUTER to NAME by SIDE | none       wins over the shortest way
  bytes HEX ..                              instead of all others
Routes that are left out are given for the pairs to be served only: the fewest routers, then the
lowest side. Since routes go by destination, other pairs may come to be served: check names them.
",
    flags: &["--bytes", "--json"],
    options: &["-o"],
    run: encode,
};

/// Bytes to text.
pub const DECODE: Command = Command {
    name: "decode",
    usage: "PLAN [-o FILE] [--json]",
    summary: "a plan's text, which encodes to the same bytes",
    help: "\
PLAN is a file with bytes, hex digits or plan text, - for the standard input, or hex digits. What
statements cannot say, as a plan that does not load, is told by its bytes.
",
    flags: &["--json"],
    options: &["-o"],
    run: decode,
};

fn encode(args: &Args) -> Done {
    let file = match open(args) {
        Ok(file) => file,
        Err(done) => return done,
    };
    let hex = format!("{}\n", decode::hex(&file.bytes));
    let out = if args.has("--bytes") { file.bytes.clone() } else { hex.into_bytes() };
    let mut done = match faults::find(&file) {
        Ok(_) => Done { out, err: String::new(), status: FINE },
        Err(refused) => Done { out, err: told(&file, &refused, Paint::none()), status: REFUSED },
    };
    if args.has("--json") {
        let fields = vec![
            ("plan", Json::text(&file.name)),
            ("bytes", Json::text(decode::hex(&file.bytes))),
            ("loads", Json::Bool(done.status == FINE)),
        ];
        done.out = format!("{}\n", Json::Object(fields).write()).into_bytes();
    }
    keep(args, done)
}

fn decode(args: &Args) -> Done {
    let file = match open(args) {
        Ok(file) => file,
        Err(done) => return done,
    };
    let text = decode::text(&file.bytes, Some(&file.names));
    let out = match args.has("--json") {
        true => {
            let fields = vec![("plan", Json::text(&file.name)), ("text", Json::text(text))];
            format!("{}\n", Json::Object(fields).write())
        }
        false => text,
    };
    let done = match faults::find(&file) {
        Ok(_) => Done::text(out, FINE),
        Err(refused) => Done {
            out: out.into_bytes(),
            err: told(&file, &refused, Paint::none()),
            status: REFUSED,
        },
    };
    keep(args, done)
}

fn open(args: &Args) -> Result<PlanFile, Done> {
    let [name] = args.names.as_slice() else {
        return Err(Done::error("which plan? give one file, hex digits, or -\n", UNREAD));
    };
    PlanFile::open(name).map_err(|unread| Done::error(unread.show(), UNREAD))
}

/// Puts the output into the file that -o names.
pub fn keep(args: &Args, done: Done) -> Done {
    let Some(file) = args.value("-o") else { return done };
    match output::file(file, &done.out) {
        Ok(()) => Done { out: Vec::new(), ..done },
        Err(unwritten) => unwritten.into(),
    }
}
