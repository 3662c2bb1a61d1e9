//! `check`: loads, or why not.

use trace::plan::count;
use trace::Plan;

use super::{counts, Args, Command, Done, FINE, REFUSED, UNREAD};
use crate::plan::faults::{find, Refused};
use crate::plan::PlanFile;
use crate::print::{grouped, wrap, Colour, Json, Paint};

/// The command.
pub const CHECK: Command = Command {
    name: "check",
    usage: "PLAN.. [--json]",
    summary: "whether plans load, and if not the refusal with its place",
    help: "\
PLAN is a file with plan text, hex digits or bytes, - for the standard input, or hex digits.
The refusal's number is the library's. Sentence and place are this program's, and are given only
if they belong to that number: in a text the line and column, else byte and bit, the joint, the
interface, or the ring as a chain of queues with the pairs that make it.
",
    flags: &["--json"],
    options: &[],
    run,
};

fn run(args: &Args) -> Done {
    if args.names.is_empty() {
        return Done::error("which plan? pandabrass check PLAN..\n", UNREAD);
    }
    let mut done = Done::default();
    let mut values = Vec::new();
    for name in &args.names {
        let (text, value, status) = match PlanFile::open(name) {
            Err(unread) => {
                done.err += &unread.show();
                let fields =
                    vec![("plan", Json::text(name)), ("unread", Json::text(unread.show()))];
                (String::new(), Json::Object(fields), UNREAD)
            }
            Ok(file) => match find(&file) {
                Ok(plan) => (loads(&file, &plan, args.paint()), loaded_json(&file, &plan), FINE),
                Err(refused) => {
                    (told(&file, &refused, args.paint()), refused_json(&file, &refused), REFUSED)
                }
            },
        };
        if !args.has("--json") {
            done.out.extend(text.into_bytes());
        }
        values.push(value);
        done.status = done.status.max(status);
    }
    if args.has("--json") {
        done.out = format!("{}\n", Json::List(values).write()).into_bytes();
    }
    done
}

/// "t.plan: loads: 1 router, ..".
fn loads(file: &PlanFile, plan: &Plan, paint: Paint) -> String {
    let served = plan.pairs().iter().filter(|pair| pair.served.is_ok()).count();
    let mut text = format!("{}: {}: ", file.name, paint.text(Colour::Green, "loads"));
    let counts = format!(
        "{}; {} of {} served; a state has {} bytes",
        counts(plan),
        served,
        count(plan.pairs().len(), "pair"),
        grouped(plan.loaded().state_size()),
    );
    text += &wrap(&counts, 4, file.name.chars().count() + 9);
    text.push('\n');
    text + &unasked(file, plan)
}

/// Pairs that come to be served without being asked for.
pub fn unasked(file: &PlanFile, plan: &Plan) -> String {
    let Some(asked) = file.asked() else { return String::new() };
    let names = plan.names();
    let pairs = plan.pairs().iter().filter(|pair| pair.served.is_ok());
    let others = pairs.filter(|pair| !asked.contains(&(pair.active, pair.passive)));
    let others: Vec<String> = others
        .map(|pair| format!("{} -> {}", names.active(pair.active), names.passive(pair.passive)))
        .collect();
    if others.is_empty() {
        return String::new();
    }
    let served = "served without being asked for, since routes go by destination: ";
    format!("    {}\n", wrap(&format!("{served}{}", others.join(", ")), 4, 4))
}

/// "r2.plan: refused 2: ..".
pub fn told(file: &PlanFile, refused: &Refused, paint: Paint) -> String {
    let refusal = format!("refused {}", refused.refusal.number());
    let head = format!("{}: {refusal}: ", file.name);
    let (first, rest) = refused.sentence.split_once('\n').unwrap_or((&refused.sentence, ""));
    let first = wrap(first, 4, head.chars().count());
    let rest = if rest.is_empty() { String::new() } else { format!("{rest}\n") };
    let refusal = paint.text(Colour::Red, &refusal);
    format!("{}: {refusal}: {first}\n{rest}", file.name)
}

fn loaded_json(file: &PlanFile, plan: &Plan) -> Json {
    let served = plan.pairs().iter().filter(|pair| pair.served.is_ok()).count();
    Json::Object(vec![
        ("plan", Json::text(&file.name)),
        ("loads", Json::Bool(true)),
        ("routers", Json::Number(plan.routers())),
        ("actives", Json::Number(plan.actives())),
        ("passives", Json::Number(plan.passives())),
        ("slots", Json::Number(plan.slots())),
        ("served", Json::Number(served)),
        ("state_bytes", Json::Number(plan.loaded().state_size())),
    ])
}

fn refused_json(file: &PlanFile, refused: &Refused) -> Json {
    let mut fields = vec![
        ("plan", Json::text(&file.name)),
        ("loads", Json::Bool(false)),
        ("refused", Json::Number(refused.refusal.number() as usize)),
        ("sentence", Json::text(&refused.sentence)),
    ];
    if let Some(at) = refused.at {
        fields.push(("line", Json::Number(at.line)));
        fields.push(("column", Json::Number(at.column)));
    }
    if let Some(bit) = refused.bit {
        fields.push(("byte", Json::Number(bit / 8)));
        fields.push(("bit", Json::Number(bit % 8)));
    }
    if let Some(ring) = &refused.ring {
        let queues = Json::list(&ring.queues, |&queue| Json::text(file.names.queue(queue)));
        fields.push(("ring", queues));
    }
    Json::Object(fields)
}
