//! `show`: a plan with its map, walks and ways back.

use trace::plan::{count, Interface, Stop, Unserved, CAPACITIES};
use trace::{Joint, Names, Pair, Plan, Port, Served};

use super::check::{told, unasked};
use super::{counts, Args, Command, Done, FINE, REFUSED, UNREAD};
use crate::plan::{decode, faults, PlanFile};
use crate::print::{columns, grouped, map, wrap, Colour, Json, Paint};

/// From so many pairs on, only some are shown.
const MANY: usize = 12;

/// The command.
pub const SHOW: Command = Command {
    name: "show",
    usage: "[PLAN] [--all] [--json]",
    summary: "a plan: counts, capacities, map, served pairs with walk and ways back",
    help: "\
PLAN is a file with plan text, hex digits or bytes, - for the standard input, or hex digits;
without it plan T of document 01. In the map, '<' comes from an active and '>' leads to a passive.
A walk is written side in, router, side out. Large plans are shortened; --all shows everything.
",
    flags: &["--all", "--json"],
    options: &[],
    run,
};

fn run(args: &Args) -> Done {
    let file = match args.names.as_slice() {
        [] => Ok(PlanFile::t()),
        [name] => PlanFile::open(name),
        _ => return Done::error("show takes one plan\n", UNREAD),
    };
    let file = match file {
        Ok(file) => file,
        Err(unread) => return Done::error(unread.show(), UNREAD),
    };
    match faults::find(&file) {
        Err(refused) => Done::error(told(&file, &refused, Paint::none()), REFUSED),
        Ok(plan) if args.has("--json") => {
            Done::text(format!("{}\n", json(&file, &plan).write()), FINE)
        }
        Ok(plan) => Done::text(text(&file, &plan, args.has("--all"), args.paint()), FINE),
    }
}

fn text(file: &PlanFile, plan: &Plan, all: bool, paint: Paint) -> String {
    let counts = format!(
        "{}; {} plan bytes; a state has {} bytes",
        counts(plan),
        plan.bytes().len(),
        grouped(plan.loaded().state_size()),
    );
    let counts = wrap(&counts, 4, file.name.chars().count() + 2);
    let mut text = format!("{}: {counts}\n", paint.text(Colour::Bold, &file.name));
    if all || plan.bytes().len() <= 32 {
        text += &format!("    {}\n", wrap(&decode::hex(plan.bytes()), 4, 4));
    }
    text += &format!("    {}\n\n", wrap(&capacities(plan), 4, 4));
    text += &map::text(plan);
    text.push('\n');
    text += &served(plan, all);
    text += &unserved(plan, all);
    text + &unasked(file, plan)
}

fn capacities(plan: &Plan) -> String {
    let capacities = CAPACITIES.iter().zip(plan.fields().capacities);
    let told: Vec<String> = capacities.map(|(name, number)| format!("{name} {number}")).collect();
    format!("capacities: {}; allowance of each active: {}", told.join(", "), plan.start_allowance())
}

fn served(plan: &Plan, all: bool) -> String {
    let pairs = plan.pairs().iter().filter_map(|pair| Some((pair, pair.served.as_ref().ok()?)));
    let pairs: Vec<(&Pair, &Served)> = pairs.collect();
    let short = !all && pairs.len() > MANY;
    let shown = if short { &pairs[..MANY / 2] } else { &pairs[..] };
    let mut text =
        format!("    served: {} of {}\n", pairs.len(), count(plan.pairs().len(), "pair"));
    for (pair, served) in shown {
        text += &walk(plan, pair, served);
        if !short {
            text += &ways_back(plan, pair, served);
        }
    }
    if short {
        text += &format!("      .. and {} more: --all\n", pairs.len() - shown.len());
    }
    text
}

/// "camera -> drive   2 routers: 0 r0 1, 0 r1 1".
fn walk(plan: &Plan, pair: &Pair, served: &Served) -> String {
    let names = plan.names();
    let hop =
        |hop: &trace::Hop| format!("{} {} {}", hop.came_in, names.router(hop.router), hop.side);
    let hops: Vec<String> = served.walk.iter().map(hop).collect();
    let head = format!("      {}   ", told_pair(names, pair));
    let walk = format!("{}: {}", count(served.walk.len(), "router"), hops.join(", "));
    format!("{head}{}\n", wrap(&walk, 10, head.chars().count()))
}

/// From each router of the walk, the sides by which answers leave.
fn ways_back(plan: &Plan, pair: &Pair, served: &Served) -> String {
    let names = plan.names();
    let way = |back: &Vec<Port>| {
        let sides: Vec<String> = back.iter().map(|&port| names.port(port)).collect();
        sides.join(" ")
    };
    let ways: Vec<String> = served.back.iter().map(way).collect();
    let line = format!("back to {}: {}", names.active(pair.active), ways.join("; "));
    format!("        {}\n", wrap(&line, 10, 8))
}

fn told_pair(names: &Names, pair: &Pair) -> String {
    format!("{} -> {}", names.active(pair.active), names.passive(pair.passive))
}

fn unserved(plan: &Plan, all: bool) -> String {
    let pairs = plan.pairs().iter().filter_map(|pair| Some((pair, pair.served.as_ref().err()?)));
    let rows: Vec<Vec<String>> = pairs
        .map(|(pair, why)| vec![told_pair(plan.names(), pair), reason(plan, pair, *why)])
        .collect();
    if rows.is_empty() {
        return String::new();
    }
    let shown = if all || rows.len() <= MANY { rows.len() } else { MANY / 2 };
    let mut text = format!("    not served: {}\n", count(rows.len(), "pair"));
    for line in columns(&rows[..shown]) {
        text += &format!("      {line}\n");
    }
    if shown < rows.len() {
        text += &format!("      .. and {} more: --all\n", rows.len() - shown);
    }
    text
}

/// Why a pair is not served.
fn reason(plan: &Plan, pair: &Pair, why: Unserved) -> String {
    let names = plan.names();
    match why {
        Unserved::There(stop) => stopped(plan, stop, Interface::Passive(pair.passive)),
        Unserved::Back(router, stop) => format!(
            "the way back from {}: {}",
            names.router(router),
            stopped(plan, stop, Interface::Active(pair.active))
        ),
        Unserved::Unknown => "the library says so".to_string(),
    }
}

fn stopped(plan: &Plan, stop: Stop, to: Interface) -> String {
    let names = plan.names();
    let to = match to {
        Interface::Active(number) => names.active(number),
        Interface::Passive(number) => names.passive(number),
    };
    match stop {
        Stop::NoSide(router) => format!("{} has no side for {to}", names.router(router)),
        Stop::Twice(router) => format!("{} is met twice", names.router(router)),
        Stop::Elsewhere(port) => {
            let leads = match plan.joint(port) {
                Joint::Nothing => "to nothing".to_string(),
                Joint::Router(next) => format!("to {}", names.router(next.router)),
                Joint::Active(number) => format!("to {}", names.active(number)),
                Joint::Passive(number) => format!("to {}", names.passive(number)),
            };
            format!("{} leads {leads}, not to {to}", names.port(port))
        }
    }
}

fn json(file: &PlanFile, plan: &Plan) -> Json {
    let names = plan.names();
    let list = |names: &[String]| Json::list(names, |name: &String| Json::text(name));
    let pair = |pair: &Pair| {
        let walk = pair.served.as_ref().map(|served| {
            Json::list(&served.walk, |hop| {
                let numbers = [hop.router, hop.came_in, hop.side];
                Json::list(numbers, Json::Number)
            })
        });
        Json::Object(vec![
            ("active", Json::Number(pair.active)),
            ("passive", Json::Number(pair.passive)),
            ("served", Json::Bool(pair.served.is_ok())),
            match walk {
                Ok(walk) => ("walk", walk),
                Err(why) => ("reason", Json::text(reason(plan, pair, *why))),
            },
        ])
    };
    Json::Object(vec![
        ("plan", Json::text(&file.name)),
        ("bytes", Json::text(decode::hex(plan.bytes()))),
        ("slots", Json::Number(plan.slots())),
        ("capacities", Json::list(plan.fields().capacities, Json::Number)),
        ("routers", list(&names.routers)),
        ("actives", list(&names.actives)),
        ("passives", list(&names.passives)),
        ("state_bytes", Json::Number(plan.loaded().state_size())),
        ("joints", joints_json(plan)),
        ("routes", routes_json(plan)),
        ("pairs", Json::list(plan.pairs(), pair)),
    ])
}

/// By router, by side: what it is joined to, by name.
fn joints_json(plan: &Plan) -> Json {
    let names = plan.names();
    Json::list(&plan.fields().joints, |sides| {
        Json::list(sides, |joint| match *joint {
            Joint::Nothing => Json::Null,
            Joint::Router(port) => Json::text(names.port(port)),
            Joint::Active(number) => Json::text(names.active(number)),
            Joint::Passive(number) => Json::text(names.passive(number)),
        })
    })
}

/// By router, by destination, actives first: the side.
fn routes_json(plan: &Plan) -> Json {
    let side = |side: &Option<usize>| Json::option(side.map(Json::Number));
    Json::list(&plan.fields().routes, |row| Json::list(row, side))
}
