//! The data block of the page: the recording as JSON.

use trace::{Joint, Plan, Port};

use crate::places::{Shared, Told};
use crate::recording::{Recording, FORMAT};

/// The whole block.
pub fn block(recording: &Recording) -> String {
    let plan = &recording.plan;
    let names = plan.names();
    let places: Vec<String> = recording.places.told().iter().map(place).collect();
    let outputs: Vec<String> = recording.places.shared().iter().map(shared).collect();
    let connections: Vec<String> = recording
        .letters()
        .map(|(told, letter)| {
            format!("[{},{},{},{}]", told.active, told.passive, told.start, string(&letter))
        })
        .collect();
    let fields = [
        format!("\"format\":{}", string(FORMAT)),
        format!("\"title\":{}", string(&recording.title)),
        format!("\"note\":{}", string(&recording.note)),
        format!("\"plan\":{}", plan_object(plan)),
        format!(
            "\"names\":{{\"r\":{},\"a\":{},\"p\":{}}}",
            strings(&names.routers),
            strings(&names.actives),
            strings(&names.passives)
        ),
        format!("\"places\":[{}]", places.join(",\n")),
        format!("\"outputs\":[{}]", outputs.join(",")),
        format!("\"connections\":[{}]", connections.join(",")),
        format!("\"start\":{}", string(&recording.start)),
        format!("\"calls\":{}", string(&recording.lines().join("\n"))),
    ];
    format!("{{{}}}", fields.join(",\n"))
}

/// What the page needs of the plan.
fn plan_object(plan: &Plan) -> String {
    let hex: String = plan.bytes().iter().map(|byte| format!("{byte:02x}")).collect();
    let joints: Vec<String> = (0..plan.routers()).map(|router| joints(plan, router)).collect();
    let walks: Vec<String> = plan.pairs().iter().filter_map(walk).collect();
    format!(
        "{{\"R\":{},\"A\":{},\"P\":{},\"S\":{},\"allowance\":{},\"joint\":[{}],\"walk\":[{}],\"hex\":{}}}",
        plan.routers(),
        plan.actives(),
        plan.passives(),
        plan.slots(),
        plan.start_allowance(),
        joints.join(","),
        walks.join(","),
        string(&hex)
    )
}

/// A router's four joints: kind, number and the partner's side, as in the plan bytes.
fn joints(plan: &Plan, router: usize) -> String {
    let joint = |side| match plan.joint(Port { router, side }) {
        Joint::Nothing => "[0,0,0]".to_string(),
        Joint::Router(next) => format!("[1,{},{}]", next.router, next.side),
        Joint::Active(number) => format!("[2,{number},0]"),
        Joint::Passive(number) => format!("[3,{number},0]"),
    };
    format!("[{}]", [0, 1, 2, 3].map(joint).join(","))
}

/// A served pair with its walk: router, side it came in by, side it leaves by.
fn walk(pair: &trace::Pair) -> Option<String> {
    let served = pair.served.as_ref().ok()?;
    let hops = served.walk.iter().map(|hop| format!("{},{},{}", hop.router, hop.came_in, hop.side));
    let hops: Vec<String> = hops.collect();
    Some(format!("[{},{},[{}]]", pair.active, pair.passive, hops.join(",")))
}

/// A place: spot, name, label, capacity, credit, and the spot's numbers.
fn place(told: &Told) -> String {
    let numbers: String = told.numbers.iter().map(|number| format!(",{number}")).collect();
    format!(
        "[{},{},{},{},{}{numbers}]",
        string(told.spot),
        string(&told.name),
        string(&told.label),
        told.capacity,
        u8::from(told.credit)
    )
}

/// An output that several senders share: its name and its senders in order.
fn shared(told: &Shared) -> String {
    let senders: Vec<String> = told.senders.iter().map(usize::to_string).collect();
    format!("[{},[{}]]", string(&told.name), senders.join(","))
}

/// A list of strings.
fn strings(items: &[String]) -> String {
    let items: Vec<String> = items.iter().map(|item| string(item)).collect();
    format!("[{}]", items.join(","))
}

/// A string, written so that it can stand in a script block: `<` never begins a tag there.
pub fn string(text: &str) -> String {
    let mut written = String::from("\"");
    for sign in text.chars() {
        match sign {
            '"' => written.push_str("\\\""),
            '\\' => written.push_str("\\\\"),
            '\n' => written.push_str("\\n"),
            '<' => written.push_str("\\u003c"),
            sign if sign < ' ' || sign == '\u{2028}' || sign == '\u{2029}' => {
                written.push_str(&format!("\\u{:04x}", u32::from(sign)));
            }
            sign => written.push(sign),
        }
    }
    written.push('"');
    written
}

#[cfg(test)]
mod tests {
    use super::string;

    #[test]
    fn no_string_ends_the_script_block() {
        assert_eq!(string("a</script>\n\"\\\t"), r#""a\u003c/script>\n\"\\\u0009""#);
    }
}
