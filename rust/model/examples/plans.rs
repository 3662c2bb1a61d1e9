//! Prints the named plans, a line each: name, bytes in base sixteen, Load's answer.

fn main() {
    for plan in model::named::all() {
        let hex: String = plan.bytes.iter().map(|byte| format!("{byte:02X}")).collect();
        let hex = if hex.is_empty() { "-".to_string() } else { hex };
        println!("{} {} {}", plan.name, hex, plan.answer);
    }
}
