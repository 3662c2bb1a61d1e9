//! A drawn map: routers as boxes with their four sides, joints between neighbours as lines.

use trace::place::SIDES;
use trace::{Joint, Plan, Port};

use super::WIDTH;

/// Blanks between two boxes, over which a joint is drawn.
const BETWEEN: usize = 7;
/// The most boxes beside each other.
const BESIDE: usize = 5;

/// The map.
pub fn text(plan: &Plan) -> String {
    let boxes: Vec<Vec<String>> = (0..plan.routers()).map(|router| sides(plan, router)).collect();
    let longest = boxes.iter().flatten().map(|line| line.chars().count()).max().unwrap_or(0);
    let names = (0..plan.routers()).map(|router| plan.names().router(router).chars().count());
    let width = longest.max(names.max().unwrap_or(0) + 4);
    let fit = ((WIDTH - 4 + BETWEEN) / (width + 4 + BETWEEN)).clamp(1, BESIDE);
    let mut text = String::new();
    for row in rows(plan, fit) {
        text += &draw(plan, &row, &boxes, width);
    }
    text
}

/// What the four sides of a router lead to: `<` from an active, `>` to a passive.
fn sides(plan: &Plan, router: usize) -> Vec<String> {
    let names = plan.names();
    let line = |side| match plan.joint(Port { router, side }) {
        Joint::Nothing => format!("{side}"),
        Joint::Router(next) => format!("{side} - {}", names.port(next)),
        Joint::Active(number) => format!("{side} < {}", names.active(number)),
        Joint::Passive(number) => format!("{side} > {}", names.passive(number)),
    };
    (0..SIDES).map(line).collect()
}

/// Routers in rows, so that many neighbours stand beside each other.
fn rows(plan: &Plan, fit: usize) -> Vec<Vec<usize>> {
    let mut left: Vec<usize> = (0..plan.routers()).collect();
    left.sort_by_key(|&router| (neighbours(plan, router).len(), router));
    let mut rows: Vec<Vec<usize>> = Vec::new();
    let mut current: Option<usize> = None;
    while !left.is_empty() {
        let beside = current.and_then(|router| {
            neighbours(plan, router).into_iter().find(|next| left.contains(next))
        });
        let next = beside.unwrap_or(left[0]);
        left.retain(|&router| router != next);
        match rows.last_mut() {
            Some(row) if row.len() < fit && beside.is_some() => row.push(next),
            _ => rows.push(vec![next]),
        }
        current = Some(next);
    }
    rows
}

fn neighbours(plan: &Plan, router: usize) -> Vec<usize> {
    let joined = |side| match plan.joint(Port { router, side }) {
        Joint::Router(next) => Some(next.router),
        _ => None,
    };
    (0..SIDES).filter_map(joined).collect()
}

/// One row of boxes, six lines.
fn draw(plan: &Plan, row: &[usize], boxes: &[Vec<String>], width: usize) -> String {
    let mut lines = vec!["    ".to_string(); SIDES + 2];
    for (place, &router) in row.iter().enumerate() {
        let name = plan.names().router(router);
        let dashes = (width + 2).saturating_sub(name.chars().count() + 3);
        lines[0] += &format!("+- {name} {}+", "-".repeat(dashes));
        for (side, text) in boxes[router].iter().enumerate() {
            lines[1 + side] += &format!("| {text:width$} |");
        }
        lines[SIDES + 1] += &format!("+{}+", "-".repeat(width + 2));
        let Some(&next) = row.get(place + 1) else { continue };
        for (number, line) in lines.iter_mut().enumerate() {
            let side = number.wrapping_sub(1);
            let leads = side < SIDES
                && matches!(plan.joint(Port { router, side }), Joint::Router(to) if to.router == next);
            *line += &if leads { "-" } else { " " }.repeat(BETWEEN);
        }
    }
    let lines: Vec<String> = lines.iter().map(|line| line.trim_end().to_string()).collect();
    format!("{}\n", lines.join("\n"))
}
