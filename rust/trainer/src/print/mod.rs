//! What is printed: lines of calls, slot tables, maps, colour, JSON, progress; and how it is written.

pub mod json;
pub mod lines;
pub mod map;
pub mod output;
pub mod paint;
pub mod progress;
pub mod table;
pub mod whereabouts;

pub use json::Json;
pub use output::Unwritten;
pub use paint::{Colour, Paint};

/// The widest line.
pub const WIDTH: usize = 100;

/// What is shown, and when it is so: round, phase, slot.
fn heading(what: &str, run: &trace::Run, paint: Paint) -> String {
    let (what, net) = (paint.text(Colour::Bold, what), run.net());
    let (round, phase, slot) = (run.round(), net.phase.name(), net.slot);
    format!("     {what}   round {round}, {phase}, slot {slot}\n")
}

/// Breaks a text into lines that fit behind an indent; the first may begin further right.
pub fn wrap(text: &str, indent: usize, first: usize) -> String {
    let mut wrapped = String::new();
    let mut column = first;
    for word in text.split(' ') {
        let length = word.chars().count();
        let begins = column == first && wrapped.is_empty();
        if !begins && column + 1 + length > WIDTH {
            wrapped += &format!("\n{:indent$}", "");
            column = indent;
        } else if !begins {
            wrapped.push(' ');
            column += 1;
        }
        wrapped += word;
        column += length;
    }
    wrapped
}

/// Rows with their columns under each other, two blanks between.
pub fn columns(rows: &[Vec<String>]) -> Vec<String> {
    let count = rows.iter().map(Vec::len).max().unwrap_or(0);
    let width = |at: usize| {
        rows.iter().filter_map(|row| row.get(at)).map(|cell| cell.chars().count()).max()
    };
    let widths: Vec<usize> = (0..count).map(|at| width(at).unwrap_or(0)).collect();
    let line = |row: &Vec<String>| {
        let cells = row.iter().zip(&widths).map(|(cell, &width)| format!("{cell:width$}"));
        cells.collect::<Vec<_>>().join("  ").trim_end().to_string()
    };
    rows.iter().map(line).collect()
}

/// A number with commas: 1,354.
pub fn grouped(number: impl ToString) -> String {
    let digits = number.to_string();
    let mut text = String::new();
    for (at, digit) in digits.chars().enumerate() {
        if at > 0 && (digits.len() - at).is_multiple_of(3) {
            text.push(',');
        }
        text.push(digit);
    }
    text
}
