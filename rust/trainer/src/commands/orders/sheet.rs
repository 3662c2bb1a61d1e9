//! The orders that were played, as a sheet: who is accepted in which, what stopped whom.

use std::collections::BTreeMap;

use trace::plan::count;
use trace::run::letter;
use trace::{words, Names};

use crate::play::deals::Deals;
use crate::play::{Played, Stopper};
use crate::print::{columns, grouped, wrap, Colour, Json, Paint};
use crate::script::Script;

/// Lines that are printed without `--all`.
const LINES: usize = 48;

/// One order, played.
pub struct Row {
    /// As `run --order` takes it.
    pub code: String,
    /// What became of each call.
    pub results: Vec<Played>,
    /// The rounds that were made.
    pub rounds: usize,
    /// The packets that are left.
    pub packets: usize,
    /// Whether all was as expected.
    pub fine: bool,
}

/// All rows, to be printed.
pub struct Sheet<'s> {
    /// The script.
    pub script: &'s Script,
    /// The names of its calls, block by block.
    pub labels: Vec<Vec<String>>,
    /// All its orders and gaps.
    pub deals: Deals,
    /// Those that were played.
    pub rows: Vec<Row>,
    /// The seed they were taken by.
    pub seed: u64,
}

impl Sheet<'_> {
    /// As text.
    pub fn text(&self, all: bool, paint: Paint) -> String {
        let mut text = self.heading();
        let names = self.script.plan.names();
        for (label, call) in self.calls() {
            text += &format!("    {label}  {}\n", words::call(names, call));
        }
        text.push('\n');
        text += &self.table(all, paint);
        text += &self.summary();
        text
    }

    /// How many orders there are, and how many were played.
    fn heading(&self) -> String {
        let name = &self.script.source.name;
        let calls = count(self.calls().len(), "call");
        let (total, played) = (self.deals.count(), self.rows.len());
        let gaps: Vec<String> = self.script.blocks().map(|block| gap_words(block.gaps)).collect();
        let orders = format!("{} orders", grouped(self.deals.orders()));
        let with = if total > self.deals.orders() {
            format!(", {} with their gaps", grouped(total))
        } else {
            String::new()
        };
        let sampled = if (played as u128) < total {
            format!("; {} of them, seed {}", grouped(played), self.seed)
        } else {
            String::new()
        };
        let gaps = gaps.join(", then ");
        let line = format!("{name}: {calls}, {orders}{with}, {gaps} between{sampled}");
        format!("{}\n", wrap(&line, 4, 0))
    }

    fn calls(&self) -> Vec<(&str, trace::Call)> {
        let blocks = self.script.blocks().zip(&self.labels);
        let calls = blocks.flat_map(|(block, labels)| {
            labels.iter().zip(&block.items).map(|(label, item)| (label.as_str(), item.0))
        });
        calls.collect()
    }

    fn table(&self, all: bool, paint: Paint) -> String {
        let names = self.script.plan.names();
        let mut rows = vec![vec!["order".to_string()]];
        rows[0].extend(self.calls().iter().map(|(label, _)| label.to_string()));
        rows[0].extend(["rounds".to_string(), "network".to_string()]);
        let shown = if all { self.rows.len() } else { self.rows.len().min(LINES) };
        for row in &self.rows[..shown] {
            let mut cells = vec![row.code.clone()];
            cells.extend(row.results.iter().map(|&result| told(names, result)));
            cells.push(format!("{:>6}", row.rounds));
            cells.push(network(row));
            rows.push(cells);
        }
        let mut text = String::new();
        for (number, line) in columns(&rows).iter().enumerate() {
            let bad = number > 0 && !self.rows[number - 1].fine;
            let line = if bad { paint.text(Colour::Red, line) } else { line.clone() };
            text += &format!("    {line}\n");
        }
        if shown < self.rows.len() {
            text += &format!("    .. and {} more: --all\n", grouped(self.rows.len() - shown));
        }
        let leftover =
            |result: &Played| matches!(result, Played::DeclinedAt(_, Stopper::Connection(_, true)));
        if self.rows.iter().any(|row| row.results.iter().any(leftover)) {
            text += "    ! stopped by an entry that a declined set-up had left behind\n";
        }
        text
    }

    /// Who is accepted in how many, and whether all end empty.
    fn summary(&self) -> String {
        let mut sets: BTreeMap<String, Vec<&str>> = BTreeMap::new();
        let calls = self.calls();
        for row in &self.rows {
            let accepted = row.results.iter().zip(&calls).filter(|(r, _)| **r == Played::Accepted);
            let accepted: Vec<&str> = accepted.map(|(_, (label, _))| *label).collect();
            let who = if accepted.is_empty() { "nobody".to_string() } else { accepted.join(" ") };
            sets.entry(who).or_default().push(&row.code);
        }
        let mut text = "\n".to_string();
        for (who, codes) in &sets {
            let (number, verb) = match codes.len() {
                1 => ("1 order".to_string(), "ends"),
                more => (format!("{} orders", grouped(more)), "end"),
            };
            let shown = codes.iter().take(8).copied().collect::<Vec<_>>().join(" ");
            let more = if codes.len() > 8 { " .." } else { "" };
            let line = format!("{number} {verb} with {who} accepted: {shown}{more}");
            text += &format!("    {}\n", wrap(&line, 8, 4));
        }
        let left = self.rows.iter().filter(|row| row.packets > 0).count();
        text += &match left {
            0 => "    in all of them the network ends empty\n".to_string(),
            left => format!("    in {} the network does not end empty\n", grouped(left)),
        };
        let failed = self.rows.iter().filter(|row| !row.fine).count();
        if failed > 0 {
            text += &format!("    NOT AS EXPECTED in {} of them\n", grouped(failed));
        }
        text
    }

    /// For other programs.
    pub fn json(&self) -> Json {
        let names = self.script.plan.names();
        let calls = Json::list(self.calls(), |(label, call)| {
            Json::Object(vec![
                ("name", Json::text(label)),
                ("call", Json::text(words::call(names, call))),
            ])
        });
        let rows = Json::list(&self.rows, |row| {
            Json::Object(vec![
                ("order", Json::text(&row.code)),
                ("results", Json::list(&row.results, |&r| Json::text(told(names, r)))),
                ("rounds", Json::Number(row.rounds)),
                ("packets", Json::Number(row.packets)),
                ("fine", Json::Bool(row.fine)),
            ])
        });
        Json::Object(vec![
            ("script", Json::text(&self.script.source.name)),
            ("calls", calls),
            ("possible", Json::Number(self.deals.count().min(usize::MAX as u128) as usize)),
            ("orders", rows),
        ])
    }
}

fn gap_words((least, most): (usize, usize)) -> String {
    match least == most {
        true => count(least, "round"),
        false => format!("{least} to {most} rounds"),
    }
}

fn network(row: &Row) -> String {
    match (row.packets, row.fine) {
        (0, true) => "empty".to_string(),
        (0, false) => "empty; NOT AS EXPECTED".to_string(),
        (packets, true) => format!("{} left", count(packets, "packet")),
        (packets, false) => format!("{} left; NOT AS EXPECTED", count(packets, "packet")),
    }
}

/// What became of a call, in a word or two.
fn told(names: &Names, result: Played) -> String {
    match result {
        Played::Accepted => "accepted".to_string(),
        Played::Closed => "closed".to_string(),
        Played::DeclinedAt(router, stopper) => {
            let by = match stopper {
                Stopper::Connection(number, false) => format!(" by {}", letter(number)),
                Stopper::Connection(number, true) => format!(" by {}!", letter(number)),
                Stopper::LastFree => ", last free".to_string(),
                Stopper::Unknown => String::new(),
            };
            format!("declined: {}{by}", names.router(router))
        }
        Played::DeclinedBy(passive) => format!("declined: {}", names.passive(passive)),
        Played::UnderWay => "under way".to_string(),
        Played::Replied => "replied".to_string(),
        Played::Refused(number) => format!("refused {number}"),
    }
}
