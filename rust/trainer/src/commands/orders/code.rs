//! An order in letters and numbers, as `run --order` takes it: C3B3A, with + between blocks.

use trace::plan::count;
use trace::Proved;

use crate::commands::{Args, Done, UNREAD};
use crate::play::{Deal, Player, Silent};
use crate::script::Script;

/// Letters, and the rounds between where they may differ.
pub fn write(script: &Script, labels: &[Vec<String>], deals: &[Deal]) -> String {
    let blocks = script.blocks().zip(labels).zip(deals).map(|((block, labels), deal)| {
        let varies = block.gaps.0 < block.gaps.1;
        let mut code = String::new();
        for (place, &item) in deal.order.iter().enumerate() {
            let gap = place.checked_sub(1).map(|before| deal.gaps[before]);
            if let (Some(gap), true) = (gap, varies) {
                code += &gap.to_string();
            }
            code += &labels[item];
        }
        code
    });
    blocks.collect::<Vec<_>>().join("+")
}

/// What `--order` gives; nothing where it is not given.
pub fn dealt(script: &Script, args: &Args) -> Result<Vec<Deal>, Done> {
    let Some(order) = args.value("--order") else { return Ok(Vec::new()) };
    read(script, order).map_err(|message| Done::error(format!("{message}\n"), UNREAD))
}

/// The deals of an order that is written as [`write`] writes it.
fn read(script: &Script, order: &str) -> Result<Vec<Deal>, String> {
    let proved = Proved::new(&script.plan);
    let mut player = Player::new(script, &proved);
    let played = player.play_to_block(&mut Silent);
    played.map_err(|mistake| mistake.show(&script.source))?;
    let labels = player.name_blocks();
    let parts: Vec<&str> = order.split('+').collect();
    if parts.len() != labels.len() {
        let blocks = count(labels.len(), "block");
        return Err(format!("--order {order}: the script has {blocks}, + stands between two"));
    }
    let blocks = script.blocks().zip(&labels).zip(parts);
    let deals = blocks.map(|((block, labels), part)| {
        let known = labels.join(" ");
        read_block(part, labels, block.gaps.0)
            .ok_or_else(|| format!("--order {order}: each of {known} once, rounds between them"))
    });
    deals.collect()
}

/// One block: letters with numbers between.
fn read_block(text: &str, labels: &[String], least: usize) -> Option<Deal> {
    let mut deal = Deal { order: Vec::new(), gaps: Vec::new() };
    let mut rest = text;
    while !rest.is_empty() {
        if !deal.order.is_empty() {
            let digits = rest.chars().take_while(char::is_ascii_digit).count();
            let gap = if digits == 0 { least } else { rest[..digits].parse().ok()? };
            deal.gaps.push(Some(gap).filter(|&gap| gap <= 1_000)?);
            rest = &rest[digits..];
        }
        let fits =
            |&item: &usize| !deal.order.contains(&item) && rest.starts_with(labels[item].as_str());
        let item = (0..labels.len()).filter(fits).max_by_key(|&item| labels[item].len())?;
        // Of equal calls the first that is left comes first.
        let equal = |&other: &usize| labels[other] == labels[item] && !deal.order.contains(&other);
        let item = (0..labels.len()).find(equal)?;
        deal.order.push(item);
        rest = &rest[labels[item].len()..];
    }
    (deal.order.len() == labels.len()).then_some(deal)
}
