//! Every order and every gap that a script's blocks allow.

use super::block::Deal;
use crate::script::Block;

/// All deals of a script's blocks, by number.
#[derive(Clone, Debug)]
pub struct Deals {
    blocks: Vec<Part>,
}

/// The orders and gaps of one block.
#[derive(Clone, Debug)]
struct Part {
    orders: Vec<Vec<usize>>,
    least: usize,
    choices: usize,
    between: u32,
}

impl Deals {
    /// Of these blocks.
    pub fn new<'b>(blocks: impl Iterator<Item = &'b Block>) -> Deals {
        Deals { blocks: blocks.map(Part::new).collect() }
    }

    /// How many there are; at most what the number can hold.
    pub fn count(&self) -> u128 {
        self.blocks.iter().map(Part::count).fold(1, u128::saturating_mul)
    }

    /// How many orders there are, whatever the gaps.
    pub fn orders(&self) -> u128 {
        let orders = self.blocks.iter().map(|part| part.orders.len() as u128);
        orders.fold(1, u128::saturating_mul)
    }

    /// The deal of a number: one for each block.
    pub fn deal(&self, number: u128) -> Vec<Deal> {
        let mut rest = number;
        let mut deals: Vec<Deal> = self
            .blocks
            .iter()
            .rev()
            .map(|part| {
                let deal = part.deal(rest % part.count());
                rest /= part.count();
                deal
            })
            .collect();
        deals.reverse();
        deals
    }
}

impl Part {
    fn new(block: &Block) -> Part {
        let (least, most) = block.gaps;
        let between = block.items.len() as u32 - 1;
        Part { orders: orders(block), least, choices: most - least + 1, between }
    }

    fn gaps(&self) -> u128 {
        (self.choices as u128).pow(self.between)
    }

    fn count(&self) -> u128 {
        self.orders.len() as u128 * self.gaps()
    }

    /// Gaps first, the last one changing slowest, then orders.
    fn deal(&self, number: u128) -> Deal {
        let order = self.orders[(number % self.orders.len() as u128) as usize].clone();
        let mut rest = number / self.orders.len() as u128;
        let gaps = (0..self.between).map(|_| {
            let gap = self.least + (rest % self.choices as u128) as usize;
            rest /= self.choices as u128;
            gap
        });
        Deal { gaps: gaps.collect(), order }
    }
}

/// Every order of a block's calls, in the order of their numbers; equal calls are not exchanged.
fn orders(block: &Block) -> Vec<Vec<usize>> {
    let mut all = Vec::new();
    extend(block, &mut Vec::new(), &mut all);
    all
}

fn extend(block: &Block, order: &mut Vec<usize>, all: &mut Vec<Vec<usize>>) {
    if order.len() == block.items.len() {
        all.push(order.clone());
        return;
    }
    for item in 0..block.items.len() {
        let same = |&other: &usize| block.items[other].0 == block.items[item].0;
        let earlier = (0..item).filter(same).any(|other| !order.contains(&other));
        if order.contains(&item) || earlier {
            continue;
        }
        order.push(item);
        extend(block, order, all);
        order.pop();
    }
}

/// Numbers that a seed determines (splitmix64).
#[derive(Clone, Debug)]
pub struct Random(pub u64);

impl Random {
    /// The next number.
    pub fn number(&mut self) -> u64 {
        self.0 = self.0.wrapping_add(0x9E37_79B9_7F4A_7C15);
        let mut z = self.0;
        z = (z ^ (z >> 30)).wrapping_mul(0xBF58_476D_1CE4_E5B9);
        z = (z ^ (z >> 27)).wrapping_mul(0x94D0_49BB_1331_11EB);
        z ^ (z >> 31)
    }

    /// A number below a bound.
    pub fn below(&mut self, bound: u128) -> u128 {
        (u128::from(self.number()) << 64 | u128::from(self.number())) % bound
    }
}

/// So many different numbers below a bound, in order; all of them if there are no more.
pub fn sample(count: u128, samples: usize, seed: u64) -> Vec<u128> {
    if count <= samples as u128 {
        return (0..count).collect();
    }
    let mut random = Random(seed);
    let mut chosen = std::collections::BTreeSet::new();
    while chosen.len() < samples {
        chosen.insert(random.below(count));
    }
    chosen.into_iter().collect()
}

#[cfg(test)]
mod tests {
    use super::*;
    use crate::text::At;
    use trace::Call;

    fn block(slots: &[u32], gaps: (usize, usize)) -> Block {
        let launch = |&slot: &u32| (Call::Launch { active: 0, passive: 0, slot }, At::default());
        Block { gaps, items: slots.iter().map(launch).collect() }
    }

    #[test]
    fn every_deal_is_another() {
        let blocks = [block(&[0, 1, 2], (0, 2)), block(&[3, 4], (1, 1))];
        let deals = Deals::new(blocks.iter());
        assert_eq!((deals.count(), deals.orders()), (6 * 9 * 2, 12));
        let all: std::collections::HashSet<Vec<Deal>> =
            (0..deals.count()).map(|number| deals.deal(number)).collect();
        assert_eq!(all.len() as u128, deals.count());
    }

    #[test]
    fn very_many_are_counted_and_dealt() {
        let blocks = vec![block(&[0, 1, 2, 3, 4, 5], (0, 1_000)); 20];
        let deals = Deals::new(blocks.iter());
        assert_eq!(deals.count(), u128::MAX);
        for number in sample(deals.count(), 100, 1) {
            assert_eq!(deals.deal(number).len(), 20);
        }
    }

    #[test]
    fn equal_calls_are_not_exchanged() {
        let deals = Deals::new([block(&[7, 7, 8], (0, 0))].iter());
        assert_eq!(deals.count(), 3);
    }

    #[test]
    fn samples_are_different_and_the_same_for_a_seed() {
        let one = sample(1_000_000, 50, 7);
        assert_eq!(one, sample(1_000_000, 50, 7));
        assert_eq!(one.len(), 50);
        assert_eq!(sample(5, 50, 7), [0, 1, 2, 3, 4]);
    }
}
