//! Lines on which a packet waits long at every router: all start slots but two are connected, both ways,
//! and the last set-up is declined at the far end. It goes there, its NACK back, its tear-down there.

use model::generate::{crossing, Random};
use model::machine::{Call, Connection, Network, Slot};

use super::busy::turn;
use super::net::Net;
use crate::calls::Calls;

/// Numbers of routers and of slots that are taken in turn; sixteen more often than others.
const ROUTERS: [usize; 6] = [16, 2, 16, 5, 16, 11];
const SLOTS: [usize; 5] = [3, 4, 5, 6, 8];

/// A line with one packet under way.
pub fn line<'c>(calls: &'c Calls, random: &mut Random, number: usize) -> Net<'c> {
    let (routers, slots) = (ROUTERS[number % ROUTERS.len()], SLOTS[number % SLOTS.len()]);
    let capacity = random.pick(&[1, 1, 2]).unwrap_or(1);
    let plan = crossing::line(routers, slots, capacity).encode();
    let mut net = Net::start(calls, Network::load(&plan).expect("loads"));
    let kept = [random.below(slots), random.below(slots - 1)];
    let kept = [kept[0], kept[1] + usize::from(kept[1] >= kept[0])];
    for active in 0..2 {
        for slot in (0..slots).filter(|slot| !kept.contains(slot)) {
            connect(&mut net, active, slot);
        }
    }
    for _ in 0..random.below(slots) {
        round(&mut net, 1);
    }
    assert_eq!(net.call(Call::Launch { active: 0, passive: 1, slot: kept[0] }), 0);
    net
}

/// From one end to the other.
fn connect(net: &mut Net, active: usize, slot: usize) {
    let passive = 1 - active;
    assert_eq!(net.call(Call::Launch { active, passive, slot }), 0);
    let connection = Connection { active, passive, start: Slot(slot) };
    while net.packets() > 0 {
        round(net, 1);
    }
    assert!(net.accepted.contains(&connection), "{connection:?} is not accepted");
}

/// A whole round in which everybody acts.
fn round(net: &mut Net, choice: usize) {
    turn(net, Call::Read);
    turn(net, Call::Execute);
    for number in 0..2 {
        for act in [Call::Reply { passive: number, choice }, Call::Drop { active: number }] {
            if net.may(act) {
                turn(net, act);
            }
        }
    }
    turn(net, Call::Write);
}
