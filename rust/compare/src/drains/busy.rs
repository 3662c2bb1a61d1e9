//! Random calls from Start that leave a network with much under way.

use model::generate::Random;
use model::machine::Call;

use super::net::Net;

/// How callers behave; each is a number of parts in 16.
struct Mood {
    launch: usize,
    close: usize,
    reply: usize,
    accept: usize,
    drop: usize,
}

impl Mood {
    fn new(random: &mut Random) -> Mood {
        let mut of = |parts: [usize; 4]| random.pick(&parts).unwrap_or(8);
        Mood {
            launch: of([2, 8, 15, 15]),
            close: of([0, 1, 4, 8]),
            reply: of([0, 4, 15, 16]),
            accept: of([2, 8, 12, 16]),
            drop: of([0, 4, 15, 16]),
        }
    }

    /// As in the last rounds; `left` are still to come.
    fn hold(&mut self, full: bool, last: usize, left: usize) {
        if full {
            self.launch = 16;
        }
        match last {
            0 => self.reply = 0,
            1 => self.reply = if left == 0 { 16 } else { 0 },
            2 => self.drop = 0,
            _ => {}
        }
    }
}

/// The last rounds before a program waits.
const LAST: usize = 16;

/// So many whole rounds. In the last of them, every other time, all launch that can, and behind them all
/// connections are closed: that leaves full out-queues of actives. In these rounds nobody replies, or all
/// in the last one at once, or nobody drops: that leaves full in-queues and full out-queues of passives.
pub fn busy(net: &mut Net, random: &mut Random, rounds: usize) {
    let mut mood = Mood::new(random);
    let (full, last) = (random.chance(1, 2), random.below(4));
    for round in 0..rounds {
        if random.chance(1, 20) {
            mood = Mood::new(random);
        }
        if round + LAST > rounds {
            mood.hold(full, last, rounds - 1 - round);
        }
        launch_and_close(net, random, &mood);
        whole_round(net, random, &mood);
    }
    if full {
        close_all(net);
        launch_and_close(net, random, &mood);
    }
}

/// As many connections are closed as the out-queues have room for.
fn close_all(net: &mut Net) {
    for connection in net.accepted.clone() {
        let (active, passive) = (connection.active, connection.passive);
        net.call(Call::Close { active, passive, slot: connection.start.0 });
    }
}

fn launch_and_close(net: &mut Net, random: &mut Random, mood: &Mood) {
    let accepted: Vec<_> = net.accepted.iter().copied().collect();
    if let Some(connection) = random.pick(&accepted).filter(|_| random.chance(mood.close, 16)) {
        let (active, passive) = (connection.active, connection.passive);
        net.call(Call::Close { active, passive, slot: connection.start.0 });
    }
    let (actives, passives) = (net.network.plan().actives(), net.network.plan().passives());
    for active in 0..actives {
        while random.chance(mood.launch, 16) {
            let (passive, slot) = (random.below(passives), random.below(net.network.slots()));
            let answer = net.call(Call::Launch { active, passive, slot });
            if answer != 0 && (mood.launch < 16 || answer != 10 || random.chance(1, 4)) {
                break;
            }
        }
    }
}

fn whole_round(net: &mut Net, random: &mut Random, mood: &Mood) {
    turn(net, Call::Read);
    turn(net, Call::Execute);
    for passive in 0..net.network.plan().passives() {
        let choice = usize::from(random.chance(mood.accept, 16));
        let reply = Call::Reply { passive, choice };
        if random.chance(mood.reply, 16) && net.may(reply) {
            net.call(reply);
        }
    }
    for active in 0..net.network.plan().actives() {
        let drop = Call::Drop { active };
        if random.chance(mood.drop, 16) && net.may(drop) {
            net.call(drop);
        }
    }
    turn(net, Call::Write);
}

/// A call of a phase, which is accepted.
pub fn turn(net: &mut Net, call: Call) {
    assert_eq!(net.call(call), 0, "{call:?} of {:02X?}", net.network.plan().encode());
}
