//! The lessons: what students write instead, played beside the proved rule.

mod notes;
mod sides;

use model::machine::Rules;
use trace::{Modelled, Proved};

use crate::plan::PlanFile;
use crate::play::deals::Deals;
use crate::play::{Deal, Player, Silent};
use crate::print::Paint;
use crate::script::{self, Script};
use crate::text::Source;
use notes::Notes;

/// One point that students get wrong.
pub struct Lesson {
    /// The point as a question.
    pub title: &'static str,
    /// The script's file in scripts/lessons.
    pub file: &'static str,
    /// The script.
    pub script: &'static str,
    /// What is asked before the answer.
    pub question: &'static str,
    /// What students do instead.
    pub mistake: Mistake,
    /// What is to be learned.
    pub answer: &'static str,
}

/// What students do instead.
pub enum Mistake {
    /// They write another rule, which has this name.
    Rule(&'static str, fn(&mut Rules)),
    /// They check one order.
    OneOrder,
    /// They write another program, which has this name: this statement where the script waits.
    Program(&'static str, &'static str),
}

/// All lessons.
pub const LESSONS: [Lesson; 12] = [
    Lesson {
        title: "A declined set-up leaves nothing behind?",
        file: "1-declined.run",
        script: include_str!("../../../../scripts/lessons/1-declined.run"),
        question:
            "r1 declines camera's set-up. Which entries are booked at that moment, and which \
                   when the network is quiet again? Who sees to it?",
        mistake: Mistake::Rule("a router that declines says hub 0", |rules| {
            rules.declined_leaves_nothing = true;
        }),
        answer:
            "The routers already passed stay booked until a tear-down has followed. The NACK's \
                 hub count says how many they are, and the active answers it with a TDOWN. A NACK \
                 that says 0 counts as marked: no TDOWN is made, and r0.1 slot 3 is lost for good.",
    },
    Lesson {
        title: "The tear-down goes on to the router that declined?",
        file: "2-too-far.run",
        script: include_str!("../../../../scripts/lessons/2-too-far.run"),
        question: "r1 declined, so nothing of camera's is booked there. How many routers must the \
                   tear-down free, and whose entry does it free if it goes one router further?",
        mistake: Mistake::Rule("the tear-down frees hub + 1 routers", |rules| {
            rules.tear_down_one_too_far = true;
        }),
        answer:
            "It frees exactly hub routers. The entry that made r1 decline is another sensor's: \
                 force was accepted, its step list has the slot, and after a tear-down that goes \
                 one router too far the table has not. There the arm reaches for an old position.",
    },
    Lesson {
        title: "Every slot of an output may be booked?",
        file: "3-every-slot.run",
        script: include_str!("../../../../scripts/lessons/3-every-slot.run"),
        question: "r0.1 has two slots and one is booked. What happens to the set-up that asks for \
                   the other one, and what would happen to every later packet if it got it?",
        mistake: Mistake::Rule("the last free entry is booked too", |rules| {
            rules.last_free_booked = true;
        }),
        answer:
            "A side sends set-ups, answers and tear-downs only in slots that are free. With none \
                 free nobody leaves by it again: not the set-up that booked it, and no tear-down \
                 that would free it. So the last free entry is kept, and the set-up gets a NACK.",
    },
    Lesson {
        title: "One order of messages checked is enough?",
        file: "4-one-order.run",
        script: include_str!("../../../../scripts/lessons/4-one-order.run"),
        question: "Three sensors want the same slot of the wrist's way to the drive. As written, \
                   camera comes first and is accepted. Who is accepted if the cow steps in from \
                   the other side? Can it be that camera comes last and is stopped by an entry \
                   that nobody keeps?",
        mistake: Mistake::OneOrder,
        answer:
            "Every order gives another table. In one of the six, camera is stopped by what a \
                 declined set-up had left behind for a while. A plan's step list is checked in all \
                 orders and gaps: pandabrass orders, with an expect line for what must always hold.",
    },
    Lesson {
        title: "The tear-down's slot is slot minus hub, without the modulus?",
        file: "5-modulus.run",
        script: include_str!("../../../../scripts/lessons/5-modulus.run"),
        question:
            "The NACK says slot 0, hub 1, and there are 4 slots. At which slot did the set-up \
                   start? Which slot does the tear-down carry?",
        mistake: Mistake::Rule("slot minus hub, 0 where hub is greater", |rules| {
            rules.slot_minus_hub_unwrapped = true;
        }),
        answer: "0 minus 1 modulo 4 is 3. Without the modulus the tear-down says 0 and frees r0.1 \
                 slot 0, which belongs to camera's first connection, while slot 3 stays booked for \
                 nobody: two entries wrong by one missing modulus.",
    },
    Lesson {
        title: "The allowance comes back when the NACK is marked?",
        file: "6-allowance.run",
        script: include_str!("../../../../scripts/lessons/6-allowance.run"),
        question:
            "camera's NACK is marked and its tear-down has ended, but camera has not dropped \
                   it. May camera launch again? Where would the next answer go?",
        mistake: Mistake::Rule("the allowance grows at the mark", |rules| {
            rules.allowance_at_the_mark = true;
        }),
        answer: "The marked NACK still takes a place in the in-queue. The allowance counts places \
                 for answers, so it comes back when the NACK is dropped. Given back at the mark, \
                 a second set-up goes out, its NACK sticks before the full in-queue, no tear-down \
                 is made for it, and r0.1 slot 3 stays booked.",
    },
    Lesson {
        title: "A credit comes back when the packet arrives?",
        file: "7-credit.run",
        script: include_str!("../../../../scripts/lessons/7-credit.run"),
        question: "The drive's in-queue has room for one packet and holds one. camera's set-up \
                   stands before it. What keeps it there?",
        mistake: Mistake::Rule("a credit comes back at the arrival", |rules| {
            rules.credit_at_the_arrival = true;
        }),
        answer: "A credit stands for a free place. The packet that has arrived takes its place \
                 until it leaves; then the flag rises, and the next READ gives the credit back. \
                 Given back at the arrival, a second packet is sent after the first, and the \
                 queue holds more than its capacity: in the chip it is written over another.",
    },
    Lesson {
        title: "A Close frees its slots at once?",
        file: "8-close.run",
        script: include_str!("../../../../scripts/lessons/8-close.run"),
        question:
            "camera closes its connection, and in the same round force asks for r1.1 slot 0, \
                   which was camera's. Does force get it? What is still on its way to r1, and what \
                   will it do there?",
        mistake: Mistake::Rule("Close clears the entries itself", |rules| {
            rules.close_frees_early = true;
        }),
        answer:
            "A Close sends a tear-down, and each router frees its entry when that comes by. Until \
                 then r1.1 slot 0 is camera's: force is declined, asks again and gets it. Cleared \
                 by the Close itself, the entry goes to force at once; then camera's tear-down \
                 comes by and frees it, whosever it is. force is told ACCEPTED and has nothing in \
                 the table: the next set-up may book its slot.",
    },
    Lesson {
        title: "The lowest side always goes first?",
        file: "9-turns.run",
        script: include_str!("../../../../scripts/lessons/9-turns.run"),
        question: "left launches three times and right once, in the same round. Both stand before \
                   r0's unit, left at the lower side. When does right's set-up get in, and who \
                   gets r0.2 slot 5, which left asks for with its third?",
        mistake: Mistake::Rule("the first in order is always picked", |rules| {
            rules.lowest_first = true;
        }),
        answer:
            "An output remembers the sender that it served last and looks from the next one on. \
                 After left's first set-up it is right's turn: right books slot 5, and left's third \
                 comes too late. If the first in order is always picked, right waits as long as \
                 left talks, and is declined. In turn, a head that can go to the unit sees at most \
                 three others go before it.",
    },
    Lesson {
        title: "A Look accepts the connection?",
        file: "10-look.run",
        script: include_str!("../../../../scripts/lessons/10-look.run"),
        question: "camera's ACK has come, and a Look shows it on the panel. Which allowance has \
                   camera now, and is the connection accepted? camera's program takes what it has \
                   seen for accepted and closes it. What does the Close say? And which allowance \
                   and which accepted connection are there after the Drop?",
        mistake: Mistake::Rule("a Look at an ACK accepts", |rules| {
            rules.accepted_at_the_look = true;
        }),
        answer: "A Look changes nothing: the ACK stays the head, the allowance stays spent, nothing \
                 is accepted, and a Close says 16. The Drop gives back the allowance and accepts, \
                 with the numbers of the packet that a Look just before shows. If a Look accepts, \
                 the connection is closed while its ACK still waits, and the next Look at the same \
                 ACK accepts it again. Its tear-down is on its way all the same: the panel says \
                 accepted, and the table keeps no slot for it.",
    },
    Lesson {
        title: "A unit handles one head a round?",
        file: "11-heads.run",
        script: include_str!("../../../../scripts/lessons/11-heads.run"),
        question: "left launches four times and right three times, in the same round; the last set-ups \
                   of both ask for r0.3 slot 6. In round 7 left's third set-up stands at the head of \
                   Q[0] and right's third at the head of Q[1]. Which of them does r0's unit handle in \
                   that round, how many does it send, and who gets r0.3 slot 6?",
        mistake: Mistake::Rule("one head a unit and round", |rules| {
            rules.one_head_a_unit = true;
        }),
        answer: "Q is split by the side that packets come in by. A unit handles the head of each Q once \
                 in a round, side 0 first, and sends one packet a round, turn about. So right's set-up \
                 books slot 6 in round 7, and since left went last it is also the one that is sent. 'No \
                 second head in that round' was document 01's rule for its one Q. Kept for four of \
                 them, side 1 waits as long as side 0 brings new heads: left's fourth set-up comes a \
                 round after right's third, is handled before it and takes the entry.",
    },
    Lesson {
        title: "Before a wash, S rounds are enough?",
        file: "12-wash.run",
        script: include_str!("../../../../scripts/lessons/12-wash.run"),
        question: "The wash is due. The program launches and closes nothing more and waits. Two set-ups \
                   are under way, S is 4, and demand 3 says that in S rounds at least one packet moves. \
                   For how many rounds must it wait to be sure that every queue and wire is empty? What \
                   must the drive, camera and force do meanwhile? And what is booked if the wash begins \
                   after 4 rounds?",
        mistake: Mistake::Program("wait for S rounds", "round 4"),
        answer: "In S rounds one packet moves, not all of them, and each has a long way: the set-up there, \
                 its NACK back, its tear-down there again. What is promised is 256 x S x N rounds for N \
                 packets, here 2048, if from a READ on nobody launches or closes and in every WRITE each \
                 passive replies and each active drops that can: Remaining tells both numbers, in every \
                 phase. Here 12 rounds are enough, on other plans it takes more, and nobody counts them: \
                 one asks Remaining until it says 0. Then the table is the accepted connections' own. \
                 After 4 rounds force has no answer yet, and r0.1 slot 3 is booked for a set-up that will \
                 be declined. And a passive that does not answer keeps its set-up for ever: the promise \
                 is for those who do.",
    },
];

/// The script of a lesson.
pub fn script(lesson: &Lesson) -> Script {
    of_text(lesson, lesson.script.to_string())
}

/// The same with another statement where it waits.
pub fn instead(lesson: &Lesson, statement: &str) -> Script {
    let lines = lesson.script.lines();
    let lines = lines.map(|line| if line.starts_with("wait") { statement } else { line });
    of_text(lesson, lines.collect::<Vec<_>>().join("\n"))
}

/// A lesson's plan is one of those in the repository.
fn of_text(lesson: &Lesson, text: String) -> Script {
    let source = Source { name: lesson.file.to_string(), text };
    let plan = |file: &str| match script::short(file).as_str() {
        "two.plan" => PlanFile::of_text("two.plan", include_str!("../../../../plans/two.plan")),
        "three.plan" => {
            PlanFile::of_text("three.plan", include_str!("../../../../plans/three.plan"))
        }
        "turns.plan" => {
            PlanFile::of_text("turns.plan", include_str!("../../../../plans/turns.plan"))
        }
        _ => Ok(PlanFile::t()),
    };
    match script::of_text(source, &plan) {
        Ok(script) => script,
        Err(broken) => panic!("a lesson's script is read: {broken:?}"),
    }
}

/// Plays a lesson by both rules and tells where they part and what goes wrong then.
pub fn play(lesson: &Lesson, paint: Paint) -> String {
    let script = script(lesson);
    let proved = Proved::new(&script.plan);
    match lesson.mistake {
        Mistake::Rule(name, set) => {
            let mut rules = Rules::default();
            set(&mut rules);
            let modelled = Modelled::new(&script.plan, rules);
            let right = notes::take(&script, &proved, &[]);
            let wrong = notes::take(&script, &modelled, &[]);
            let headings = ["the proved rule".to_string(), format!("a student's: {name}")];
            sides::text(&right, &wrong, headings, paint)
        }
        Mistake::Program(name, statement) => {
            let other = instead(lesson, statement);
            let other_proved = Proved::new(&other.plan);
            let right = notes::take(&script, &proved, &[]);
            let wrong = notes::take(&other, &other_proved, &[]);
            let headings = ["the script: wait".to_string(), format!("a student's: {name}")];
            sides::text(&right, &wrong, headings, paint)
        }
        Mistake::OneOrder => {
            let right = notes::take(&script, &proved, &[]);
            let (deal, wrong) = another_order(&script, &proved, &right);
            let letters: Vec<String> = deal.order.iter().map(|&n| trace::run::letter(n)).collect();
            let headings =
                ["as written".to_string(), format!("in the order {}", letters.join(" "))];
            sides::text(&right, &wrong, headings, paint)
        }
    }
}

/// The last of the orders whose table is another than that of the order as written.
fn another_order<'s>(
    script: &'s Script,
    proved: &'s Proved,
    written: &Notes<'s>,
) -> (Deal, Notes<'s>) {
    let deals = Deals::new(script.blocks());
    let others = (0..deals.count()).rev().map(|number| deals.deal(number));
    let differs = |deal: &Vec<Deal>| {
        let mut player = Player::new(script, proved);
        let played = player.play(deal, &mut Silent);
        played.is_ok() && player.run.net().entries() != written.player.run.net().entries()
    };
    let deal = others.into_iter().find(differs).expect("some order gives another table");
    let notes = notes::take(script, proved, &deal);
    (deal[0].clone(), notes)
}
