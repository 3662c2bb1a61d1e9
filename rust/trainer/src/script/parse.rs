//! A script's text as statements.

use trace::net::Phase;
use trace::{Call, Names, Plan};

use super::{expects, Deed, Statement};
use crate::plan::text::unknown;
use crate::text::words::number;
use crate::text::{quoted, At, Cursor, Mistake};

/// The most rounds that a script may ask for.
const ROUNDS: u32 = 100_000;
/// Rounds that `until quiet` waits if it says nothing.
const QUIET: usize = 1_000;

/// The statements.
const STATEMENTS: &str = "launch, close, reply, look, drop, entry, remaining, read, execute, \
                          write, round, until, wait, to, passive, active, any, show, expect";

/// What stands for `consume ACTIVE` and for `active NAME consumes`.
const LOOK_AND_DROP: &str = "'look ACTIVE' shows the answer, 'drop ACTIVE' removes it";
const STANDING: &str = "'active NAME drops' removes each answer in WRITE; 'look NAME' shows one";

/// The statements after the plan.
pub fn parse(text: &str, from: usize, plan: &Plan) -> Result<Vec<Statement>, Mistake> {
    let mut parser = Parser { cursor: Cursor::new(text), names: plan.names(), plan };
    parser.cursor.go_to(from);
    let mut statements = Vec::new();
    while !parser.cursor.is_done() {
        if !parser.cursor.ends() {
            let (at, first) = (parser.cursor.peek().at, parser.cursor.position());
            let deed = parser.statement()?;
            let text = parser.cursor.between(first);
            statements.push(Statement { at, text, deed });
        }
        if !parser.cursor.is_done() && !matches!(parser.cursor.peek().text, "\n" | ";") {
            return Err(parser.cursor.expected("the end of the line"));
        }
        parser.cursor.take();
    }
    Ok(statements)
}

/// A word of Consume, which is two calls since request (c).
fn two_calls(at: At, word: &str, instead: &str) -> Mistake {
    let message = format!("no {}: it is two calls now, look and drop", quoted(word));
    Mistake::new(at, message).note(instead.to_string())
}

/// Goes through a script with the names of its plan.
pub struct Parser<'t, 'n> {
    /// The words.
    pub cursor: Cursor<'t>,
    /// The names.
    pub names: &'n Names,
    /// The plan.
    pub plan: &'n Plan,
}

impl Parser<'_, '_> {
    fn statement(&mut self) -> Result<Deed, Mistake> {
        let word = self.cursor.take();
        Ok(match word.text {
            "launch" | "close" | "reply" | "look" | "drop" | "entry" | "remaining" | "read"
            | "execute" | "write" => Deed::Call(self.call(word.text)?),
            "round" => {
                let rounds = if self.cursor.ends() { 1 } else { self.rounds()? };
                Deed::Rounds(rounds)
            }
            "until" => self.until()?,
            "wait" => Deed::Wait,
            "to" => self.phase()?,
            "passive" => {
                let who = self.who("a passive", &self.names.passives)?;
                let does = self.cursor.one_of(&["accepts", "declines", "waits"])?;
                Deed::Passive(who, [Some(1), Some(0), None][does])
            }
            "active" => {
                let who = self.who("an active", &self.names.actives)?;
                if self.cursor.peek().text == "consumes" {
                    return Err(two_calls(self.cursor.peek().at, "consumes", STANDING));
                }
                let does = self.cursor.one_of(&["drops", "waits"])?;
                Deed::Active(who, does == 0)
            }
            "any" => Deed::AnyOrder(self.block(word.at)?),
            "show" => match self.cursor.one_of(&["table", "where"])? {
                0 => Deed::ShowTable,
                _ => Deed::ShowWhere,
            },
            "expect" => Deed::Expect(expects::parse(self)?),
            "plan" => return Err(Mistake::new(word.at, "a script has one plan, at its beginning")),
            "consume" => return Err(two_calls(word.at, "consume", LOOK_AND_DROP)),
            text => {
                return Err(Mistake::new(word.at, format!("no statement {}", quoted(text)))
                    .note(format!("statements: {STATEMENTS}")))
            }
        })
    }

    /// A call after its first word.
    pub(super) fn call(&mut self, name: &str) -> Result<Call, Mistake> {
        Ok(match name {
            "read" => Call::Read,
            "execute" => Call::Execute,
            "write" => Call::Write,
            "remaining" => Call::Remaining,
            "launch" => {
                let (active, passive, slot) = self.connection()?;
                Call::Launch { active, passive, slot }
            }
            "close" => {
                let (active, passive, slot) = self.connection()?;
                Call::Close { active, passive, slot }
            }
            "reply" => {
                let passive = self.passive()?;
                let word = self.cursor.word("'accept' or 'decline'")?;
                let choice = match word.text {
                    "accept" => Some(1),
                    "decline" => Some(0),
                    text => number(text),
                };
                let message =
                    || format!("expected 'accept' or 'decline', found {}", quoted(word.text));
                let choice = choice.ok_or_else(|| Mistake::new(word.at, message()))?;
                Call::Reply { passive, choice }
            }
            "look" => Call::Look { active: self.active()? },
            "drop" => Call::Drop { active: self.active()? },
            _ => {
                let (router, side) = self.port_numbers()?;
                Call::Entry { router, side, slot: self.cursor.number("a slot")? }
            }
        })
    }

    /// "ACTIVE PASSIVE SLOT"; numbers out of range are passed on.
    fn connection(&mut self) -> Result<(u32, u32, u32), Mistake> {
        Ok((self.active()?, self.passive()?, self.cursor.number("a slot")?))
    }

    /// An active by name or number; a number out of range is passed on.
    pub fn active(&mut self) -> Result<u32, Mistake> {
        self.name_or_number("an active", &self.names.actives)
    }

    /// A passive by name or number; a number out of range is passed on.
    pub fn passive(&mut self) -> Result<u32, Mistake> {
        self.name_or_number("a passive", &self.names.passives)
    }

    fn name_or_number(&mut self, wanted: &str, names: &[String]) -> Result<u32, Mistake> {
        let word = self.cursor.word(wanted)?;
        let named = names.iter().position(|name| name == word.text).map(|at| at as u32);
        named.or_else(|| number(word.text)).ok_or_else(|| unknown(&word, wanted, names))
    }

    /// A side by its router's name or number; numbers out of range are passed on.
    fn port_numbers(&mut self) -> Result<(u32, u32), Mistake> {
        let word = self.cursor.word("a side, as in r0.1")?;
        let routers = &self.names.routers;
        let found = word.text.rsplit_once('.').and_then(|(router, side)| {
            let named = routers.iter().position(|name| name == router).map(|at| at as u32);
            Some((named.or_else(|| number(router))?, number(side)?))
        });
        found.ok_or_else(|| unknown(&word, "a side, as in r0.1", routers))
    }

    pub(super) fn rounds(&mut self) -> Result<usize, Mistake> {
        let at = self.cursor.peek().at;
        let rounds = self.cursor.number("a number of rounds")?;
        if rounds > ROUNDS {
            return Err(Mistake::new(at, format!("{rounds} rounds: at most {ROUNDS} are made")));
        }
        Ok(rounds as usize)
    }

    fn until(&mut self) -> Result<Deed, Mistake> {
        if self.cursor.one_of(&["round", "quiet"])? == 0 {
            return Ok(Deed::UntilRound(self.rounds()?));
        }
        let within = if self.cursor.takes("within") { self.rounds()? } else { QUIET };
        Ok(Deed::UntilQuiet(within))
    }

    fn phase(&mut self) -> Result<Deed, Mistake> {
        let phases = [Phase::Read, Phase::Execute, Phase::Write];
        let names = phases.map(Phase::name);
        Ok(Deed::ToPhase(phases[self.cursor.one_of(&names)?]))
    }

    /// One by name, or all.
    fn who(&mut self, wanted: &str, names: &[String]) -> Result<Option<usize>, Mistake> {
        if self.cursor.takes("all") {
            return Ok(None);
        }
        let word = self.cursor.word(&format!("{wanted}, or 'all'"))?;
        let named = names.iter().position(|name| name == word.text);
        let numbered = || number(word.text).map(|n| n as usize).filter(|&n| n < names.len());
        named.or_else(numbered).map(Some).ok_or_else(|| unknown(&word, wanted, names))
    }
}
