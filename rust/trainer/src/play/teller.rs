//! Who is told what happens in a played script.

use trace::{Refusal, Run, Step};

use super::Waited;
use crate::script::{Script, Statement};

/// Who is told what happens.
pub trait Teller {
    /// A call was made.
    fn step(&mut self, _run: &Run, _step: &Step) {}
    /// Something was expected: what was found instead, if it is not so.
    fn expected(&mut self, _script: &Script, _statement: &Statement, _found: Option<&str>) {}
    /// A refusal that nothing expects.
    fn surprise(&mut self, _script: &Script, _statement: &Statement, _refusal: Refusal) {}
    /// The slot table is to be shown.
    fn table(&mut self, _run: &Run) {}
    /// Where everything is is to be shown.
    fn whereabouts(&mut self, _run: &Run) {}
    /// A wait has ended.
    fn waited(&mut self, _script: &Script, _statement: &Statement, _waited: &Waited) {}
    /// Something to be said of the run.
    fn note(&mut self, _text: &str) {}
}

/// Tells nobody.
pub struct Silent;

impl Teller for Silent {}
