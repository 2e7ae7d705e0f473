//! The second reading as a judge, by the rules of the question.
use super::Judge;
use crate::second::boundaries::Boundaries;
use crate::second::bytes::Policy;
use crate::second::deciding::{self, Counts, Decision, Explained, Question};
use crate::second::explanation::{explanation_bytes, next_eligible};
use crate::second::refusals::{self, Passed, Refusal};
use crate::second::{catalogue, search};
use oracle::kernel::{KernelInput, KernelModel};
use std::cell::Cell;

pub struct Reading<'a> {
    /// What the last search counted.
    pub passes: &'a Cell<u64>,
}

impl Reading<'_> {
    fn counted(&self, found: Option<Boundaries>) -> Option<Boundaries> {
        self.passes.set(found.as_ref().map_or(0, |found| found.passes));
        found
    }
}

impl Judge for Reading<'_> {
    fn request_limits(&self, request: &KernelInput) -> Passed {
        refusals::request_limits(request)
    }

    fn validation(&self, policy: &Policy, models: &[KernelModel]) -> Passed {
        catalogue::validation(policy, models)
    }

    fn trust(&self, policy: &Policy, bank: &[u8]) -> (Passed, Vec<u8>) {
        catalogue::trusted(policy, bank)
    }

    fn decision(&self, question: &Question) -> (Decision, Counts) {
        deciding::decide(question)
    }

    fn checked_decision(&self, question: &Question) -> Result<(Decision, Counts), Refusal> {
        refusals::request_limits(&question.request)?;
        Ok(deciding::decide(question))
    }

    fn explanation(&self, question: &Question) -> (Decision, Vec<Explained>) {
        (deciding::decide(question).0, deciding::explain(question))
    }

    fn next_eligible(&self, question: &Question, from: u64) -> u64 {
        next_eligible(&explanation_bytes(&deciding::explain(question)), from)
    }

    fn utility(&self, question: &Question, id: u32) -> Option<i64> {
        deciding::utility_of(question, id)
    }

    fn what_would_win(&self, question: &Question, id: u32) -> Option<Boundaries> {
        self.counted(search::what_would_win(question, id))
    }

    fn decision_margin(&self, question: &Question) -> Option<Boundaries> {
        self.counted(search::decision_margin(question))
    }
}
