//! Who decides: the Rust, and the second reading. Each call is written once, over either; where both are asked, they must agree.
mod reading;
mod rust;

pub use reading::Reading;
pub use rust::TheRust;

use crate::second::boundaries::Boundaries;
use crate::second::bytes::Policy;
use crate::second::deciding::{Counts, Decision, Explained, Question};
use crate::second::refusals::{Passed, Refusal};
use oracle::kernel::{KernelInput, KernelModel};

pub trait Judge {
    /// 3, or nothing.
    fn request_limits(&self, request: &KernelInput) -> Passed;

    /// 10 to 15, or nothing.
    fn validation(&self, policy: &Policy, models: &[KernelModel]) -> Passed;

    /// 16, 17 and 10 to 15, or nothing; and the bank at exit.
    fn trust(&self, policy: &Policy, bank: &[u8]) -> (Passed, Vec<u8>);

    fn decision(&self, question: &Question) -> (Decision, Counts);

    /// 3, or the decision.
    fn checked_decision(&self, question: &Question) -> Result<(Decision, Counts), Refusal>;

    fn explanation(&self, question: &Question) -> (Decision, Vec<Explained>);

    /// The place of the first eligible record of the explanation that stands at `from` or after it, or `NO_MORE`.
    fn next_eligible(&self, question: &Question, from: u64) -> u64;

    fn utility(&self, question: &Question, id: u32) -> Option<i64>;

    fn what_would_win(&self, question: &Question, id: u32) -> Option<Boundaries>;

    fn decision_margin(&self, question: &Question) -> Option<Boundaries>;
}
