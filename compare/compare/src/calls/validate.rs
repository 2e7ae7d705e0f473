//! `validate`: whether a policy and its models keep their limits. It writes nothing.
use super::{Answer, Call, Handed, PLAIN};
use crate::case::Ask;
use crate::judges::Judge;
use crate::second::bytes::{models_of, policy_of};
use crate::second::refusals::{self, Passed};

pub const CALL: Call =
    Call { name: "validate", takes: &[Handed::Policy, Handed::Bank], many_passes: true, second, answer, ..PLAIN };

/// 22, 23, 1, 2; then 10 to 15, which a judge tells.
pub(super) fn second(ask: &Ask) -> Passed {
    refusals::policy(ask.policy)?;
    refusals::bank(ask.bank)
}

fn answer(ask: &Ask, judge: &dyn Judge) -> Answer {
    Answer::passed(judge.validation(&policy_of(ask.policy), &models_of(ask.bank)))
}
