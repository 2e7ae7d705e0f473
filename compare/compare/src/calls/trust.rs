//! `trust`: the bank put in order, then validated. A refusal that validation finds leaves it ordered.
use super::validate::second;
use super::{Answer, Call, Handed, PLAIN};
use crate::case::Ask;
use crate::judges::Judge;
use crate::second::bytes::policy_of;

/// 22, 23, 1, 2 as in `validate`; then 16, 17 and 10 to 15, which a judge tells.
pub const CALL: Call =
    Call { name: "trust", takes: &[Handed::Policy, Handed::Bank], many_passes: true, second, answer, ..PLAIN };

fn answer(ask: &Ask, judge: &dyn Judge) -> Answer {
    let (told, bank) = judge.trust(&policy_of(ask.policy), ask.bank);
    Answer { bank, ..Answer::passed(told) }
}
