//! `utility_for_model`: the utility of the first listed record with an id, if that record is eligible.
use super::{bank, question, Answer, Call, Handed, PLAIN};
use crate::case::Ask;
use crate::judges::Judge;
use crate::second::bytes::UTILITY_BYTES;
use crate::second::refusals::{self, Passed, Refusal};

pub const CALL: Call = Call {
    name: "utility_for_model",
    takes: &[Handed::Policy, Handed::Request, Handed::Bank, Handed::Id, Handed::Out],
    need,
    second,
    answer,
    ..PLAIN
};

fn need(_: &Ask) -> usize {
    UTILITY_BYTES
}

/// 22, 23, 1, 2, 4; then 7, where there is no utility. There is no checked form, so 3 isn't given.
fn second(ask: &Ask) -> Passed {
    refusals::policy_and_request(ask.policy, ask.request)?;
    bank(ask)?;
    refusals::room(ask.room, UTILITY_BYTES)
}

fn answer(ask: &Ask, judge: &dyn Judge) -> Answer {
    match judge.utility(&question(ask), ask.id) {
        Some(utility) => Answer::of(utility.to_le_bytes().to_vec()),
        None => Refusal::of(refusals::NO_UTILITY).into(),
    }
}
