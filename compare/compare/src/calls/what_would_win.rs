//! `what_would_win`: for each lever of one model, where it would have to be for that model to be selected.
use super::{bank, question, Answer, Call, Handed, PLAIN};
use crate::case::Ask;
use crate::judges::Judge;
use crate::second::boundaries::{boundaries_bytes, BOUNDARIES_BYTES};
use crate::second::refusals::{self, Passed, Refusal};

pub const CALL: Call = Call {
    name: "what_would_win",
    takes: &[Handed::Policy, Handed::Request, Handed::Bank, Handed::Id, Handed::Out],
    many_passes: true,
    need,
    second,
    answer,
    ..PLAIN
};

pub(super) fn need(_: &Ask) -> usize {
    BOUNDARIES_BYTES
}

/// 22, 23, 1, 2, 4; then 5, where the id isn't listed.
pub(super) fn second(ask: &Ask) -> Passed {
    refusals::policy_and_request(ask.policy, ask.request)?;
    bank(ask)?;
    refusals::room(ask.room, BOUNDARIES_BYTES)
}

fn answer(ask: &Ask, judge: &dyn Judge) -> Answer {
    let found = judge.what_would_win(&question(ask), ask.id);
    found.map_or(Refusal::of(refusals::NOT_LISTED).into(), |found| Answer::of(boundaries_bytes(&found)))
}
