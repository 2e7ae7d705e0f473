//! `prescribe`: the decision and its nine counts.
use super::{bank, question, Answer, Call, Handed, PLAIN};
use crate::case::Ask;
use crate::judges::Judge;
use crate::second::bytes::{traced_bytes, TRACED_BYTES};
use crate::second::refusals::{self, Passed};

pub const CALL: Call = Call {
    name: "prescribe",
    takes: &[Handed::Policy, Handed::Request, Handed::Bank, Handed::Out],
    need,
    second,
    answer,
    ..PLAIN
};

pub(super) fn need(_: &Ask) -> usize {
    TRACED_BYTES
}

/// 22 of either, 23, 1, 2, 4.
pub(super) fn second(ask: &Ask) -> Passed {
    refusals::policy_and_request(ask.policy, ask.request)?;
    bank(ask)?;
    refusals::room(ask.room, TRACED_BYTES)
}

fn answer(ask: &Ask, judge: &dyn Judge) -> Answer {
    let (decision, counts) = judge.decision(&question(ask));
    Answer::of(traced_bytes(&decision, &counts))
}
