//! `prescribe_checked`: the same, after a test of the request's limits.
use super::prescribe::{need, second};
use super::{question, Answer, Call, Handed, PLAIN};
use crate::case::Ask;
use crate::judges::Judge;
use crate::second::bytes::traced_bytes;

/// 22, 23, 1, 2, 4 as in `prescribe`; then 3, which a judge tells.
pub const CALL: Call = Call {
    name: "prescribe_checked",
    takes: &[Handed::Policy, Handed::Request, Handed::Bank, Handed::Out],
    need,
    second,
    answer,
    ..PLAIN
};

fn answer(ask: &Ask, judge: &dyn Judge) -> Answer {
    let told = judge.checked_decision(&question(ask));
    told.map_or_else(Answer::from, |(decision, counts)| Answer::of(traced_bytes(&decision, &counts)))
}
