//! `decision_margin`: how far each lever of the selected model can move until another one is selected.
use super::what_would_win::{need, second};
use super::{question, Answer, Call, Handed, PLAIN};
use crate::case::Ask;
use crate::judges::Judge;
use crate::second::boundaries::boundaries_bytes;
use crate::second::refusals::{Refusal, REJECTION};

/// 22, 23, 1, 2, 4 as in `what_would_win`; then 6, where there is no margin.
pub const CALL: Call = Call {
    name: "decision_margin",
    takes: &[Handed::Policy, Handed::Request, Handed::Bank, Handed::Out],
    many_passes: true,
    need,
    second,
    answer,
    ..PLAIN
};

fn answer(ask: &Ask, judge: &dyn Judge) -> Answer {
    let found = judge.decision_margin(&question(ask));
    found.map_or(Refusal::of(REJECTION).into(), |found| Answer::of(boundaries_bytes(&found)))
}
