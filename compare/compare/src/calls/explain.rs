//! `explain`: the decision, and a record for each model.
use super::{bank, question, Answer, Call, Handed, PLAIN};
use crate::case::Ask;
use crate::judges::Judge;
use crate::second::bytes::{decision_bytes, DECISION_BYTES};
use crate::second::deciding::is_stopped;
use crate::second::explanation::{explanation_bytes, EXPLANATION_BYTES};
use crate::second::refusals::{self, Passed};

pub const CALL: Call = Call {
    name: "explain",
    takes: &[Handed::Policy, Handed::Request, Handed::Bank, Handed::List, Handed::Out],
    need,
    list_need,
    second,
    answer,
    ..PLAIN
};

fn need(_: &Ask) -> usize {
    DECISION_BYTES
}

/// A record for each listed model. A stopped request needs none, and may be lent this much all the same.
fn list_need(ask: &Ask) -> usize {
    ask.listing.many(ask.bank) * EXPLANATION_BYTES
}

/// 22, 23, 1, 2, 4 for the buffer, then 4 for the list: no record goes there where the request is stopped.
fn second(ask: &Ask) -> Passed {
    refusals::policy_and_request(ask.policy, ask.request)?;
    bank(ask)?;
    refusals::room(ask.room, DECISION_BYTES)?;
    refusals::room(ask.list_room, if is_stopped(&question(ask)) { 0 } else { list_need(ask) })
}

fn answer(ask: &Ask, judge: &dyn Judge) -> Answer {
    let (decision, explained) = judge.explanation(&question(ask));
    Answer { list: explanation_bytes(&explained), ..Answer::of(decision_bytes(&decision)) }
}
