//! `check_request`: the test of the request's limits alone. It writes nothing.
use super::{Answer, Call, Handed, PLAIN};
use crate::case::Ask;
use crate::judges::Judge;
use crate::second::bytes::request_of;
use crate::second::refusals::{self, Passed};

pub const CALL: Call = Call { name: "check_request", takes: &[Handed::Request], second, answer, ..PLAIN };

/// 22; then 3, which a judge tells.
fn second(ask: &Ask) -> Passed {
    refusals::request_length(ask.request)
}

fn answer(ask: &Ask, judge: &dyn Judge) -> Answer {
    Answer::passed(judge.request_limits(&request_of(ask.request)))
}
