//! `write_request`: the form of a request.
use super::{Answer, Call, Handed, PLAIN};
use crate::case::Ask;
use crate::judges::Judge;
use crate::second::forms::{request_form, REQUEST_FORM_BYTES};
use crate::second::refusals::{self, Passed};

pub const CALL: Call =
    Call { name: "write_request", takes: &[Handed::Request, Handed::Out], need, second, answer, ..PLAIN };

fn need(_: &Ask) -> usize {
    REQUEST_FORM_BYTES
}

/// 22, 4.
fn second(ask: &Ask) -> Passed {
    refusals::request_length(ask.request)?;
    refusals::room(ask.room, REQUEST_FORM_BYTES)
}

fn answer(ask: &Ask, _: &dyn Judge) -> Answer {
    Answer::of(request_form(ask.request)).second()
}
