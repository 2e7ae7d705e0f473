//! `read_request`: the request of a request form.
use super::{Answer, Call, Handed, PLAIN};
use crate::case::Ask;
use crate::judges::Judge;
use crate::second::bytes::REQUEST_BYTES;
use crate::second::forms::{request_in, REQUEST_FORM};
use crate::second::refusals::{self, Passed};

pub const CALL: Call = Call {
    name: "read_request",
    takes: &[Handed::Form, Handed::Out],
    tags: REQUEST_FORM,
    need,
    second,
    answer,
    ..PLAIN
};

fn need(_: &Ask) -> usize {
    REQUEST_BYTES
}

/// The form's own (at a field 21 for no byte, 20, 21, 22, 20; then 21 for a byte after it), then 4.
fn second(ask: &Ask) -> Passed {
    request_in(&ask.form)?;
    refusals::room(ask.room, REQUEST_BYTES)
}

fn answer(ask: &Ask, _: &dyn Judge) -> Answer {
    Answer::of(request_in(&ask.form).expect("it passed").to_vec()).second()
}
