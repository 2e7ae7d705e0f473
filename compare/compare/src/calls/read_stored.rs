//! `read_stored`: the policy and the models of a stored form. The models go to the start of a lent bank.
use super::{Answer, Call, Handed, PLAIN};
use crate::case::Ask;
use crate::judges::Judge;
use crate::second::bytes::long_policy_bytes;
use crate::second::forms::{stored_of, READ_BYTES, STORED_FORM};
use crate::second::refusals::{self, Passed};

pub const CALL: Call = Call {
    name: "read_stored",
    takes: &[Handed::Form, Handed::List, Handed::Out],
    tags: STORED_FORM,
    need,
    list_need,
    second,
    answer,
    ..PLAIN
};

fn need(_: &Ask) -> usize {
    READ_BYTES
}

/// The models' bytes; of a form that is refused, those of the bank that it was made of.
fn list_need(ask: &Ask) -> usize {
    stored_of(&ask.form).map_or(ask.bank.len(), |(_, models)| models.len())
}

/// The form's own (at each field 21 for no byte, 20, 21, 22, 20, and of the one that says how to round 23, of the one that says an allowance 25; then
/// 21 for a byte after the last), then 4 of either buffer.
fn second(ask: &Ask) -> Passed {
    let (_, models) = stored_of(&ask.form)?;
    refusals::room(ask.list_room, models.len())?;
    refusals::room(ask.room, READ_BYTES)
}

fn answer(ask: &Ask, _: &dyn Judge) -> Answer {
    let (policy, models) = stored_of(&ask.form).expect("it passed");
    let out = [&long_policy_bytes(&policy)[..], &(models.len() as u64).to_le_bytes()].concat();
    Answer { list: models.to_vec(), ..Answer::of(out) }.second()
}
