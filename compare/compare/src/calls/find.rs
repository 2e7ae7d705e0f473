//! `find`: the place of the first listed record with an id.
use super::{bank, Answer, Call, Handed, PLAIN};
use crate::case::Ask;
use crate::judges::Judge;
use crate::second::bytes::PLACE_BYTES;
use crate::second::refusals::{self, Passed};

pub const CALL: Call =
    Call { name: "find", takes: &[Handed::Bank, Handed::Id, Handed::Out], need, second, answer, ..PLAIN };

fn need(_: &Ask) -> usize {
    PLACE_BYTES
}

/// 1, 2, 4.
fn second(ask: &Ask) -> Passed {
    bank(ask)?;
    refusals::room(ask.room, PLACE_BYTES)
}

/// The Rust has no call for this, and takes the first listed record wherever it looks an id up.
fn answer(ask: &Ask, _: &dyn Judge) -> Answer {
    Answer::of(ask.listing.first(ask.bank, ask.id).to_le_bytes().to_vec()).second()
}
