//! `record_at`: where the record at a place of a bank begins. The Rust indexes a list of its own.
use super::{Answer, Call, Handed, PLAIN};
use crate::case::Ask;
use crate::judges::Judge;
use crate::second::bytes::{record_offset, OFFSET_BYTES};
use crate::second::refusals::{self, Passed};

pub const CALL: Call =
    Call { name: "record_at", takes: &[Handed::Bank, Handed::Place, Handed::Out], need, second, answer, ..PLAIN };

fn need(_: &Ask) -> usize {
    OFFSET_BYTES
}

/// 1, 2, 4, 8.
fn second(ask: &Ask) -> Passed {
    refusals::bank(ask.bank)?;
    refusals::room(ask.room, OFFSET_BYTES)?;
    refusals::place(ask.bank, ask.place)
}

fn answer(ask: &Ask, _: &dyn Judge) -> Answer {
    Answer::of(record_offset(ask.place).to_le_bytes().to_vec()).second()
}
