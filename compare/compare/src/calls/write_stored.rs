//! `write_stored`: the stored form of a policy with its bank.
use super::{Answer, Call, Handed, PLAIN};
use crate::case::Ask;
use crate::judges::Judge;
use crate::second::forms::{storable, stored_bytes, stored_form};
use crate::second::refusals::{self, Passed};

pub const CALL: Call =
    Call { name: "write_stored", takes: &[Handed::Policy, Handed::Bank, Handed::Out], need, second, answer, ..PLAIN };

fn need(ask: &Ask) -> usize {
    stored_bytes(ask.policy, ask.bank)
}

/// 22, 23, 1, 2, 18, 4.
fn second(ask: &Ask) -> Passed {
    refusals::policy(ask.policy)?;
    refusals::bank(ask.bank)?;
    storable(ask.bank)?;
    refusals::room(ask.room, need(ask))
}

fn answer(ask: &Ask, _: &dyn Judge) -> Answer {
    Answer::of(stored_form(ask.policy, ask.bank)).second()
}
