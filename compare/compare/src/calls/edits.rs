//! The calls that change the live records of a bank by an id, and close its gaps. Each writes the policy with the next catalogue epoch, the bank, and
//! two bytes: the slot, or of a compaction how many records are live. The Rust has none of them.
use super::{bank, Answer, Call, Handed, PLAIN};
use crate::case::Ask;
use crate::second::edits::{Edit, Edited, EDITED_BYTES};
use crate::second::refusals::{self, Passed};
use crate::second::slots::Listing;

/// 22 of the record, 22 and 23 of the policy, 1, 2, 34, 4; then 16, 27, 12, 28.
pub const ADD: Call = Call {
    name: "live_add",
    takes: &[Handed::Policy, Handed::Bank, Handed::Record, Handed::Out],
    second: offered,
    answer: |ask, _| answer(ask, Edit::Add(ask.record)),
    ..EDIT
};

/// The same, but for 5 in place of 12 and 28.
pub const REPLACE: Call = Call { name: "live_replace", answer: |ask, _| answer(ask, Edit::Replace(ask.record)), ..ADD };

/// 22, 23, 1, 2, 34, 4; then 16, 27, 5.
pub const REMOVE: Call = Call {
    name: "live_remove",
    takes: &[Handed::Policy, Handed::Bank, Handed::Id, Handed::Out],
    answer: |ask, _| answer(ask, Edit::Remove(ask.id)),
    ..EDIT
};

/// 22, 23, 1, 2, 34, 4; then 27.
pub const COMPACT: Call = Call {
    name: "live_compact",
    takes: &[Handed::Policy, Handed::Bank, Handed::Out],
    answer: |ask, _| answer(ask, Edit::Compact),
    ..EDIT
};

const EDIT: Call = Call { listing: Listing::Live, need: |_| EDITED_BYTES, second, ..PLAIN };

fn offered(ask: &Ask) -> Passed {
    refusals::record_length(ask.record)?;
    second(ask)
}

fn second(ask: &Ask) -> Passed {
    refusals::policy(ask.policy)?;
    bank(ask)?;
    refusals::room(ask.room, EDITED_BYTES)
}

fn answer(ask: &Ask, edit: Edit) -> Answer {
    let done = edit.on(ask.policy, ask.bank);
    let written = |Edited { policy, bank, told }| Answer { policy, bank, ..Answer::of(told.to_le_bytes().to_vec()) };
    done.map_or_else(Answer::from, written).second()
}
