//! Document 02 i: the edits of a live bank, by a record's id, on the list of its live records. Each that is done raises the catalogue's epoch by
//! one; one that is refused leaves all as it was. What a record holds beside its id isn't looked at.
use super::bytes::{long_policy_bytes, model_of, policy_of};
use super::catalogue::{REPEATED_ID, RESERVED_ID};
use super::refusals::{Passed, Refusal, NOT_LISTED};
use super::slots::Slots;

pub const EPOCH_SPENT: u8 = 27;
pub const NO_FREE_SLOT: u8 = 28;

/// The bytes of an edit's answer: the slot that it changed, or of a compaction how many records are live.
pub const EDITED_BYTES: usize = 2;

/// What is to be done. A record is 47 bytes.
#[derive(Clone, Copy, Debug)]
pub enum Edit<'a> {
    Add(&'a [u8]),
    Replace(&'a [u8]),
    Remove(u32),
    Compact,
}

/// The policy and the bank at exit, in as many bytes as they had, and the number that is told.
#[derive(Clone, Debug, PartialEq, Eq)]
pub struct Edited {
    pub policy: Vec<u8>,
    pub bank: Vec<u8>,
    pub told: u16,
}

impl Edit<'_> {
    /// What is left of an edit once policy and bank are good: 16, 27, 12, 5, 28, as far as each can be.
    pub fn on(self, policy: &[u8], bank: &[u8]) -> Result<Edited, Refusal> {
        self.reserved()?;
        let policy = raised(policy)?;
        let mut slots = Slots::of(bank);
        let told = self.told(&mut slots)?;
        Ok(Edited { policy, bank: slots.bank(), told })
    }

    /// 16: a free slot's id is no model's. A compaction names none.
    fn reserved(self) -> Passed {
        match self.id() {
            Some(0) => Err(Refusal::of(RESERVED_ID)),
            _ => Ok(()),
        }
    }

    fn id(self) -> Option<u32> {
        match self {
            Edit::Add(record) | Edit::Replace(record) => Some(model_of(record).model_id),
            Edit::Remove(id) => Some(id),
            Edit::Compact => None,
        }
    }

    /// Changes the list: 12, 5, 28.
    fn told(self, slots: &mut Slots) -> Result<u16, Refusal> {
        match self {
            Edit::Add(record) => add(slots, record),
            Edit::Replace(record) => {
                let model = model_of(record);
                let at = slots.position(model.model_id).ok_or(Refusal::of(NOT_LISTED))?;
                slots.live[at].1 = model;
                Ok(slots.live[at].0)
            }
            Edit::Remove(id) => {
                let at = slots.position(id).ok_or(Refusal::of(NOT_LISTED))?;
                Ok(slots.live.remove(at).0)
            }
            Edit::Compact => {
                slots.compact();
                Ok(u16::try_from(slots.live.len()).expect("at most 65,535 slots"))
            }
        }
    }
}

/// 12 with the id, then 28.
fn add(slots: &mut Slots, record: &[u8]) -> Result<u16, Refusal> {
    let model = model_of(record);
    if slots.position(model.model_id).is_some() {
        return Err(Refusal { id_or_place: model.model_id, ..Refusal::of(REPEATED_ID) });
    }
    let slot = slots.lowest_free().ok_or(Refusal::of(NO_FREE_SLOT))?;
    slots.put(slot, model);
    Ok(slot)
}

/// The policy with the next catalogue epoch, or 27.
fn raised(policy: &[u8]) -> Result<Vec<u8>, Refusal> {
    let mut read = policy_of(policy);
    read.catalog_epoch = read.catalog_epoch.checked_add(1).ok_or(Refusal::of(EPOCH_SPENT))?;
    let mut bytes = long_policy_bytes(&read);
    bytes.truncate(policy.len());
    Ok(bytes)
}
