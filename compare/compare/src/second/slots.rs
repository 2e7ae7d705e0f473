//! Document 02 i: a bank whose records are swapped while it serves. A slot with an id is live; a free one has id 0 and every other byte 0. What such a
//! bank lists is its live records, each told by its slot, as if it held nothing else.
use super::bytes::{bank_bytes, model_of, models_of, NOWHERE, RECORD_BYTES};
use super::deciding::{in_order, Placed};
use oracle::kernel::KernelModel;

/// Which of a bank's records are listed.
#[derive(Clone, Copy, Debug, PartialEq, Eq)]
pub enum Listing {
    /// All of them, an all-zero one being a model that is switched off.
    Every,
    /// The live ones.
    Live,
}

impl Listing {
    /// What a bank lists, in the order of the slots.
    pub fn records(self, bank: &[u8]) -> Vec<Placed> {
        match self {
            Listing::Every => in_order(models_of(bank)),
            Listing::Live => Slots::of(bank).live,
        }
    }

    /// How many that are, whatever else is wrong with the bank.
    pub fn many(self, bank: &[u8]) -> usize {
        let records = bank.chunks_exact(RECORD_BYTES);
        records.filter(|record| self == Listing::Every || is_live(record)).count()
    }

    /// The place of the first listed record with an id, or `NOWHERE`.
    pub fn first(self, bank: &[u8], id: u32) -> u16 {
        let records = self.records(bank);
        records.into_iter().find(|(_, model)| model.model_id == id).map_or(NOWHERE, |(place, _)| place)
    }
}

fn is_live(slot: &[u8]) -> bool {
    slot[..4] != [0; 4]
}

/// Whether a slot is neither live nor free.
pub fn is_spoilt(slot: &[u8]) -> bool {
    !is_live(slot) && slot.iter().any(|byte| *byte != 0)
}

/// How many slots there are, and the live records in the order of their slots: all others are free.
#[derive(Clone, Debug, PartialEq, Eq)]
pub struct Slots {
    pub many: usize,
    pub live: Vec<Placed>,
}

impl Slots {
    /// Of a bank in which each slot is live or free.
    pub fn of(bank: &[u8]) -> Self {
        let slots = bank.chunks_exact(RECORD_BYTES).zip(0..);
        let live = slots.filter(|(slot, _)| is_live(slot)).map(|(slot, place)| (place, model_of(slot))).collect();
        Slots { many: bank.len() / RECORD_BYTES, live }
    }

    /// The bank that these are.
    pub fn bank(&self) -> Vec<u8> {
        let mut bank = vec![0; self.many * RECORD_BYTES];
        for (slot, model) in &self.live {
            bank[usize::from(*slot) * RECORD_BYTES..][..RECORD_BYTES].copy_from_slice(&bank_bytes(&[*model]));
        }
        bank
    }

    /// Where the first live record with an id stands in the list.
    pub fn position(&self, id: u32) -> Option<usize> {
        self.live.iter().position(|(_, model)| model.model_id == id)
    }

    /// The lowest slot that no live record has.
    pub fn lowest_free(&self) -> Option<u16> {
        let taken = self.live.iter().zip(0..).take_while(|((slot, _), at)| slot == at).count();
        (taken < self.many).then(|| u16::try_from(taken).expect("at most 65,535 slots"))
    }

    /// One more live record, in a slot that is free.
    pub fn put(&mut self, slot: u16, model: KernelModel) {
        let before = self.live.iter().take_while(|(taken, _)| *taken < slot).count();
        self.live.insert(before, (slot, model));
    }

    /// The live records one after the other from the first slot on.
    pub fn compact(&mut self) {
        self.live.iter_mut().zip(0..).for_each(|((slot, _), at)| *slot = at);
    }
}
