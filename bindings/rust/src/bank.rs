//! Models in packed bytes.
use crate::ffi;
use crate::layout::{broken, OFFSET_BYTES, PLACE_BYTES, RECORD_BYTES};
use crate::records::{KernelModel, MAX_CATALOG_MODELS};
use crate::refusal::Refusal;
use std::ops::{Deref, DerefMut};

/// A bank that owns its bytes: 47 for each model, in the order given. Every call takes a bank as `&[u8]`, which a `Bank` gives by
/// itself and which may just as well be lent from elsewhere. Its length is in bytes; any bytes may stand in it.
#[derive(Clone, Debug, Default, PartialEq, Eq)]
pub struct Bank(Vec<u8>);

impl Bank {
    pub fn from_models(models: &[KernelModel]) -> Self {
        Bank(models.iter().flat_map(KernelModel::to_bytes).collect())
    }

    pub fn from_bytes(bytes: Vec<u8>) -> Self {
        Bank(bytes)
    }

    pub fn into_bytes(self) -> Vec<u8> {
        self.0
    }

    /// The models in their order. Refusals: 1, 2.
    pub fn models(&self) -> Result<Vec<KernelModel>, Refusal> {
        models(&self.0)
    }
}

impl Deref for Bank {
    type Target = [u8];

    fn deref(&self) -> &[u8] {
        &self.0
    }
}

impl DerefMut for Bank {
    fn deref_mut(&mut self) -> &mut [u8] {
        &mut self.0
    }
}

impl FromIterator<KernelModel> for Bank {
    fn from_iter<I: IntoIterator<Item = KernelModel>>(models: I) -> Self {
        Bank(models.into_iter().flat_map(|model| model.to_bytes()).collect())
    }
}

/// The place of the first listed model with an id. Refusals: 1, 2.
pub fn find(bank: &[u8], model_id: u32) -> Result<Option<u16>, Refusal> {
    let mut out = [0; PLACE_BYTES];
    Refusal::told(ffi::find(bank, model_id, &mut out))?;
    Ok(place(out))
}

/// The place that finding tells; 65,535 is none.
pub(crate) fn place(answer: [u8; PLACE_BYTES]) -> Option<u16> {
    let place = u16::from_le_bytes(answer);
    (place != u16::MAX).then_some(place)
}

/// The record at a place: that very part of the bank, not a copy. Refusals: 1, 2, 8.
pub fn record_at(bank: &[u8], place: u64) -> Result<&[u8; RECORD_BYTES], Refusal> {
    let mut out = [0; OFFSET_BYTES];
    Refusal::told(ffi::record_at(bank, place, &mut out))?;
    let offset = u64::from_le_bytes(out) as usize;
    Ok(bank.get(offset..).and_then(|rest| rest.first_chunk()).unwrap_or_else(|| broken("a record beyond the bank")))
}

/// The models of a bank in their order. Refusals: 1, 2.
pub fn models(bank: &[u8]) -> Result<Vec<KernelModel>, Refusal> {
    let mut models = Vec::with_capacity((bank.len() / RECORD_BYTES).min(MAX_CATALOG_MODELS));
    loop {
        match record_at(bank, models.len() as u64) {
            Ok(record) => models.push(KernelModel::from_bytes(record)),
            Err(Refusal::BeyondBank) => return Ok(models),
            Err(refusal) => return Err(refusal),
        }
    }
}
