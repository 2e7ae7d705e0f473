//! A bank whose models are swapped one by one, with no transfer of the rest.
//!
//! Each record of such a bank is a slot: live where its id isn't 0, free where all of its 47 bytes are 0. So a bank of zeros takes as many models
//! as it has slots, and zeros after a bank's records are room for more. A slot with id 0 and another byte set is refused with 34.
//!
//! The calls that ask are those of the same names outside this module, over live records alone, as if the bank listed nothing else: a place is a
//! slot, live records alone are evaluated, and an explanation has an entry for each of them. Id 0 is nowhere, and where an id is listed twice, the
//! first live record is meant. Those outside decide such a bank as any other: a free slot is a switched-off model to them.
//!
//! The edits, [`add`], [`replace`] and [`remove`], and [`compact`] raise the policy's catalogue epoch by one each, also where they write what was
//! there. Of a model they look at its id alone; [`PolicySnapshot::validate`] says whether it may serve. Refused, they change neither policy nor bank.
//!
//! What is stored, validated or trusted is a compacted bank without its free slots: as many of its records as [`compact`] tells. Two free slots
//! repeat id 0, which the programs and `validate` refuse with 12, and `trust` refuses one with 16.
//!
//! ```
//! use volankizo::layout::RECORD_BYTES;
//! use volankizo::{live, write_stored, KernelModel, PolicySnapshot, Refusal};
//!
//! # let mut policy = PolicySnapshot::from_bytes(&[0; 30])?;
//! # let model = KernelModel::from_bytes(&[1; 47]);
//! let mut bank = vec![0; 3 * RECORD_BYTES];
//! for model_id in [7, 8, 9] {
//!     live::add(&mut policy, &mut bank, KernelModel { model_id, ..model })?;
//! }
//! assert_eq!(live::remove(&mut policy, &mut bank, 8)?, 1);
//! assert_eq!(live::add(&mut policy, &mut bank, KernelModel { model_id: 6, ..model })?, 1);
//! assert_eq!(live::remove(&mut policy, &mut bank, 7)?, 0);
//! assert_eq!(live::find(&bank, 9)?, Some(2));
//!
//! let models = usize::from(live::compact(&mut policy, &mut bank)?);
//! assert_eq!((models, live::find(&bank, 9)?, policy.catalog_epoch), (2, Some(1), 7));
//! let form = write_stored(&policy, &bank[..models * RECORD_BYTES])?;
//! # assert_eq!(form.len(), 36 + 2 * 47);
//! # Ok::<(), Refusal>(())
//! ```
use crate::bank::place;
use crate::boundary::{Counterfactual, Margin};
use crate::calls::{explained, traced};
use crate::decision::{DecisionTrace, KernelDecision};
use crate::ffi;
use crate::layout::{
    Fields, BOUNDARY_BYTES, DECISION_BYTES, EDIT_BYTES, PLACE_BYTES, RECORD_BYTES, UNCOUNTED_BYTES, UTILITY_BYTES,
};
use crate::records::{KernelInput, KernelModel, PolicySnapshot};
use crate::refusal::Refusal;
use crate::verdict::Explanation;

/// The bytes of a free slot.
pub const FREE_SLOT: [u8; RECORD_BYTES] = [0; RECORD_BYTES];

/// Decides. Refusals: 1, 2, 34.
pub fn prescribe(policy: &PolicySnapshot, bank: &[u8], input: KernelInput) -> Result<KernelDecision, Refusal> {
    prescribe_with_trace(policy, bank, input).map(|(decision, _)| decision)
}

/// Decides a request that is checked first. Refusals: 1, 2, 34, 3.
pub fn prescribe_checked(policy: &PolicySnapshot, bank: &[u8], input: KernelInput) -> Result<KernelDecision, Refusal> {
    prescribe_with_trace_checked(policy, bank, input).map(|(decision, _)| decision)
}

/// Decides, and counts what fell out; a free slot isn't counted. Refusals: 1, 2, 34.
pub fn prescribe_with_trace(
    policy: &PolicySnapshot,
    bank: &[u8],
    input: KernelInput,
) -> Result<(KernelDecision, DecisionTrace), Refusal> {
    let mut out = [0; DECISION_BYTES];
    Refusal::told(ffi::live::prescribe(&policy.to_bytes(), &input.to_bytes(), bank, &mut out))?;
    Ok(traced(&out))
}

/// The same for a request that is checked first. Refusals: 1, 2, 34, 3.
pub fn prescribe_with_trace_checked(
    policy: &PolicySnapshot,
    bank: &[u8],
    input: KernelInput,
) -> Result<(KernelDecision, DecisionTrace), Refusal> {
    let mut out = [0; DECISION_BYTES];
    Refusal::told(ffi::live::prescribe_checked(&policy.to_bytes(), &input.to_bytes(), bank, &mut out))?;
    Ok(traced(&out))
}

/// Decides, and tells what became of each live model. Refusals: 1, 2, 34.
pub fn explain(policy: &PolicySnapshot, bank: &[u8], input: KernelInput) -> Result<Explanation, Refusal> {
    let models = bank.chunks_exact(RECORD_BYTES).filter(|slot| slot[..4] != FREE_SLOT[..4]).count();
    explained(models, |list| explain_into(policy, bank, input, list))
}

/// The same into a lent list of 72 bytes a live model, as [`PolicySnapshot::explain_into`] fills it: no gap where a slot is free.
/// [`next_eligible`](crate::next_eligible) takes it. Refusals, with the list as it was: 1, 2, 34, 4.
pub fn explain_into(
    policy: &PolicySnapshot,
    bank: &[u8],
    input: KernelInput,
    list: &mut [u8],
) -> Result<KernelDecision, Refusal> {
    let mut out = [0; UNCOUNTED_BYTES];
    Refusal::told(ffi::live::explain(&policy.to_bytes(), &input.to_bytes(), bank, list, &mut out))?;
    Ok(KernelDecision::taken(&mut Fields(&out)))
}

/// The slot of the first live model with an id. Refusals: 1, 2, 34.
pub fn find(bank: &[u8], model_id: u32) -> Result<Option<u16>, Refusal> {
    let mut out = [0; PLACE_BYTES];
    Refusal::told(ffi::live::find(bank, model_id, &mut out))?;
    Ok(place(out))
}

/// The utility of the first live model with an id. Refusals: 1, 2, 34, 7, always of id 0.
pub fn utility_for_model(
    policy: &PolicySnapshot,
    bank: &[u8],
    input: KernelInput,
    model_id: u32,
) -> Result<i64, Refusal> {
    let mut out = [0; UTILITY_BYTES];
    Refusal::told(ffi::live::utility_for_model(&policy.to_bytes(), &input.to_bytes(), bank, model_id, &mut out))?;
    Ok(i64::from_le_bytes(out))
}

/// For a live model that was not selected, by each lever alone: the smallest change after which it is. Refusals: 1, 2, 34, 5, always of id 0.
pub fn what_would_win(
    policy: &PolicySnapshot,
    bank: &[u8],
    input: KernelInput,
    model_id: u32,
) -> Result<Counterfactual, Refusal> {
    let mut out = [0; BOUNDARY_BYTES];
    Refusal::told(ffi::live::what_would_win(&policy.to_bytes(), &input.to_bytes(), bank, model_id, &mut out))?;
    Ok(Counterfactual::told(&out))
}

/// For the model that was selected: how far each lever can move before it is not. Refusals: 1, 2, 34, 6.
pub fn decision_margin(policy: &PolicySnapshot, bank: &[u8], input: KernelInput) -> Result<Margin, Refusal> {
    let mut out = [0; BOUNDARY_BYTES];
    Refusal::told(ffi::live::decision_margin(&policy.to_bytes(), &input.to_bytes(), bank, &mut out))?;
    Ok(Counterfactual::told(&out).into())
}

/// Adds a model in the lowest free slot, which comes back. Refusals: 1, 2, 34, 16, 27, 12, 28.
pub fn add(policy: &mut PolicySnapshot, bank: &mut [u8], model: KernelModel) -> Result<u16, Refusal> {
    edited(policy, |policy, out| ffi::live::add(policy, bank, &model.to_bytes(), out))
}

/// Puts a model in place of the first live one with its id, whose slot comes back. Refusals: 1, 2, 34, 16, 27, 5.
pub fn replace(policy: &mut PolicySnapshot, bank: &mut [u8], model: KernelModel) -> Result<u16, Refusal> {
    edited(policy, |policy, out| ffi::live::replace(policy, bank, &model.to_bytes(), out))
}

/// Frees the slot of the first live model with an id, which comes back. Refusals: 1, 2, 34, 16, 27, 5.
pub fn remove(policy: &mut PolicySnapshot, bank: &mut [u8], model_id: u32) -> Result<u16, Refusal> {
    edited(policy, |policy, out| ffi::live::remove(policy, bank, model_id, out))
}

/// Closes the gaps: the live models stand first, in their order, and free slots after them. How many are live comes back. A decision before it
/// and one after it differ in the place and the catalogue epoch alone. Refusals: 1, 2, 34, 27.
pub fn compact(policy: &mut PolicySnapshot, bank: &mut [u8]) -> Result<u16, Refusal> {
    edited(policy, |policy, out| ffi::live::compact(policy, bank, out))
}

/// The policy as the edit left its bytes, and the number that it told.
fn edited(policy: &mut PolicySnapshot, edit: impl FnOnce(&mut [u8], &mut [u8]) -> u64) -> Result<u16, Refusal> {
    let (mut bytes, mut out) = (policy.to_bytes(), [0; EDIT_BYTES]);
    Refusal::told(edit(&mut bytes, &mut out))?;
    *policy = PolicySnapshot::taken(&mut Fields(&bytes));
    Ok(u16::from_le_bytes(out))
}
