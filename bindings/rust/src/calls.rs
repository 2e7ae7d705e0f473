//! The questions that are asked of a policy with its bank.
use crate::boundary::{Counterfactual, Margin};
use crate::decision::{DecisionTrace, KernelDecision, RejectionHistogram};
use crate::ffi;
use crate::layout::{
    broken, Fields, BOUNDARY_BYTES, DECISION_BYTES, EXPLANATION_BYTES, NEXT_BYTES, RECORD_BYTES, UNCOUNTED_BYTES,
    UTILITY_BYTES,
};
use crate::records::{KernelInput, PolicySnapshot, MAX_CATALOG_MODELS};
use crate::refusal::Refusal;
use crate::verdict::{CandidateExplanation, Explanation};

impl PolicySnapshot {
    /// Decides. Refusals: 1, 2.
    pub fn prescribe(&self, bank: &[u8], input: KernelInput) -> Result<KernelDecision, Refusal> {
        self.prescribe_with_trace(bank, input).map(|(decision, _)| decision)
    }

    /// Decides a request that is checked first. Refusals: 1, 2, 3.
    pub fn prescribe_checked(&self, bank: &[u8], input: KernelInput) -> Result<KernelDecision, Refusal> {
        self.prescribe_with_trace_checked(bank, input).map(|(decision, _)| decision)
    }

    /// Decides, and counts what fell out. Refusals: 1, 2.
    pub fn prescribe_with_trace(
        &self,
        bank: &[u8],
        input: KernelInput,
    ) -> Result<(KernelDecision, DecisionTrace), Refusal> {
        let mut out = [0; DECISION_BYTES];
        Refusal::told(ffi::prescribe(&self.to_bytes(), &input.to_bytes(), bank, &mut out))?;
        Ok(traced(&out))
    }

    /// The same for a request that is checked first. Refusals: 1, 2, 3.
    pub fn prescribe_with_trace_checked(
        &self,
        bank: &[u8],
        input: KernelInput,
    ) -> Result<(KernelDecision, DecisionTrace), Refusal> {
        let mut out = [0; DECISION_BYTES];
        Refusal::told(ffi::prescribe_checked(&self.to_bytes(), &input.to_bytes(), bank, &mut out))?;
        Ok(traced(&out))
    }

    /// The utility of the first listed model with an id. Refusals: 1, 2, 7.
    pub fn utility_for_model(&self, bank: &[u8], input: KernelInput, model_id: u32) -> Result<i64, Refusal> {
        let mut out = [0; UTILITY_BYTES];
        Refusal::told(ffi::utility_for_model(&self.to_bytes(), &input.to_bytes(), bank, model_id, &mut out))?;
        Ok(i64::from_le_bytes(out))
    }

    /// Decides, and tells what became of each model. Refusals: 1, 2.
    pub fn explain(&self, bank: &[u8], input: KernelInput) -> Result<Explanation, Refusal> {
        explained(bank.len() / RECORD_BYTES, |list| self.explain_into(bank, input, list))
    }

    /// The same into a lent list of 72 bytes a model, which [`CandidateExplanation::from_bytes`] reads: as many entries as the
    /// decision evaluated, and the bytes after them stay. Refusals, with the list as it was: 1, 2, 4.
    pub fn explain_into(&self, bank: &[u8], input: KernelInput, list: &mut [u8]) -> Result<KernelDecision, Refusal> {
        let mut out = [0; UNCOUNTED_BYTES];
        Refusal::told(ffi::explain(&self.to_bytes(), &input.to_bytes(), bank, list, &mut out))?;
        Ok(KernelDecision::taken(&mut Fields(&out)))
    }

    /// Whether this policy may serve with this bank. Refusals: 1, 2, 10, 11, then model by model 12, 13, 14, then 15.
    pub fn validate(&self, bank: &[u8]) -> Result<(), Refusal> {
        Refusal::told(ffi::validate(&self.to_bytes(), bank))
    }

    /// Puts the bank in ascending id order, equal ids in their old order, and validates it. Refusals that leave the bank as it
    /// was: 1, 2, 16, 17; then, with the bank in order, those of [`validate`](Self::validate) from 10 on.
    pub fn trust(&self, bank: &mut [u8]) -> Result<(), Refusal> {
        Refusal::told(ffi::trust(&self.to_bytes(), bank))
    }
}

/// Whether a request would pass a checked call. Refusals: 3.
pub fn check_request(input: KernelInput) -> Result<(), Refusal> {
    Refusal::told(ffi::check_request(&input.to_bytes()))
}

/// The place of the next eligible entry at or after `from` in a list that [`PolicySnapshot::explain_into`] filled; any other
/// bytes may be asked about too. Never refused.
pub fn next_eligible(list: &[u8], from: u64) -> Result<Option<u64>, Refusal> {
    let mut out = [0; NEXT_BYTES];
    Refusal::told(ffi::next_eligible(list, from, &mut out))?;
    let place = u64::from_le_bytes(out);
    Ok((place != u64::MAX).then_some(place))
}

/// For a model that was not selected, by each lever alone: the smallest change after which it is. Refusals: 1, 2, 5.
pub fn what_would_win(
    policy: &PolicySnapshot,
    bank: &[u8],
    input: KernelInput,
    model_id: u32,
) -> Result<Counterfactual, Refusal> {
    let mut out = [0; BOUNDARY_BYTES];
    Refusal::told(ffi::what_would_win(&policy.to_bytes(), &input.to_bytes(), bank, model_id, &mut out))?;
    Ok(Counterfactual::told(&out))
}

/// For the model that was selected: how far each lever can move before it is not. Refusals: 1, 2, 6.
pub fn decision_margin(policy: &PolicySnapshot, bank: &[u8], input: KernelInput) -> Result<Margin, Refusal> {
    let mut out = [0; BOUNDARY_BYTES];
    Refusal::told(ffi::decision_margin(&policy.to_bytes(), &input.to_bytes(), bank, &mut out))?;
    Ok(Counterfactual::told(&out).into())
}

/// What a call tells that fills a list with room for so many entries, as many as its decision evaluated.
pub(crate) fn explained(
    entries: usize,
    fill: impl FnOnce(&mut [u8]) -> Result<KernelDecision, Refusal>,
) -> Result<Explanation, Refusal> {
    // A bank with more records is refused before the list is looked at.
    let mut list = vec![0; entries.min(MAX_CATALOG_MODELS) * EXPLANATION_BYTES];
    let decision = fill(&mut list)?;
    let entries = list.chunks_exact(EXPLANATION_BYTES).take(decision.evaluated_models.into());
    Ok(Explanation { decision, candidates: entries.map(told).collect() })
}

pub(crate) fn traced(answer: &[u8; DECISION_BYTES]) -> (KernelDecision, DecisionTrace) {
    let mut fields = Fields(answer);
    let decision = KernelDecision::taken(&mut fields);
    let rejections = RejectionHistogram::taken(&mut fields);
    let KernelDecision { evaluated_models, eligible_models, .. } = decision;
    (decision, DecisionTrace { rejections, evaluated_models, eligible_models })
}

fn told(entry: &[u8]) -> CandidateExplanation {
    let entry = entry.first_chunk().and_then(CandidateExplanation::from_bytes);
    entry.unwrap_or_else(|| broken("an entry that is no verdict"))
}
