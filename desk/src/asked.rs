//! What the library is asked about one request.
use crate::fault::Trouble;
use crate::open::Desk;
use crate::refusal::in_words;
use volankizo::{
    what_would_win, Bank, Explanation, KernelDecision, KernelInput, Lever, Margin, Requirement, UtilityTerms, PPM,
};

/// The keys of the ranking, in the order in which they are looked at.
#[derive(Clone, Copy, Debug, PartialEq, Eq, PartialOrd, Ord)]
pub enum Key {
    Utility,
    Cost,
    Quality,
    Id,
}

impl Desk {
    /// The decision alone.
    pub fn decide(&self, input: KernelInput) -> Result<KernelDecision, Trouble> {
        self.policy.policy.prescribe(&self.bank, input).map_err(|refusal| in_words(refusal, &self.models))
    }

    /// The decision, and what became of each model; of none where the request itself is stopped.
    pub fn explain(&self, input: KernelInput) -> Result<Explanation, Trouble> {
        self.policy.policy.explain(&self.bank, input).map_err(|refusal| in_words(refusal, &self.models))
    }

    /// The levers of a model, by its place in the list, each of which alone would make it the choice.
    ///
    /// Of the other models only the best one stands in its way, and that is the chosen one. So the library is asked about these two alone, or
    /// about the model by itself where nothing is chosen, and its answer has the same levers as over the whole list.
    pub fn levers_to_win(
        &self,
        input: KernelInput,
        decision: &KernelDecision,
        place: usize,
    ) -> Result<Vec<Requirement>, Trouble> {
        let asked = self.models.models[place].model;
        let chosen = self.models.models.get(usize::from(decision.selected_model_index)).map(|named| named.model);
        let pair: Bank = chosen.filter(|chosen| chosen.model_id != asked.model_id).into_iter().chain([asked]).collect();
        let told = what_would_win(&self.policy.policy, &pair, input, asked.model_id);
        told.map(|answer| answer.levers).map_err(|refusal| in_words(refusal, &self.models))
    }

    /// How far the chosen model may move, lever by lever, before it loses.
    pub fn margin(&self, input: KernelInput) -> Result<Margin, Trouble> {
        volankizo::decision_margin(&self.policy.policy, &self.bank, input)
            .map_err(|refusal| in_words(refusal, &self.models))
    }

    /// The first key of the ranking in which the chosen model is ahead of an eligible one.
    pub fn key_behind(&self, place: usize, terms: &UtilityTerms, decision: &KernelDecision) -> Key {
        let best = self.models.with_id(decision.selected_model_id).map_or(0, |named| named.model.quality_bps);
        if terms.utility != decision.expected_utility_microunits {
            Key::Utility
        } else if terms.cost_microunits != decision.estimated_cost_microunits {
            Key::Cost
        } else if self.models.models[place].model.quality_bps != best {
            Key::Quality
        } else {
            Key::Id
        }
    }

    /// The place of the chosen model in the list.
    pub fn chosen(&self, decision: &KernelDecision) -> Option<usize> {
        let place = usize::from(decision.selected_model_index);
        (place < self.models.models.len()).then_some(place)
    }
}

/// The requirement of one lever, where it is listed.
pub fn lever(levers: &[Requirement], wanted: Lever) -> Option<&Requirement> {
    levers.iter().find(|requirement| requirement.lever == wanted)
}

/// A price at a scale in millionths of today's: rounded down, as the kernel scales it.
pub fn scaled_price(price: u64, scale: u64) -> u64 {
    let scaled = u128::from(price) * u128::from(scale) / u128::from(PPM);
    u64::try_from(scaled).unwrap_or(u64::MAX)
}
