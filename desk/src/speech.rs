//! Sentences about a decision, in names and currency, or in ids and microunits as the program `ask` has them.
use crate::asked::{lever, scaled_price, Key};
use crate::names::{spoken, Register};
use crate::open::Desk;
use crate::policy::allowance;
use volankizo::{
    CandidateVerdict, GateKind, KernelAction, KernelDecision, KernelInput, KernelReason, Lever, Requirement,
    UtilityTerms, PPM,
};

/// Who speaks, of which list, and how.
#[derive(Clone, Copy, Debug)]
pub struct Speech<'a> {
    pub desk: &'a Desk,
    /// Ids and microunits, word for word what `ask ID words` prints.
    pub numbers: bool,
}

impl Speech<'_> {
    /// What was chosen, or why nothing was.
    pub fn choice(&self, input: &KernelInput, decision: &KernelDecision) -> String {
        let policy = &self.desk.policy.policy;
        match (decision.action, decision.reason) {
            (KernelAction::Reject, KernelReason::RiskHardLimit) => format!(
                "Nothing is chosen: the request is stopped, since its risk of {} basis points is not below the policy's hard limit of {}.",
                input.risk_bps, policy.hard_risk_limit_bps
            ),
            (KernelAction::Reject, KernelReason::ConfidenceHardLimit) => format!(
                "Nothing is chosen: the request is stopped, since its confidence of {} basis points is below the policy's minimum of {}.",
                input.confidence_bps, policy.minimum_confidence_bps
            ),
            (KernelAction::Reject, reason) => format!("Nothing is chosen: no model is eligible{}.", self.foremost(reason)),
            _ => format!(
                "Chosen: {}, at a cost of {}, with a utility of {}.",
                self.model(decision.selected_model_id),
                self.amount(decision.estimated_cost_microunits),
                self.amount(decision.expected_utility_microunits)
            ),
        }
    }

    /// That the requested model isn't listed. A request for none, model 0, is worth a word only to `ask`.
    pub fn unlisted(&self, input: &KernelInput) -> Option<String> {
        let id = input.requested_model_id;
        let silent = self.desk.models.with_id(id).is_some() || (id == 0 && !self.numbers);
        (!silent).then(|| format!("The requested model {id} is not listed."))
    }

    /// How a model stands that isn't the chosen one.
    pub fn standing(&self, place: usize, verdict: &CandidateVerdict, decision: &KernelDecision) -> String {
        let model = self.subject(place);
        format!("{model} is {}.", self.verdict(place, verdict, decision))
    }

    /// The same without its subject: `over budget: it costs ..`.
    pub fn verdict(&self, place: usize, verdict: &CandidateVerdict, decision: &KernelDecision) -> String {
        match verdict {
            CandidateVerdict::Rejected { gate: GateKind::Disabled, .. } => "switched off".to_owned(),
            CandidateVerdict::Rejected { gate, measured, limit } => {
                format!("rejected: {}", self.gate(*gate, *measured, *limit))
            }
            CandidateVerdict::OverBudget { cost_microunits, limit_microunits } => format!(
                "over budget: it costs {}, {} more than the budget of {}",
                self.amount(*cost_microunits),
                self.bare(cost_microunits - limit_microunits),
                self.bare(*limit_microunits)
            ),
            CandidateVerdict::NonPositiveUtility(terms) => {
                format!("rejected: its utility of {} is not above 0", self.amount(terms.utility))
            }
            CandidateVerdict::Eligible(terms) => self.outranked(place, terms, decision),
        }
    }

    fn gate(&self, gate: GateKind, measured: u64, limit: u64) -> String {
        let names = &self.desk.models.names;
        let mask = |mask: u64, register: &Register| self.mask(mask, register);
        match gate {
            GateKind::Disabled => "it is switched off".to_owned(),
            GateKind::Quality => format!("its quality of {measured} basis points is below the {limit} required"),
            GateKind::Latency => {
                let free = self.free(measured).map_or(String::new(), |free| format!(", though {free}"));
                format!("its latency of {measured} ms is above the limit of {limit} ms{free}")
            }
            GateKind::Capability => format!(
                "its capabilities, {}, lack some of those required, {}",
                mask(measured, &names.capabilities),
                mask(limit, &names.capabilities)
            ),
            GateKind::ProviderUnrepresentable => format!("its provider {measured} is above {limit}"),
            GateKind::ProviderNotAllowed => format!(
                "its provider {} is not among those allowed, {}",
                if self.numbers { measured.to_string() } else { names.providers.name(measured) },
                mask(limit, &names.providers)
            ),
            GateKind::Region => format!(
                "its regions, {}, have none of those required, {}",
                mask(measured, &names.regions),
                mask(limit, &names.regions)
            ),
            GateKind::RiskCeiling => {
                format!("the request's risk of {measured} basis points is above its ceiling of {limit}")
            }
        }
    }

    /// By the first key of the ranking in which the chosen model is ahead.
    fn outranked(&self, place: usize, terms: &UtilityTerms, decision: &KernelDecision) -> String {
        let quality = |id: u32| self.desk.models.with_id(id).map_or(0, |named| named.model.quality_bps);
        let (own, best) = (self.desk.models.models[place].model.quality_bps, quality(decision.selected_model_id));
        let why = match self.desk.key_behind(place, terms, decision) {
            Key::Utility => {
                let (utility, higher) = (self.amount(terms.utility), self.bare(decision.expected_utility_microunits));
                format!("its utility of {utility} is below {higher}")
            }
            Key::Cost => {
                let (cost, lower) = (self.amount(terms.cost_microunits), self.bare(decision.estimated_cost_microunits));
                format!("at the same utility, its cost of {cost} is above {lower}")
            }
            Key::Quality => {
                format!("at the same utility and cost, its quality of {own} basis points is below {best}")
            }
            Key::Id => "at the same utility, cost and quality, the lower id goes first".to_owned(),
        };
        format!("outranked by {}: {why}", self.model(decision.selected_model_id))
    }

    /// How far both prices must fall, and to what.
    pub fn price(&self, place: usize, levers: &[Requirement]) -> String {
        let Some(price) = lever(levers, Lever::PriceScalePpm) else {
            return "Price alone: no price, not even 0, would make it the choice.".to_owned();
        };
        let (fall, left) = (PPM - price.boundary, price.boundary);
        let cost = self.amount(price.cost_at_boundary_microunits.unwrap_or(0));
        format!(
            "Price alone: it must fall by {} percent or more; {}, by {} percent, to {} percent of today's{}, where the request costs {cost}.",
            self.percent(fall.div_ceil(1_000), 1),
            if self.numbers { "exactly" } else { "to the millionth" },
            self.percent(fall, 4),
            self.percent(left, 4),
            self.prices(place, left)
        )
    }

    fn prices(&self, place: usize, scale: u64) -> String {
        if self.numbers {
            return String::new();
        }
        let model = &self.desk.models.models[place].model;
        let of = |price: u64| self.bare(scaled_price(price, scale));
        let (input, output) =
            (model.input_cost_microunits_per_million_tokens, model.output_cost_microunits_per_million_tokens);
        format!(
            ", from {} and {} per million tokens in and out to {} and {}",
            self.bare(input),
            self.bare(output),
            of(input),
            of(output)
        )
    }

    /// A sentence for each lever but the price; one where no lever at all wins.
    pub fn other_levers(&self, levers: &[Requirement]) -> Vec<String> {
        if levers.is_empty() {
            return vec!["Nor would its quality, latency or risk ceiling alone.".to_owned()];
        }
        levers.iter().filter_map(|told| self.other_lever(told)).collect()
    }

    fn other_lever(&self, told: &Requirement) -> Option<String> {
        let (current, boundary) = (told.current, told.boundary);
        Some(match told.lever {
            Lever::QualityBps => {
                format!("Quality alone: {current} basis points today; it must rise to at least {boundary}.")
            }
            Lever::P95LatencyMs => {
                let free = self.free(current).map_or(String::new(), |free| format!(" ({free})"));
                format!("Latency alone: {current} ms today{free}; it must fall to at most {boundary} ms.")
            }
            Lever::RiskCeilingBps => {
                format!("Risk ceiling alone: {current} basis points today; it must rise to at least {boundary}.")
            }
            Lever::PriceScalePpm | Lever::Enabled => return None,
        })
    }

    /// How much of a latency costs nothing; none where the policy has no allowance, of which `ask` has no word either.
    fn free(&self, latency: u64) -> Option<String> {
        let free = allowance(&self.desk.policy.policy).filter(|_| !self.numbers)?;
        Some(match latency <= u64::from(free) {
            true => "all of it is free".to_owned(),
            false if free == 1 => "1 ms of it is free".to_owned(),
            false => format!("{free} ms of it are free"),
        })
    }

    fn model(&self, id: u32) -> String {
        if self.numbers {
            format!("model {id}")
        } else {
            self.desk.models.name_of(id)
        }
    }

    /// A model as the first word of a sentence.
    pub fn subject(&self, place: usize) -> String {
        let named = &self.desk.models.models[place];
        if self.numbers {
            format!("Model {}", named.model.model_id)
        } else {
            named.name.clone()
        }
    }

    fn amount(&self, microunits: impl Into<i128>) -> String {
        if self.numbers {
            format!("{} microunits", microunits.into())
        } else {
            self.desk.money.amount(microunits)
        }
    }

    fn bare(&self, microunits: impl Into<i128>) -> String {
        if self.numbers {
            microunits.into().to_string()
        } else {
            self.desk.money.bare(microunits)
        }
    }

    fn mask(&self, mask: u64, register: &Register) -> String {
        if self.numbers {
            format!("mask {mask}")
        } else {
            spoken(mask, register)
        }
    }

    /// A share with all of its decimals, zeros too.
    fn percent(&self, number: u64, decimals: u32) -> String {
        let mark = if self.numbers { '.' } else { self.desk.money.mark };
        let base = 10u64.pow(decimals);
        format!("{}{mark}{:0width$}", number / base, number % base, width = decimals as usize)
    }

    /// The reason that the kernel tells: none stands against more models, though another may against as many.
    fn foremost(&self, reason: KernelReason) -> String {
        let number = reason as u16;
        if self.numbers {
            return format!(", with reason {number}");
        }
        let why = match reason {
            KernelReason::QualityConstraint => "their quality",
            KernelReason::LatencyConstraint => "their latency",
            KernelReason::CapabilityConstraint => "their capabilities",
            KernelReason::ProviderConstraint => "their provider",
            KernelReason::RegionConstraint => "their regions",
            KernelReason::BudgetConstraint => "the budget",
            KernelReason::NonPositiveUtility => "a utility that is not above 0",
            KernelReason::RiskCeilingConstraint => "their risk ceiling",
            _ => "that they are switched off",
        };
        format!("; the foremost reason is {why} (reason {number})")
    }
}
