//! The Rust as a judge: what it tells, in document 01's numbers.
use super::Judge;
use crate::second::boundaries::{Boundaries, Boundary, Lever};
use crate::second::bytes::{bank_bytes, models_of, Policy};
use crate::second::catalogue::{
    trusted, EMPTY, ENABLED_FLAG, MODEL_LIMIT, NONE_ON, POLICY_LIMIT, PROVIDER, REPEATED_ID, RESERVED_ID,
};
use crate::second::deciding::{Counts, Decision, Explained, Question, Verdict};
use crate::second::explanation::NO_MORE;
use crate::second::gates::Failed;
use crate::second::price::Terms;
use crate::second::refusals::{Passed, Refusal, MOST_BPS, REQUEST_LIMIT};
use oracle::counterfactual::{self, Requirement};
use oracle::kernel::{
    CandidateExplanation, CandidateVerdict, GateKind, InputError, KernelDecision, KernelInput, KernelModel,
    PolicyError, PolicySnapshot, RejectionHistogram, TrustPolicyError, UtilityTerms,
};
use std::cell::Cell;

/// It searches and doesn't count: its passes are those that the second reading counted before.
pub struct TheRust<'a> {
    pub passes: &'a Cell<u64>,
}

impl Policy {
    /// The Rust's policy, which owns its models.
    pub fn with(&self, models: Vec<KernelModel>) -> PolicySnapshot {
        PolicySnapshot::new_unchecked(
            self.policy_epoch,
            self.catalog_epoch,
            self.hard_risk_limit_bps,
            self.minimum_confidence_bps,
            self.risk_penalty_multiplier_bps,
            self.latency_penalty_microunits_per_ms,
            models,
        )
    }

    fn trusted_with(&self, models: Vec<KernelModel>) -> Result<PolicySnapshot, TrustPolicyError> {
        PolicySnapshot::try_new_trusted(
            self.policy_epoch,
            self.catalog_epoch,
            self.hard_risk_limit_bps,
            self.minimum_confidence_bps,
            self.risk_penalty_multiplier_bps,
            self.latency_penalty_microunits_per_ms,
            models,
        )
    }
}

fn snapshot(question: &Question) -> PolicySnapshot {
    question.policy.with(question.models())
}

/// The Rust's place is that in the list of records it was given: the record there tells its own. A rejection has no record and keeps its place.
fn place(question: &Question, index: u16) -> u16 {
    question.records.get(usize::from(index)).map_or(index, |(place, _)| *place)
}

impl Judge for TheRust<'_> {
    fn request_limits(&self, request: &KernelInput) -> Passed {
        request.validate().map_err(|error| input_error(&error))
    }

    fn validation(&self, policy: &Policy, models: &[KernelModel]) -> Passed {
        let told = policy.with(models.to_vec()).validate();
        told.map_err(|error| policy_error(&error, models))
    }

    /// The Rust orders a list of its own and shows it only where nothing is refused. Elsewhere the bank is the second reading's.
    fn trust(&self, policy: &Policy, bank: &[u8]) -> (Passed, Vec<u8>) {
        match policy.trusted_with(models_of(bank)) {
            Ok(snapshot) => (Ok(()), bank_bytes(snapshot.models())),
            Err(error) => {
                let (_, bank) = trusted(policy, bank);
                (Err(trust_error(&error, &models_of(&bank))), bank)
            }
        }
    }

    /// The Rust has the decision without its counts, and in a row of requests, too: all are the same one.
    fn decision(&self, question: &Question) -> (Decision, Counts) {
        let (snapshot, request) = (snapshot(question), question.request);
        let (told, trace) = snapshot.prescribe_with_trace(request);
        assert_eq!(snapshot.prescribe(request), told, "the Rust's plain decision is the traced one");
        assert_eq!(snapshot.prescribe_batch(&[request]), [told], "and so is that of a row");
        (decision(question, &told), counts(&trace.rejections))
    }

    fn checked_decision(&self, question: &Question) -> Result<(Decision, Counts), Refusal> {
        let (snapshot, request) = (snapshot(question), question.request);
        let traced = snapshot.prescribe_with_trace_checked(request);
        let plain = traced.as_ref().map(|(decision, _)| *decision).map_err(Clone::clone);
        assert_eq!(snapshot.prescribe_checked(request), plain, "the Rust's plain checked decision is the traced one");
        let row = plain.map(|decision| vec![decision]);
        assert_eq!(snapshot.prescribe_batch_checked(&[request]), row, "and so is that of a row");
        let told = traced.map_err(|error| input_error(&error));
        told.map(|(told, trace)| (decision(question, &told), counts(&trace.rejections)))
    }

    fn explanation(&self, question: &Question) -> (Decision, Vec<Explained>) {
        let told = snapshot(question).explain(question.request);
        (decision(question, &told.decision), told.candidates.iter().map(|it| explained(question, it)).collect())
    }

    fn next_eligible(&self, question: &Question, from: u64) -> u64 {
        let told = snapshot(question).explain(question.request);
        let mut places = told.eligible().map(|candidate| u64::from(candidate.model_index));
        places.find(|place| *place >= from).unwrap_or(NO_MORE)
    }

    fn utility(&self, question: &Question, id: u32) -> Option<i64> {
        snapshot(question).utility_for_model(question.request, id)
    }

    fn what_would_win(&self, question: &Question, id: u32) -> Option<Boundaries> {
        let told = counterfactual::what_would_win(&snapshot(question), question.request, id)?;
        Some(Boundaries {
            model_id: told.model_id,
            decision: decision(question, &told.decision),
            stopped: told.blocked_by_request.is_some(),
            levers: told.levers.iter().map(boundary).collect(),
            passes: self.passes.get(),
        })
    }

    /// A stopped request is a rejection, and has no margin.
    fn decision_margin(&self, question: &Question) -> Option<Boundaries> {
        let told = counterfactual::decision_margin(&snapshot(question), question.request)?;
        Some(Boundaries {
            model_id: told.model_id,
            decision: decision(question, &told.decision),
            stopped: false,
            levers: told.levers.iter().map(boundary).collect(),
            passes: self.passes.get(),
        })
    }
}

fn decision(question: &Question, told: &KernelDecision) -> Decision {
    Decision {
        sequence: told.request_sequence,
        action: told.action as u8,
        reason: told.reason as u16,
        model_id: told.selected_model_id,
        place: place(question, told.selected_model_index),
        cost: told.estimated_cost_microunits,
        utility: told.expected_utility_microunits,
        other_id: told.counterfactual_model_id,
        other_utility: told.counterfactual_utility_microunits,
        evaluated: told.evaluated_models,
        eligible: told.eligible_models,
        policy_epoch: told.policy_epoch,
        catalog_epoch: told.catalog_epoch,
    }
}

fn counts(c: &RejectionHistogram) -> Counts {
    [c.disabled, c.quality, c.risk_ceiling, c.latency, c.capability, c.provider, c.region, c.budget, c.utility]
}

fn explained(question: &Question, candidate: &CandidateExplanation) -> Explained {
    let (id, place) = (candidate.model_id, place(question, candidate.model_index));
    Explained { id, place, verdict: verdict(&candidate.verdict) }
}

fn verdict(told: &CandidateVerdict) -> Verdict {
    match told {
        CandidateVerdict::Rejected { gate, measured, limit } => {
            Verdict::Rejected(Failed { gate: gate_number(*gate), measured: *measured, limit: *limit })
        }
        CandidateVerdict::OverBudget { cost_microunits, limit_microunits } => {
            Verdict::OverBudget { cost: *cost_microunits, budget: *limit_microunits }
        }
        CandidateVerdict::NonPositiveUtility(told) => Verdict::NonPositive(terms(told)),
        CandidateVerdict::Eligible(told) => Verdict::Eligible(terms(told)),
    }
}

fn terms(told: &UtilityTerms) -> Terms {
    let term = |term: i128| u128::try_from(term).expect("no term is below 0");
    Terms {
        quality: term(told.quality_adjusted),
        risk: term(told.risk_penalty),
        cost: told.cost_microunits,
        latency: term(told.latency_penalty),
        utility: told.utility,
    }
}

fn gate_number(gate: GateKind) -> u8 {
    match gate {
        GateKind::Disabled => 1,
        GateKind::Quality => 2,
        GateKind::Latency => 3,
        GateKind::Capability => 4,
        GateKind::ProviderUnrepresentable => 5,
        GateKind::ProviderNotAllowed => 6,
        GateKind::Region => 7,
        GateKind::RiskCeiling => 8,
    }
}

fn boundary(told: &Requirement) -> Boundary {
    let lever = match told.lever {
        counterfactual::Lever::QualityBps => Lever::Quality,
        counterfactual::Lever::P95LatencyMs => Lever::Latency,
        counterfactual::Lever::PriceScalePpm => Lever::Price,
        counterfactual::Lever::RiskCeilingBps => Lever::Ceiling,
        counterfactual::Lever::Enabled => Lever::Enabled,
    };
    Boundary { lever, today: told.current, bound: told.boundary, cost: told.cost_at_boundary_microunits }
}

/// 3: which field and which value is the Rust's to say, in its order; the fields' numbers are document 01's.
fn input_error(error: &InputError) -> Refusal {
    let InputError::OutOfRangeBps { field, value, .. } = error else {
        panic!("the Rust has an error that document 01 has no number for: {error:?}");
    };
    let field = match *field {
        "risk_bps" => 1,
        "confidence_bps" => 2,
        "minimum_quality_bps" => 3,
        other => panic!("the Rust tests a field that document 01 has no number for: {other}"),
    };
    Refusal { field, value: *value, ..Refusal::of(REQUEST_LIMIT) }
}

/// 10 to 15: which limit is broken, by which value and, but for 14, by which model is the Rust's to say; the numbers are document
/// 01's. 14's model is the first one that breaks that limit: one with any fault before it would have been told instead.
fn policy_error(error: &PolicyError, models: &[KernelModel]) -> Refusal {
    match error {
        PolicyError::EmptyCatalog => Refusal::of(EMPTY),
        PolicyError::DuplicateModelId { model_id } => Refusal { id_or_place: *model_id, ..Refusal::of(REPEATED_ID) },
        PolicyError::InvalidProviderId { model_id, provider_id } => {
            Refusal { value: *provider_id, id_or_place: *model_id, ..Refusal::of(PROVIDER) }
        }
        PolicyError::NoEnabledModels => Refusal::of(NONE_ON),
        PolicyError::OutOfRangeBps { field, value, .. } => {
            let (number, field, id_or_place) = match *field {
                "hard_risk_limit_bps" => (POLICY_LIMIT, 4, 0),
                "minimum_confidence_bps" => (POLICY_LIMIT, 5, 0),
                "risk_penalty_multiplier_bps" => (POLICY_LIMIT, 6, 0),
                "model.quality_bps" => (MODEL_LIMIT, 7, first_above(models, |model| model.quality_bps)),
                "model.risk_ceiling_bps" => (MODEL_LIMIT, 8, first_above(models, |model| model.risk_ceiling_bps)),
                other => panic!("the Rust tests a field that document 01 has no number for: {other}"),
            };
            Refusal { number, field, value: *value, id_or_place }
        }
        other => panic!("the Rust has an error that document 01 has no number for: {other:?}"),
    }
}

fn first_above(models: &[KernelModel], field: fn(&KernelModel) -> u16) -> u32 {
    models.iter().find(|model| field(model) > MOST_BPS).expect("the Rust found one").model_id
}

/// 16 and 17, or those of validation over the ordered models.
fn trust_error(error: &TrustPolicyError, ordered: &[KernelModel]) -> Refusal {
    match error {
        TrustPolicyError::ReservedModelId => Refusal::of(RESERVED_ID),
        TrustPolicyError::InvalidEnabledFlag { model_id, value } => {
            Refusal { value: u16::from(*value), id_or_place: *model_id, ..Refusal::of(ENABLED_FLAG) }
        }
        TrustPolicyError::Policy(error) => policy_error(error, ordered),
        other => panic!("the Rust has an error that document 01 has no number for: {other:?}"),
    }
}
