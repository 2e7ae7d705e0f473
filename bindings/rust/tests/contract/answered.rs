//! Offsets of what is answered: the only one at which all answers of many calls have a field's number.
use crate::common::{example_bank, failing, Source, POLICY, REQUEST, SOUND, STRICT};
use crate::{sizes, Row};
use std::collections::BTreeMap;
use volankizo::{
    decision_margin, ffi, unit_text, what_would_win, Bank, CandidateVerdict, KernelDecision, KernelInput, KernelModel,
    PolicySnapshot, RejectionHistogram, Requirement, UtilityTerms,
};

/// What was seen of each field: whole answers, and the bytes that stand somewhere in them.
#[derive(Default)]
struct Seen(BTreeMap<&'static str, Vec<(Vec<u8>, Vec<u8>)>>);

impl Seen {
    fn field<const N: usize>(&mut self, name: &'static str, answer: &[u8], number: [u8; N]) {
        self.0.entry(name).or_default().push((answer.to_vec(), number.to_vec()));
    }

    /// The only offset at which all of them have it.
    fn rows(&self) -> Vec<Row> {
        let stands = |at: &usize, (answer, number): &(Vec<u8>, Vec<u8>)| answer[*at..].starts_with(number);
        let row = |(name, seen): (&&'static str, &Vec<(Vec<u8>, Vec<u8>)>)| {
            let places: Vec<_> = (0..seen[0].0.len()).filter(|at| seen.iter().all(|one| stands(at, one))).collect();
            assert_eq!(places.len(), 1, "{name} stands at {places:?} of {} answers", seen.len());
            (*name, places[0] as u64)
        };
        self.0.iter().map(row).collect()
    }

    fn decision(&mut self, out: &[u8], decision: &KernelDecision) {
        self.field("DECISION_SEQUENCE_AT", out, decision.request_sequence.to_le_bytes());
        self.field("DECISION_ACTION_AT", out, [decision.action.number()]);
        self.field("DECISION_REASON_AT", out, decision.reason.number().to_le_bytes());
        self.field("DECISION_MODEL_AT", out, decision.selected_model_id.to_le_bytes());
        self.field("DECISION_PLACE_AT", out, decision.selected_model_index.to_le_bytes());
        self.field("DECISION_COST_AT", out, decision.estimated_cost_microunits.to_le_bytes());
        self.field("DECISION_UTILITY_AT", out, decision.expected_utility_microunits.to_le_bytes());
        self.field("DECISION_COUNTERFACTUAL_AT", out, decision.counterfactual_model_id.to_le_bytes());
        self.field("DECISION_COUNTERFACTUAL_UTILITY_AT", out, decision.counterfactual_utility_microunits.to_le_bytes());
        self.field("DECISION_EVALUATED_AT", out, decision.evaluated_models.to_le_bytes());
        self.field("DECISION_ELIGIBLE_AT", out, decision.eligible_models.to_le_bytes());
        self.field("DECISION_POLICY_EPOCH_AT", out, decision.policy_epoch.to_le_bytes());
        self.field("DECISION_CATALOG_EPOCH_AT", out, decision.catalog_epoch.to_le_bytes());
    }

    fn counts(&mut self, out: &[u8], counts: &RejectionHistogram) {
        self.field("COUNT_DISABLED_AT", out, counts.disabled.to_le_bytes());
        self.field("COUNT_QUALITY_AT", out, counts.quality.to_le_bytes());
        self.field("COUNT_CEILING_AT", out, counts.risk_ceiling.to_le_bytes());
        self.field("COUNT_LATENCY_AT", out, counts.latency.to_le_bytes());
        self.field("COUNT_CAPABILITY_AT", out, counts.capability.to_le_bytes());
        self.field("COUNT_PROVIDER_AT", out, counts.provider.to_le_bytes());
        self.field("COUNT_REGION_AT", out, counts.region.to_le_bytes());
        self.field("COUNT_BUDGET_AT", out, counts.budget.to_le_bytes());
        self.field("COUNT_UTILITY_AT", out, counts.utility.to_le_bytes());
    }

    fn terms(&mut self, entry: &[u8], terms: &UtilityTerms) {
        self.field("EXPLANATION_QUALITY_TERM_AT", entry, terms.quality_adjusted.to_le_bytes());
        self.field("EXPLANATION_RISK_TERM_AT", entry, terms.risk_penalty.to_le_bytes());
        self.field("EXPLANATION_COST_AT", entry, terms.cost_microunits.to_le_bytes());
        self.field("EXPLANATION_LATENCY_TERM_AT", entry, terms.latency_penalty.to_le_bytes());
        self.field("EXPLANATION_UTILITY_AT", entry, terms.utility.to_le_bytes());
    }

    fn verdict(&mut self, entry: &[u8], verdict: &CandidateVerdict) {
        let wide = |number: &u64| u128::from(*number).to_le_bytes();
        let (number, gate) = match verdict {
            CandidateVerdict::Rejected { gate, measured, limit } => {
                self.field("EXPLANATION_MEASURED_AT", entry, wide(measured));
                self.field("EXPLANATION_LIMIT_AT", entry, wide(limit));
                (1, gate.number())
            }
            CandidateVerdict::OverBudget { cost_microunits, limit_microunits } => {
                self.field("EXPLANATION_OVER_COST_AT", entry, wide(cost_microunits));
                self.field("EXPLANATION_OVER_BUDGET_AT", entry, wide(limit_microunits));
                (2, 0)
            }
            CandidateVerdict::NonPositiveUtility(terms) => {
                self.terms(entry, terms);
                (3, 0)
            }
            CandidateVerdict::Eligible(terms) => {
                self.terms(entry, terms);
                (4, 0)
            }
        };
        self.field("EXPLANATION_VERDICT_AT", entry, [number]);
        self.field("EXPLANATION_GATE_AT", entry, [gate]);
    }

    /// A boundary answer, but for its rooms.
    fn boundary(&mut self, out: &[u8], model: u32, blocked: bool, levers: &[Requirement], passes: u64) {
        self.field("BOUNDARY_MODEL_AT", out, model.to_le_bytes());
        self.field("BOUNDARY_BLOCKED_AT", out, [blocked.into()]);
        self.field("BOUNDARY_LEVERS_AT", out, [levers.len() as u8]);
        self.field("BOUNDARY_PASSES_AT", out, passes.to_le_bytes());
        let (first, bytes, _) = sizes::rooms();
        for (room, lever) in out[first as usize..].chunks(bytes as usize).zip(levers) {
            self.field("ROOM_LEVER_AT", room, [lever.lever.number()]);
            self.field("ROOM_CURRENT_AT", room, lever.current.to_le_bytes());
            self.field("ROOM_BOUNDARY_AT", room, lever.boundary.to_le_bytes());
            self.field("ROOM_PRICED_AT", room, [lever.cost_at_boundary_microunits.is_some().into()]);
            self.field("ROOM_COST_AT", room, lever.cost_at_boundary_microunits.unwrap_or(0).to_le_bytes());
        }
    }
}

/// A policy, a request and a bank whose numbers are drawn, so that no two fields go together for long.
fn drawn(source: &mut Source) -> (PolicySnapshot, KernelInput, Bank) {
    let policy = PolicySnapshot { policy_epoch: source.number(), catalog_epoch: source.number(), ..POLICY };
    let risk_bps = if source.below(8) == 0 { 9_000 } else { 4_000 };
    let requested_model_id = 1 + source.below(4) as u32;
    let request = KernelInput { request_sequence: source.number(), risk_bps, requested_model_id, ..STRICT };
    let mut models = Vec::new();
    for model in failing() {
        models.extend(vec![KernelModel { model_id: source.number() as u32, ..model }; source.below(4)]);
    }
    for model_id in 1..1 + source.below(4) as u32 {
        let p95_latency_ms = 100 + source.below(100) as u32;
        let at = source.below(models.len() + 1);
        models.insert(at, KernelModel { model_id, p95_latency_ms, ..SOUND });
    }
    (policy, request, Bank::from_models(&models))
}

fn decided(seen: &mut Seen, source: &mut Source) {
    let (policy, request, bank) = drawn(source);
    let (decision, trace) = policy.prescribe_with_trace(&bank, request).unwrap();
    let mut out = [0xaa; 83];
    assert_eq!(ffi::prescribe(&policy.to_bytes(), &request.to_bytes(), &bank, &mut out), 0);
    seen.decision(&out, &decision);
    seen.counts(&out, &trace.rejections);
    let told = policy.explain(&bank, request).unwrap();
    let mut list = vec![0xaa; 72 * told.candidates.len()];
    assert_eq!(ffi::explain(&policy.to_bytes(), &request.to_bytes(), &bank, &mut list, &mut out), 0);
    for (entry, candidate) in list.chunks(72).zip(&told.candidates) {
        seen.field("EXPLANATION_MODEL_AT", entry, candidate.model_id.to_le_bytes());
        seen.field("EXPLANATION_PLACE_AT", entry, candidate.model_index.to_le_bytes());
        seen.verdict(entry, &candidate.verdict);
    }
}

fn bounded(seen: &mut Seen, (policy, request, bank): (PolicySnapshot, KernelInput, Bank), id: u32) {
    let (policy_bytes, request_bytes) = (policy.to_bytes(), request.to_bytes());
    let mut out = [0xaa; 183];
    let mut decision = [0xaa; 65];
    assert_eq!(ffi::batch::prescribe_batch(&policy_bytes, &request_bytes, 1, &bank, &mut decision), 0);
    if let Ok(told) = what_would_win(&policy, &bank, request, id) {
        assert_eq!(ffi::what_would_win(&policy_bytes, &request_bytes, &bank, id, &mut out), 0);
        seen.boundary(&out, id, told.blocked_by_request.is_some(), &told.levers, told.passes);
        seen.field("BOUNDARY_DECISION_AT", &out, decision);
    }
    if let Ok(told) = decision_margin(&policy, &bank, request) {
        assert_eq!(ffi::decision_margin(&policy_bytes, &request_bytes, &bank, &mut out), 0);
        seen.boundary(&out, told.model_id, false, &told.levers, told.passes);
        seen.field("BOUNDARY_DECISION_AT", &out, decision);
    }
}

fn stored(seen: &mut Seen, source: &mut Source) {
    let (policy, request, bank) = drawn(source);
    let policy = PolicySnapshot { latency_allowance_ms: 1 + source.below(1 << 31) as u32, ..policy };
    let mut form = vec![0; 36 + 7 + bank.len()];
    assert_eq!(ffi::write_stored(&policy.to_bytes(), &bank, &mut form), 0);
    let mut out = [0xaa; 43];
    assert_eq!(ffi::read_stored(&form, &mut vec![0; bank.len()], &mut out), 0);
    seen.field("STORED_POLICY_AT", &out, policy.to_bytes());
    seen.field("STORED_BANK_LENGTH_AT", &out, (bank.len() as u64).to_le_bytes());
    let mut field = [0; 73];
    assert_eq!(ffi::write_request(&[0xff; 70], &mut field), 0);
    seen.field("FIELD_TAG_AT", &field, [3]);
    seen.field("FIELD_LENGTH_AT", &field, 70u16.to_le_bytes());
    let mut last = [0; 73];
    assert_eq!(ffi::write_request(&request.to_bytes(), &mut last), 0);
    let input = [form, last.to_vec()].concat();
    let text = unit_text(&input).unwrap();
    let mut out = vec![0xaa; 8 + text.len()];
    assert_eq!(ffi::unit_text(&input, &mut out), 0);
    seen.field("TEXT_LENGTH_AT", &out, (text.len() as u64).to_le_bytes());
    seen.field("TEXT_AT", &out, *text.as_bytes().first_chunk::<8>().unwrap());
}

pub fn rows() -> Vec<Row> {
    let (mut seen, mut source) = (Seen::default(), Source(4));
    for round in 0..60 {
        decided(&mut seen, &mut source);
        bounded(&mut seen, drawn(&mut source), 1 + round % 4);
    }
    bounded(&mut seen, (POLICY, REQUEST, example_bank()), 1);
    for _ in 0..20 {
        stored(&mut seen, &mut source);
    }
    let mut rows = seen.rows();
    rows.push(("BOUNDARY_ROOMS_AT", sizes::rooms().0));
    rows
}
