//! That every field of an answer is read from its own place: values that all differ, and all the verdicts.
mod common;
use common::{example_bank, failing, slots, Source, FIRST, POLICY, REQUEST, SOUND, STRICT};
use volankizo::layout::{BOUNDARY_BYTES, EXPLANATION_BYTES};
use volankizo::{
    ffi, live, next_eligible, Bank, CandidateExplanation, CandidateVerdict, GateKind, KernelDecision, KernelInput,
    KernelModel, KernelReason, PolicySnapshot, RejectionHistogram, Rounding,
};

#[test]
fn nine_different_counts() {
    let models = failing();
    let bank: Bank = (0..9).flat_map(|way| vec![models[way]; way + 1]).chain([SOUND]).collect();
    let (decision, trace) = POLICY.prescribe_with_trace(&bank, STRICT).unwrap();
    let counts = RejectionHistogram {
        disabled: 1,
        quality: 2,
        risk_ceiling: 3,
        latency: 4,
        capability: 5,
        provider: 6,
        region: 7,
        budget: 8,
        utility: 9,
    };
    assert_eq!(trace.rejections, counts);
    assert_eq!((trace.evaluated_models, trace.eligible_models), (46, 1));
    assert_eq!((decision.selected_model_index, decision.counterfactual_model_id), (45, 0));
}

/// The same with six free slots before each model: no count has them, and places take both of their bytes.
#[test]
fn nine_different_counts_between_free_slots() {
    let models = failing();
    let listed: Vec<_> = (0..9).flat_map(|way| vec![models[way]; way + 1]).chain([SOUND]).collect();
    let bank =
        slots(&listed.iter().flat_map(|model| [None, None, None, None, None, None, Some(*model)]).collect::<Vec<_>>());
    let (decision, trace) = POLICY.prescribe_with_trace(&Bank::from_models(&listed), STRICT).unwrap();
    let spread = KernelDecision { selected_model_index: 7 * 45 + 6, ..decision };
    assert_eq!(live::prescribe_with_trace(&POLICY, &bank, STRICT), Ok((spread, trace)));
    let told = live::explain(&POLICY, &bank, STRICT).unwrap();
    let mut owed = POLICY.explain(&Bank::from_models(&listed), STRICT).unwrap().candidates;
    owed.iter_mut().for_each(|entry| entry.model_index = 7 * entry.model_index + 6);
    assert_eq!((told.decision, told.candidates), (spread, owed));
    assert_eq!((live::find(&bank, 1), live::find(&bank, 2)), (Ok(Some(6)), Ok(None)));
}

#[test]
fn the_reason_of_each_way() {
    let reasons = [102, 103, 110, 104, 105, 106, 107, 108, 109, 106];
    for (model, reason) in failing().into_iter().zip(reasons) {
        let decision = POLICY.prescribe(&Bank::from_models(&[model]), STRICT).unwrap();
        assert_eq!((decision.reason.number(), decision.action.number()), (reason, 3), "{model:?}");
    }
    assert!(KernelReason::RiskHardLimit.stops_request() && !KernelReason::NoEnabledModel.stops_request());
}

#[test]
fn the_verdict_of_each_way() {
    use GateKind::*;
    let gate = |gate, measured, limit| CandidateVerdict::Rejected { gate, measured, limit };
    let told = POLICY.explain(&Bank::from_models(&failing()), STRICT).unwrap().candidates;
    let owed = [
        gate(Disabled, 0, 1),
        gate(Quality, 4_999, 5_000),
        gate(RiskCeiling, 4_000, 3_999),
        gate(Latency, 201, 200),
        gate(Capability, 5, 3),
        gate(ProviderNotAllowed, 2, 0b1001),
        gate(Region, 3, 4),
        CandidateVerdict::OverBudget { cost_microunits: 5_100, limit_microunits: 5_000 },
    ];
    for (place, (entry, verdict)) in told.iter().zip(owed).enumerate() {
        assert_eq!((entry.model_id, usize::from(entry.model_index), entry.verdict), (1, place, verdict));
    }
    let CandidateVerdict::NonPositiveUtility(terms) = told[8].verdict else { panic!("{:?}", told[8]) };
    assert_eq!((terms.quality_adjusted, terms.risk_penalty, terms.latency_penalty), (10_000, 4_000, 1_500));
    assert_eq!((terms.cost_microunits, terms.utility), (4_800, -300));
    assert_eq!(told[9].verdict, gate(ProviderUnrepresentable, 64, 63));
}

#[test]
fn terms_beyond_64_bits() {
    let policy = PolicySnapshot { latency_penalty_microunits_per_ms: u64::MAX, ..POLICY };
    let model = KernelModel { p95_latency_ms: u32::MAX, ..FIRST };
    let told = policy.explain(&Bank::from_models(&[model]), REQUEST).unwrap().candidates;
    let CandidateVerdict::NonPositiveUtility(terms) = told[0].verdict else { panic!("{:?}", told[0]) };
    assert_eq!(terms.latency_penalty, i128::from(u64::MAX) * i128::from(u32::MAX));
    assert_eq!(terms.utility, i64::MIN);
}

/// A room of a boundary's 183 bytes: lever, today, boundary, and the cost where it is the price's.
fn room(lever: u8, current: u64, boundary: u64, cost: Option<u64>) -> Vec<u8> {
    let numbers = [current.to_le_bytes(), boundary.to_le_bytes()].concat();
    [&[lever], &numbers[..], &[cost.is_some().into()], &cost.unwrap_or(0).to_le_bytes()].concat()
}

#[test]
fn the_rooms_of_a_boundary() {
    let (policy, request, bank) = (POLICY.to_bytes(), REQUEST.to_bytes(), example_bank());
    let mut out = [0xaa; BOUNDARY_BYTES];
    assert_eq!(ffi::what_would_win(&policy, &request, &bank, 1, &mut out), 0);
    let unused = vec![0; 3 * 26];
    assert_eq!(out[79..], [room(3, 1_000_000, 443_333, Some(798)), unused].concat());
    assert_eq!(ffi::decision_margin(&policy, &request, &bank, &mut out), 0);
    let price = room(3, 1_000_000, 4_330_000, Some(1_299));
    let rooms = [room(1, 8_000, 7_000, None), room(2, 50, 150, None), price, room(4, 8_000, 1_000, None)];
    assert_eq!(out[79..], rooms.concat());
}

#[test]
fn a_lent_list() {
    let bank = Bank::from_models(&[failing()[1], SOUND, failing()[0], KernelModel { model_id: 9, ..SOUND }]);
    let mut list = vec![0xaa; 5 * EXPLANATION_BYTES];
    let decision = POLICY.explain_into(&bank, STRICT, &mut list).unwrap();
    assert_eq!(decision, POLICY.prescribe(&bank, STRICT).unwrap());
    let (filled, after) = list.split_at(4 * EXPLANATION_BYTES);
    assert!(after.iter().all(|byte| *byte == 0xaa));
    let read =
        filled.chunks_exact(EXPLANATION_BYTES).map(|entry| CandidateExplanation::from_bytes(entry.try_into().unwrap()));
    assert_eq!(read.collect::<Option<Vec<_>>>().unwrap(), POLICY.explain(&bank, STRICT).unwrap().candidates);
    let places = [0, 1, 2, 3, 4, u64::MAX].map(|from| next_eligible(filled, from).unwrap());
    assert_eq!(places, [Some(1), Some(1), Some(3), Some(3), None, None]);
    let whole = next_eligible(&filled[..4 * EXPLANATION_BYTES - 1], 2).unwrap();
    assert_eq!(whole, None, "a part of an entry at the end is not looked at");
}

#[test]
fn bytes_and_values_are_one_to_one() {
    let mut source = Source(11);
    for _ in 0..1_000 {
        let record: [u8; 47] = source.bytes(47).try_into().unwrap();
        assert_eq!(KernelModel::from_bytes(&record).to_bytes(), record);
        let request: [u8; 70] = source.bytes(70).try_into().unwrap();
        assert_eq!(KernelInput::from_bytes(&request).to_bytes(), request);
        let numbers = source.bytes(30);
        for rounding in [Rounding::Apart, Rounding::Once] {
            let (rounded, allowance) = ([&numbers[..], &[rounding.number()]].concat(), source.number() as u32);
            let policy = [&rounded[..], &allowance.to_le_bytes()].concat();
            let read = PolicySnapshot::from_bytes(&policy).unwrap();
            assert_eq!((&read.to_bytes()[..], read.rounding), (&policy[..], rounding));
            assert_eq!(read.latency_allowance_ms, allowance);
            let read = PolicySnapshot::from_bytes(&rounded).unwrap();
            assert_eq!((&read.to_bytes()[..], read.rounding), (&[&rounded[..], &[0; 4]].concat()[..], rounding));
        }
        let read = PolicySnapshot::from_bytes(&numbers).unwrap();
        assert_eq!((&read.to_bytes()[..30], read.rounding), (&numbers[..], Rounding::Apart));
        assert_eq!(read.latency_allowance_ms, 0);
    }
}
