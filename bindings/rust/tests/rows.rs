//! The worked rows, (A) to (K), through the safe calls; those that a policy which rounds once, or has an allowance, tells otherwise, and those that it
//! doesn't.
mod common;
use common::{example_bank, many, FIRST, FREE, FREE_ONCE, ONCE, POLICY, REQUEST, SECOND};
use volankizo::{
    decision_margin, find, models, record_at, what_would_win, Bank, CandidateVerdict, GateKind, KernelAction,
    KernelDecision, KernelInput, KernelModel, KernelReason, Lever, PolicySnapshot, Refusal, RejectionHistogram,
    Requirement, UtilityTerms,
};

fn reason_of(bank: &[u8], request: KernelInput) -> KernelReason {
    let decision = POLICY.prescribe(bank, request).unwrap();
    assert!(decision.is_rejected(), "{decision:?}");
    decision.reason
}

fn plain(lever: Lever, current: u64, boundary: u64) -> Requirement {
    Requirement { lever, current, boundary, cost_at_boundary_microunits: None }
}

fn chosen() -> KernelDecision {
    KernelDecision {
        request_sequence: 42,
        action: KernelAction::Substitute,
        reason: KernelReason::AlternativeMaximizesUtility,
        selected_model_id: 2,
        selected_model_index: 1,
        estimated_cost_microunits: 300,
        expected_utility_microunits: 6_200,
        counterfactual_model_id: 1,
        counterfactual_utility_microunits: 5_200,
        evaluated_models: 2,
        eligible_models: 2,
        policy_epoch: 7,
        catalog_epoch: 3,
    }
}

#[test]
fn a_the_decision() {
    let bank = example_bank();
    let (decision, trace) = POLICY.prescribe_with_trace(&bank, REQUEST).unwrap();
    assert_eq!(decision, chosen());
    assert_eq!(trace.rejections, RejectionHistogram::default());
    assert_eq!((trace.evaluated_models, trace.eligible_models), (2, 2));
    assert_eq!(POLICY.prescribe(&bank, REQUEST), Ok(decision));
    assert_eq!(POLICY.prescribe_checked(&bank, REQUEST), Ok(decision));
    assert_eq!(POLICY.prescribe_with_trace_checked(&bank, REQUEST), Ok((decision, trace)));
    assert!(decision.is_executable() && decision.is_substitution() && !decision.is_requested_execution());
}

#[test]
fn a_the_requested_model() {
    let request = KernelInput { requested_model_id: 2, ..REQUEST };
    let decision = POLICY.prescribe(&example_bank(), request).unwrap();
    assert_eq!(decision.action, KernelAction::ExecuteRequested);
    assert_eq!(decision.reason, KernelReason::RequestedModelMaximizesUtility);
    assert!(decision.is_requested_execution());
}

#[test]
fn a_the_explanation() {
    let explanation = POLICY.explain(&example_bank(), REQUEST).unwrap();
    assert_eq!(explanation.decision, chosen());
    let told: Vec<_> = explanation.eligible().map(|entry| (entry.model_id, entry.model_index)).collect();
    assert_eq!(told, [(1, 0), (2, 1)]);
    let first = UtilityTerms {
        quality_adjusted: 9_000,
        risk_penalty: 1_000,
        cost_microunits: 1_800,
        latency_penalty: 1_000,
        utility: 5_200,
    };
    let second =
        UtilityTerms { quality_adjusted: 8_000, cost_microunits: 300, latency_penalty: 500, utility: 6_200, ..first };
    assert_eq!(explanation.candidates[0].verdict, CandidateVerdict::Eligible(first));
    assert_eq!(explanation.candidates[1].verdict, CandidateVerdict::Eligible(second));
    assert_eq!(POLICY.utility_for_model(&example_bank(), REQUEST, 1), Ok(5_200));
    assert_eq!(POLICY.utility_for_model(&example_bank(), REQUEST, 2), Ok(6_200));
}

#[test]
fn b_what_would_make_model_1_win() {
    let answer = what_would_win(&POLICY, &example_bank(), REQUEST, 1).unwrap();
    let price = Requirement {
        lever: Lever::PriceScalePpm,
        current: 1_000_000,
        boundary: 443_333,
        cost_at_boundary_microunits: Some(798),
    };
    assert_eq!(answer.levers, [price]);
    assert_eq!((answer.model_id, answer.decision, answer.passes), (1, chosen(), 26));
    assert_eq!(answer.blocked_by_request, None);
}

#[test]
fn b_nothing_to_win() {
    let selected = what_would_win(&POLICY, &example_bank(), REQUEST, 2).unwrap();
    assert_eq!((selected.levers.len(), selected.blocked_by_request, selected.passes), (0, None, 1));
    let stopped = KernelInput { risk_bps: 9_000, ..REQUEST };
    let blocked = what_would_win(&POLICY, &example_bank(), stopped, 1).unwrap();
    assert_eq!(blocked.blocked_by_request, Some(KernelReason::RiskHardLimit));
    assert_eq!((blocked.levers.len(), blocked.passes), (0, 1));
}

#[test]
fn b_a_model_that_is_off() {
    let off = KernelModel { enabled: 0, ..SECOND };
    let answer = what_would_win(&POLICY, &Bank::from_models(&[FIRST, off]), REQUEST, 2).unwrap();
    assert_eq!((answer.levers, answer.passes), (vec![plain(Lever::Enabled, 0, 1)], 2));
}

#[test]
fn c_the_margin() {
    let margin = decision_margin(&POLICY, &example_bank(), REQUEST).unwrap();
    let price = Requirement {
        lever: Lever::PriceScalePpm,
        current: 1_000_000,
        boundary: 4_330_000,
        cost_at_boundary_microunits: Some(1_299),
    };
    let levers = [
        plain(Lever::QualityBps, 8_000, 7_000),
        plain(Lever::P95LatencyMs, 50, 150),
        price,
        plain(Lever::RiskCeilingBps, 8_000, 1_000),
    ];
    assert_eq!(margin.levers, levers);
    assert_eq!((margin.model_id, margin.decision), (2, chosen()));
    assert!(margin.passes <= 99);
}

#[test]
fn d_to_f_the_limits_of_a_request() {
    let bank = example_bank();
    let risk = |risk_bps| reason_of(&bank, KernelInput { risk_bps, ..REQUEST });
    assert_eq!(risk(9_000), KernelReason::RiskHardLimit);
    assert_eq!(risk(8_999), KernelReason::RiskCeilingConstraint);
    let unsure = |confidence_bps| KernelInput { confidence_bps, ..REQUEST };
    assert_eq!(reason_of(&bank, unsure(1_999)), KernelReason::ConfidenceHardLimit);
    assert_ne!(POLICY.prescribe(&bank, unsure(2_000)).unwrap().reason, KernelReason::ConfidenceHardLimit);
    let stopped = POLICY.explain(&bank, KernelInput { risk_bps: 9_000, ..REQUEST }).unwrap();
    assert_eq!((stopped.candidates.len(), stopped.decision.evaluated_models), (0, 0));
    assert_eq!((stopped.decision.selected_model_id, stopped.decision.selected_model_index), (0, u16::MAX));
}

#[test]
fn g_each_way_is_rounded_up_apart() {
    let model = KernelModel {
        input_cost_microunits_per_million_tokens: 1,
        output_cost_microunits_per_million_tokens: 1,
        ..SECOND
    };
    let request = KernelInput { input_tokens: 1, output_tokens: 1, ..REQUEST };
    let decision = POLICY.prescribe(&Bank::from_models(&[model]), request).unwrap();
    assert_eq!(decision.estimated_cost_microunits, 2);
}

/// One token each way at price 1, which costs 2 apart and 1 once.
#[test]
fn g_once() {
    let model = KernelModel {
        input_cost_microunits_per_million_tokens: 1,
        output_cost_microunits_per_million_tokens: 1,
        ..FIRST
    };
    let bank = Bank::from_models(&[model]);
    let request = KernelInput { input_tokens: 1, output_tokens: 1, budget_limit_microunits: 1, ..REQUEST };
    assert_eq!(reason_of(&bank, request), KernelReason::BudgetConstraint);
    let verdict = POLICY.explain(&bank, request).unwrap().candidates[0].verdict;
    assert_eq!(verdict, CandidateVerdict::OverBudget { cost_microunits: 2, limit_microunits: 1 });

    let (decision, trace) = ONCE.prescribe_with_trace(&bank, request).unwrap();
    assert_eq!((decision.estimated_cost_microunits, decision.expected_utility_microunits), (1, 6_999));
    assert_eq!(trace.rejections, RejectionHistogram::default());
    assert_eq!(ONCE.prescribe_checked(&bank, request), Ok(decision));
    assert_eq!(ONCE.utility_for_model(&bank, request, 1), Ok(6_999));
    let explanation = ONCE.explain(&bank, request).unwrap();
    let CandidateVerdict::Eligible(terms) = explanation.candidates[0].verdict else { panic!("{explanation:?}") };
    assert_eq!((explanation.decision, terms.cost_microunits, terms.utility), (decision, 1, 6_999));
}

/// A sum at a whole microunit, one part below it and one above; both ways of rounding where a cost is held.
#[test]
fn g_sums_at_the_edges() {
    let costs = |input: (u32, u64), output: (u32, u64)| {
        let model = KernelModel {
            input_cost_microunits_per_million_tokens: input.1,
            output_cost_microunits_per_million_tokens: output.1,
            ..FIRST
        };
        let request =
            KernelInput { input_tokens: input.0, output_tokens: output.0, budget_limit_microunits: 0, ..REQUEST };
        [POLICY, ONCE].map(|policy| {
            match policy.explain(&Bank::from_models(&[model]), request).unwrap().candidates[0].verdict {
                CandidateVerdict::OverBudget { cost_microunits, .. } => cost_microunits,
                _ => 0,
            }
        })
    };
    assert_eq!(costs((1, 599_999), (1, 400_000)), [2, 1]);
    assert_eq!(costs((1, 600_000), (1, 400_000)), [2, 1]);
    assert_eq!(costs((1, 600_000), (1, 400_001)), [2, 2]);
    assert_eq!(costs((1, 1_000_001), (0, 1)), [2, 2]);
    assert_eq!(costs((0, u64::MAX), (0, u64::MAX)), [0, 0]);
    assert_eq!(costs((1_000_000, u64::MAX - 1), (2, 1)), [u64::MAX; 2]);
    assert_eq!(costs((u32::MAX, u64::MAX), (u32::MAX, u64::MAX)), [u64::MAX; 2]);
}

/// Every product of the example is whole, so that its decision stays; its prices are then scaled to parts.
#[test]
fn a_to_c_once() {
    let bank = example_bank();
    assert_eq!(ONCE.prescribe(&bank, REQUEST), Ok(chosen()));
    let price = |boundary, cost| Requirement {
        cost_at_boundary_microunits: Some(cost),
        ..plain(Lever::PriceScalePpm, 1_000_000, boundary)
    };
    let answer = what_would_win(&ONCE, &bank, REQUEST, 1).unwrap();
    assert_eq!((answer.levers, answer.decision, answer.passes), (vec![price(443_888, 799)], chosen(), 26));
    let margin = decision_margin(&ONCE, &bank, REQUEST).unwrap();
    let levers = [
        plain(Lever::QualityBps, 8_000, 7_000),
        plain(Lever::P95LatencyMs, 50, 150),
        price(4_333_333, 1_300),
        plain(Lever::RiskCeilingBps, 8_000, 1_000),
    ];
    assert_eq!((&margin.levers[..], margin.decision, margin.passes), (&levers[..], chosen(), 95));
    assert_eq!((ONCE.validate(&bank), ONCE.trust(&mut bank.clone())), (Ok(()), Ok(())));
}

/// With 200 ms free nothing is charged for 50 and 100: both gain what they were charged.
#[test]
fn a_to_c_free() {
    let bank = example_bank();
    let free =
        KernelDecision { expected_utility_microunits: 6_700, counterfactual_utility_microunits: 6_200, ..chosen() };
    let price = |boundary, cost| Requirement {
        cost_at_boundary_microunits: Some(cost),
        ..plain(Lever::PriceScalePpm, 1_000_000, boundary)
    };
    for (policy, wins, keeps) in [(FREE, 721_333, 2_665_000), (FREE_ONCE, 721_666, 2_666_666)] {
        assert_eq!(policy.prescribe(&bank, REQUEST), Ok(free));
        assert_eq!([1, 2].map(|id| policy.utility_for_model(&bank, REQUEST, id)), [Ok(6_200), Ok(6_700)]);
        let answer = what_would_win(&policy, &bank, REQUEST, 1).unwrap();
        let levers = vec![plain(Lever::QualityBps, 9_000, 9_501), price(wins, 1_299)];
        assert_eq!((answer.levers, answer.decision, answer.passes), (levers, free, 36));
        let margin = decision_margin(&policy, &bank, REQUEST).unwrap();
        let levers = [
            plain(Lever::QualityBps, 8_000, 7_500),
            plain(Lever::P95LatencyMs, 50, 250),
            price(keeps, 800),
            plain(Lever::RiskCeilingBps, 8_000, 1_000),
        ];
        assert_eq!((&margin.levers[..], margin.decision, margin.passes), (&levers[..], free, 95));
        assert_eq!((policy.validate(&bank), policy.trust(&mut bank.clone())), (Ok(()), Ok(())));
    }
}

/// Latencies below, at and above an allowance, and at the ends of what there is; the gate compares the full one.
#[test]
fn a_term_at_its_edges() {
    let term = |allowance: u32, penalty: u64, latency: u32| {
        let policy =
            PolicySnapshot { latency_allowance_ms: allowance, latency_penalty_microunits_per_ms: penalty, ..POLICY };
        let bank = Bank::from_models(&[KernelModel { p95_latency_ms: latency, ..FIRST }]);
        match policy.explain(&bank, REQUEST).unwrap().candidates[0].verdict {
            CandidateVerdict::Eligible(terms) | CandidateVerdict::NonPositiveUtility(terms) => terms.latency_penalty,
            verdict => panic!("{verdict:?}"),
        }
    };
    assert_eq!([0, 199, 200, 201].map(|latency| term(200, 10, latency)), [0, 0, 0, 10]);
    assert_eq!([0, 1, 2].map(|latency| term(1, 10, latency)), [0, 0, 10]);
    assert_eq!(
        [1, 256, 65_536, 1 << 24].map(|allowance| term(allowance, 1, 1 << 25)).map(|term| (1 << 25) - term),
        [1, 256, 65_536, 1 << 24]
    );
    assert_eq!([0, u32::MAX - 1, u32::MAX].map(|latency| term(u32::MAX, u64::MAX, latency)), [0; 3]);
    assert_eq!(term(u32::MAX - 1, u64::MAX, u32::MAX), i128::from(u64::MAX));
    assert_eq!(term(1, u64::MAX, u32::MAX), i128::from(u64::MAX) * i128::from(u32::MAX - 1));
    let limited = KernelInput { max_p95_latency_ms: 99, ..REQUEST };
    for policy in [POLICY, FREE] {
        let verdict = policy.explain(&example_bank(), limited).unwrap().candidates[0].verdict;
        assert_eq!(verdict, CandidateVerdict::Rejected { gate: GateKind::Latency, measured: 100, limit: 99 });
    }
}

#[test]
fn h_to_k_rejections() {
    assert_eq!(reason_of(&[], REQUEST), KernelReason::NoEnabledModel);
    let tied = [KernelModel { capabilities: 2, ..FIRST }, KernelModel { enabled: 0, ..SECOND }];
    assert_eq!(reason_of(&Bank::from_models(&tied), REQUEST), KernelReason::NoEnabledModel);
    let unknown = Bank::from_models(&[KernelModel { provider_id: 64, ..FIRST }]);
    assert_eq!(reason_of(&unknown, REQUEST), KernelReason::ProviderConstraint);
    let verdict = POLICY.explain(&unknown, REQUEST).unwrap().candidates[0].verdict;
    let gate = GateKind::ProviderUnrepresentable;
    assert_eq!(verdict, CandidateVerdict::Rejected { gate, measured: 64, limit: 63 });
    let worthless = KernelInput { business_value_microunits: -1, ..REQUEST };
    assert_eq!(reason_of(&example_bank(), worthless), KernelReason::NonPositiveUtility);
}

#[test]
fn a_record_is_the_very_part_of_the_bank() {
    let bank = example_bank();
    let record = record_at(&bank, 1).unwrap();
    assert!(std::ptr::eq(record.as_ptr(), &bank[47]));
    assert_eq!(KernelModel::from_bytes(record), SECOND);
    assert_eq!((find(&bank, 2), find(&bank, 3)), (Ok(Some(1)), Ok(None)));
    assert_eq!(bank.models(), Ok(vec![FIRST, SECOND]));
    assert_eq!(models(&bank[..46]), Err(Refusal::UnevenBank));
}

#[test]
fn trust_puts_a_bank_in_order() {
    let mut bank = Bank::from_models(&[SECOND, FIRST]);
    assert_eq!(POLICY.validate(&bank), Ok(()));
    assert_eq!(POLICY.trust(&mut bank), Ok(()));
    assert_eq!(bank, example_bank());
}

#[test]
fn the_largest_bank() {
    let bank = many(65_535);
    let decision = POLICY.prescribe(&bank, REQUEST).unwrap();
    assert_eq!((decision.evaluated_models, decision.selected_model_id), (65_535, 1));
    assert_eq!(POLICY.explain(&bank, REQUEST).unwrap().candidates.len(), 65_535);
    assert_eq!(find(&bank, 65_535), Ok(Some(65_534)));
}

#[test]
fn many_threads_ask_of_one_bank() {
    let bank = example_bank();
    std::thread::scope(|scope| {
        let ask = || (0..1_000).map(|_| POLICY.prescribe(&bank, REQUEST)).all(|answer| answer == Ok(chosen()));
        let threads: Vec<_> = (0..4).map(|_| scope.spawn(ask)).collect();
        assert!(threads.into_iter().all(|thread| thread.join().unwrap()));
    });
}
