//! The worked rows of a bank with free slots: what the calls say that run over its live records, and what those say that run over all of them.
mod common;
use common::{example_bank, many, slots, FIRST, ONCE, POLICY, REQUEST, SECOND};
use volankizo::layout::EXPLANATION_BYTES;
use volankizo::live::{self, FREE_SLOT};
use volankizo::{
    decision_margin, ffi, find, next_eligible, unit_text, what_would_win, write_request, write_stored, Bank,
    CandidateExplanation, CandidateVerdict, GateKind, KernelAction, KernelDecision, KernelInput, KernelModel,
    KernelReason, Refusal, RejectionHistogram,
};

/// The example behind two gaps: model 1 in slot 1, model 2 in slot 3.
fn gaps() -> Bank {
    slots(&[None, Some(FIRST), None, Some(SECOND)])
}

/// The example's decision, which chooses model 2 at this place.
fn chosen_at(selected_model_index: u16) -> KernelDecision {
    KernelDecision {
        request_sequence: 42,
        action: KernelAction::Substitute,
        reason: KernelReason::AlternativeMaximizesUtility,
        selected_model_id: 2,
        selected_model_index,
        estimated_cost_microunits: 300,
        expected_utility_microunits: 6_200,
        counterfactual_model_id: 1,
        counterfactual_utility_microunits: 5_200,
        evaluated_models: 2,
        eligible_models: 2,
        policy_epoch: 7,
        catalog_epoch: 3,
    }
}

#[test]
fn the_chosen_model_behind_two_gaps() {
    let (decision, trace) = live::prescribe_with_trace(&POLICY, &gaps(), REQUEST).unwrap();
    assert_eq!(decision, chosen_at(3));
    assert_eq!(trace.rejections, RejectionHistogram::default(), "a free slot is no model that is off");
    assert_eq!((trace.evaluated_models, trace.eligible_models), (2, 2));
    assert_eq!(live::prescribe(&POLICY, &gaps(), REQUEST), Ok(decision));
    assert_eq!(live::prescribe_checked(&POLICY, &gaps(), REQUEST), Ok(decision));
    assert_eq!(live::prescribe_with_trace_checked(&POLICY, &gaps(), REQUEST), Ok((decision, trace)));
    assert_eq!(live::prescribe(&ONCE, &gaps(), REQUEST), Ok(decision));
}

/// To the earlier calls a free slot is a model with id 0 that is off.
#[test]
fn the_earlier_calls_decide_such_a_bank_as_before() {
    let (decision, trace) = POLICY.prescribe_with_trace(&gaps(), REQUEST).unwrap();
    assert_eq!(decision, KernelDecision { evaluated_models: 4, ..chosen_at(3) });
    assert_eq!(trace.rejections, RejectionHistogram { disabled: 2, ..RejectionHistogram::default() });
    let free = POLICY.explain(&gaps(), REQUEST).unwrap().candidates[2];
    let off = CandidateVerdict::Rejected { gate: GateKind::Disabled, measured: 0, limit: 1 };
    assert_eq!((free.model_id, free.model_index, free.verdict), (0, 2, off));
    assert_eq!(find(&gaps(), 0), Ok(Some(0)));
    assert_eq!(what_would_win(&POLICY, &gaps(), REQUEST, 0).map(|answer| answer.levers.len()), Ok(0));
    assert_eq!(POLICY.validate(&gaps()), Err(Refusal::DuplicateModelId { model_id: 0 }), "two free slots");
    assert_eq!(POLICY.trust(&mut gaps()), Err(Refusal::ReservedModelId));
}

/// Without a free slot both say the same.
#[test]
fn a_bank_that_is_full() {
    let twice = KernelModel { quality_bps: 9_999, ..FIRST };
    for bank in [example_bank(), Bank::default(), many(300), Bank::from_models(&[SECOND, FIRST, twice])] {
        let request = KernelInput { requested_model_id: 2, ..REQUEST };
        assert_eq!(live::prescribe_with_trace(&POLICY, &bank, request), POLICY.prescribe_with_trace(&bank, request));
        assert_eq!(live::explain(&POLICY, &bank, request), POLICY.explain(&bank, request));
        for id in [1, 2, 299] {
            assert_eq!(live::find(&bank, id), find(&bank, id));
            let utility = POLICY.utility_for_model(&bank, request, id);
            assert_eq!(live::utility_for_model(&POLICY, &bank, request, id), utility);
            let win = what_would_win(&POLICY, &bank, request, id);
            assert_eq!(live::what_would_win(&POLICY, &bank, request, id), win);
        }
        assert_eq!(live::decision_margin(&POLICY, &bank, request), decision_margin(&POLICY, &bank, request));
    }
}

/// The free slots neither make a reason nor tie with one.
#[test]
fn the_reason_is_that_of_live_records() {
    let reason = |bank: &[u8]| {
        let decision = live::prescribe(&POLICY, bank, REQUEST).unwrap();
        assert_eq!((decision.selected_model_id, decision.selected_model_index), (0, u16::MAX));
        (decision.reason, decision.evaluated_models)
    };
    let unable = KernelModel { capabilities: 2, ..FIRST };
    let bank = slots(&[None, None, Some(unable)]);
    assert_eq!(reason(&bank), (KernelReason::CapabilityConstraint, 1));
    assert_eq!(POLICY.prescribe(&bank, REQUEST).unwrap().reason, KernelReason::NoEnabledModel);
    let off = KernelModel { enabled: 0, ..SECOND };
    assert_eq!(reason(&slots(&[Some(unable), None, Some(off)])), (KernelReason::NoEnabledModel, 2), "a tie of two");
    assert_eq!(reason(&slots(&[None, None])), (KernelReason::NoEnabledModel, 0));
    assert_eq!(reason(&[]), (KernelReason::NoEnabledModel, 0));
}

#[test]
fn an_explanation_has_no_gap() {
    let explanation = live::explain(&POLICY, &gaps(), REQUEST).unwrap();
    assert_eq!(explanation.decision, chosen_at(3));
    let places: Vec<_> = explanation.eligible().map(|entry| (entry.model_id, entry.model_index)).collect();
    assert_eq!(places, [(1, 1), (2, 3)]);
    let full = POLICY.explain(&example_bank(), REQUEST).unwrap();
    let verdicts = |entries: &[CandidateExplanation]| entries.iter().map(|entry| entry.verdict).collect::<Vec<_>>();
    assert_eq!(verdicts(&explanation.candidates), verdicts(&full.candidates));
}

/// 72 bytes for each live record suffice, and what stands after them stays.
#[test]
fn a_lent_list_counts_live_records() {
    let mut list = vec![0xaa; 2 * EXPLANATION_BYTES - 1];
    assert_eq!(live::explain_into(&POLICY, &gaps(), REQUEST, &mut list), Err(Refusal::NoRoom));
    assert!(list.iter().all(|byte| *byte == 0xaa));
    let mut list = vec![0xaa; 3 * EXPLANATION_BYTES];
    assert_eq!(live::explain_into(&POLICY, &gaps(), REQUEST, &mut list[..2 * EXPLANATION_BYTES]), Ok(chosen_at(3)));
    assert!(list[2 * EXPLANATION_BYTES..].iter().all(|byte| *byte == 0xaa));
    let (first, second) = (next_eligible(&list, 0), next_eligible(&list[..2 * EXPLANATION_BYTES], 1));
    assert_eq!((first, second), (Ok(Some(0)), Ok(Some(1))), "places of the list, not of the bank");
    let stopped = KernelInput { risk_bps: 9_000, ..REQUEST };
    assert!(live::explain_into(&POLICY, &gaps(), stopped, &mut []).is_ok(), "a stopped request needs no room");
    let free = FREE_SLOT.repeat(3);
    assert!(live::explain_into(&POLICY, &free, REQUEST, &mut []).is_ok(), "nor does a bank of free slots");
}

#[test]
fn one_live_model() {
    assert_eq!([1, 2, 3].map(|id| live::find(&gaps(), id)), [Ok(Some(1)), Ok(Some(3)), Ok(None)]);
    assert_eq!(live::utility_for_model(&POLICY, &gaps(), REQUEST, 1), Ok(5_200));
    assert_eq!(live::utility_for_model(&POLICY, &gaps(), REQUEST, 3), Err(Refusal::NotEligible));
    let twice = slots(&[None, Some(SECOND), Some(KernelModel { enabled: 0, ..SECOND }), Some(FIRST)]);
    assert_eq!(live::find(&twice, 2), Ok(Some(1)), "the first of two");
    assert_eq!(live::utility_for_model(&POLICY, &twice, REQUEST, 2), Ok(6_200));
}

#[test]
fn id_0_is_nowhere() {
    for bank in [gaps(), slots(&[None]), example_bank(), Bank::default()] {
        assert_eq!(live::find(&bank, 0), Ok(None));
        assert_eq!(live::utility_for_model(&POLICY, &bank, REQUEST, 0), Err(Refusal::NotEligible));
        assert_eq!(live::what_would_win(&POLICY, &bank, REQUEST, 0), Err(Refusal::UnknownModel));
        let stopped = KernelInput { risk_bps: 9_000, ..REQUEST };
        assert_eq!(live::what_would_win(&POLICY, &bank, stopped, 0), Err(Refusal::UnknownModel));
    }
}

/// The levers and the passes of the example, with the slot as place.
#[test]
fn boundaries() {
    let full = what_would_win(&POLICY, &example_bank(), REQUEST, 1).unwrap();
    let answer = live::what_would_win(&POLICY, &gaps(), REQUEST, 1).unwrap();
    assert_eq!((answer.decision, full.decision), (chosen_at(3), chosen_at(1)));
    assert_eq!((answer.levers, answer.passes), (full.levers, 26));
    let full = decision_margin(&POLICY, &example_bank(), REQUEST).unwrap();
    let margin = live::decision_margin(&POLICY, &gaps(), REQUEST).unwrap();
    assert_eq!((margin.model_id, margin.decision), (2, chosen_at(3)));
    assert_eq!((margin.levers, margin.passes), (full.levers, full.passes));
    assert_eq!(live::what_would_win(&POLICY, &gaps(), REQUEST, 3), Err(Refusal::UnknownModel));
    assert_eq!(live::decision_margin(&POLICY, &slots(&[None]), REQUEST), Err(Refusal::NothingSelected));
}

/// Policy, request, bank, room, and the words of the calls in the order of the test.
type Row<'a> = (&'a [u8], &'a [u8], &'a [u8], usize, [u64; 6]);

/// 22, 23, 1, 34, then 4, then what a call refuses by itself: everything wrong at once, and one fault less from row to row.
#[test]
fn the_words_of_calls_on_bytes() {
    let (policy, bank) = (POLICY.to_bytes(), gaps());
    let odd = [&policy[..30], &[2]].concat();
    let unclear = [vec![0; 46], vec![1]].concat();
    let request = KernelInput { risk_bps: 10_001, ..REQUEST }.to_bytes();
    let rows: [Row; 7] = [
        (&odd, &request[1..], &unclear, 0, [22; 6]),
        (&odd, &request, &unclear, 0, [23; 6]),
        (&policy, &request, &unclear[1..], 0, [1; 6]),
        (&policy, &request, &unclear, 0, [34; 6]),
        (&policy, &request, &bank, 64, [4, 4, 4, 7, 4, 4]),
        (&policy, &request, &bank, 183, [0, 3 + (1 << 8) + (10_001 << 16), 0, 7, 5, 6]),
        (&policy, &REQUEST.to_bytes(), &bank, 183, [0, 0, 4, 7, 5, 0]),
    ];
    for (policy, request, bank, room, words) in rows {
        let (mut list, mut out) = ([0xaa; 2 * EXPLANATION_BYTES - 1], vec![0xaa; room]);
        let told = [
            ffi::live::prescribe(policy, request, bank, &mut vec![0; room]),
            ffi::live::prescribe_checked(policy, request, bank, &mut vec![0; room]),
            ffi::live::explain(policy, request, bank, &mut list, &mut out),
            ffi::live::utility_for_model(policy, request, bank, 3, &mut vec![0; room]),
            ffi::live::what_would_win(policy, request, bank, 3, &mut vec![0; room]),
            ffi::live::decision_margin(policy, request, bank, &mut vec![0; room]),
        ];
        assert_eq!(told, words);
        assert_eq!((list, out == vec![0xaa; room]), ([0xaa; 2 * EXPLANATION_BYTES - 1], words[2] != 0));
    }
    assert_eq!(ffi::live::find(&unclear, 0, &mut [0]), 34);
    assert_eq!(ffi::live::find(&bank, 0, &mut [0]), 4);
    assert_eq!(ffi::live::find(&bank, 0, &mut [0; 2]), 0);
}

/// The last of 65,535 slots, which is the only live one.
#[test]
fn the_largest_bank() {
    let mut bank = Bank::from_bytes(FREE_SLOT.repeat(65_535));
    bank[65_534 * 47..].copy_from_slice(&SECOND.to_bytes());
    let decision = live::prescribe(&POLICY, &bank, REQUEST).unwrap();
    assert_eq!((decision.selected_model_index, decision.evaluated_models), (65_534, 1));
    assert_eq!(live::find(&bank, 2), Ok(Some(65_534)));
    assert_eq!(live::explain(&POLICY, &bank, REQUEST).unwrap().candidates[0].model_index, 65_534);
    assert_eq!(live::prescribe(&POLICY, &many(65_535), REQUEST).unwrap().evaluated_models, 65_535);
}

/// Before and after: place and epoch alone, and neither verdicts, levers nor passes.
#[test]
fn a_compaction_moves_place_and_epoch() {
    let (mut policy, mut bank) = (POLICY, gaps());
    let (before, counts) = live::prescribe_with_trace(&policy, &bank, REQUEST).unwrap();
    let margin = live::decision_margin(&policy, &bank, REQUEST).unwrap();
    assert_eq!(live::compact(&mut policy, &mut bank), Ok(2));
    let (after, same_counts) = live::prescribe_with_trace(&policy, &bank, REQUEST).unwrap();
    assert_eq!((before, after), (chosen_at(3), KernelDecision { catalog_epoch: 4, ..chosen_at(1) }));
    assert_eq!(counts, same_counts);
    let moved = live::decision_margin(&policy, &bank, REQUEST).unwrap();
    assert_eq!((moved.levers, moved.passes), (margin.levers, margin.passes));
}

/// What is printed for the live records alone, and for the same with one free slot or two behind them.
#[test]
fn what_is_stored() {
    let (mut policy, mut bank) = (POLICY, gaps());
    let live = usize::from(live::compact(&mut policy, &mut bank).unwrap());
    let printed = |records: usize| {
        let mut input = write_stored(&policy, &bank[..records * 47]).unwrap();
        input.extend(write_request(REQUEST).unwrap());
        unit_text(&input).unwrap()
    };
    assert!(printed(live).starts_with("decision 42 2 2 2 1 300 6200 1 5200 2 2 7 4\nrejected 0 0 0 0 0 0 0 0 0\n"));
    assert!(printed(3).starts_with("decision 42 2 2 2 1 300 6200 1 5200 3 2 7 4\nrejected 1 0 0 0 0 0 0 0 0\n"));
    assert_eq!(printed(4), "refused 12\n");
    assert_eq!(policy.validate(&bank[..live * 47]), Ok(()));
    assert_eq!(policy.trust(&mut bank[..live * 47]), Ok(()));
}
