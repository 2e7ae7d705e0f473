//! Each refusal through the safe calls, with its values, and that a refused call leaves what it was lent.
mod common;
use common::{example_bank, many, FIRST, FREE, FREE_ONCE, ONCE, POLICY, REQUEST, SECOND, UNIT_INPUT};
use volankizo::layout::{
    BOUNDARY_BYTES, DECISION_BYTES, EXPLANATION_BYTES, NEXT_BYTES, REQUEST_FORM_BYTES, UNCOUNTED_BYTES,
};
use volankizo::{
    ask_text, ask_words, check_request, decision_margin, ffi, find, models, read_request, read_stored,
    read_stored_into, record_at, unit_text, what_would_win, write_request, write_stored, Bank, KernelInput,
    KernelModel, PolicySnapshot, Refusal, Rounding,
};

fn two(first: KernelModel, second: KernelModel) -> Bank {
    Bank::from_models(&[first, second])
}

/// What every call that takes a bank says of one that isn't whole or is too large.
fn every_refusal_of(bank: &[u8]) -> Vec<Refusal> {
    let mut list = vec![0; 72];
    let mut copy = bank.to_vec();
    let refused = vec![
        POLICY.prescribe(bank, REQUEST).unwrap_err(),
        POLICY.prescribe_checked(bank, REQUEST).unwrap_err(),
        POLICY.utility_for_model(bank, REQUEST, 1).unwrap_err(),
        POLICY.explain(bank, REQUEST).unwrap_err(),
        POLICY.explain_into(bank, REQUEST, &mut list).unwrap_err(),
        POLICY.validate(bank).unwrap_err(),
        POLICY.trust(&mut copy).unwrap_err(),
        find(bank, 1).unwrap_err(),
        record_at(bank, 0).unwrap_err(),
        models(bank).unwrap_err(),
        what_would_win(&POLICY, bank, REQUEST, 1).unwrap_err(),
        decision_margin(&POLICY, bank, REQUEST).unwrap_err(),
        write_stored(&POLICY, bank).unwrap_err(),
    ];
    assert!(copy == bank && list.iter().all(|byte| *byte == 0));
    refused
}

#[test]
fn number_1_and_2_of_every_call() {
    let uneven = &example_bank()[..93];
    assert!(every_refusal_of(uneven).iter().all(|refusal| *refusal == Refusal::UnevenBank));
    let large = many(65_536);
    assert!(every_refusal_of(&large).iter().all(|refusal| *refusal == Refusal::CatalogTooLarge));
    assert_eq!((Refusal::UnevenBank.number(), Refusal::CatalogTooLarge.number()), (1, 2));
}

#[test]
fn number_3_by_field() {
    let high = [
        (1, 10_001, KernelInput { risk_bps: 10_001, confidence_bps: 10_002, ..REQUEST }),
        (2, 10_002, KernelInput { confidence_bps: 10_002, minimum_quality_bps: 10_003, ..REQUEST }),
        (3, 65_535, KernelInput { minimum_quality_bps: 65_535, ..REQUEST }),
    ];
    for (field, value, request) in high {
        let refusal = Refusal::InputOutOfRange { field, value, place: 0 };
        assert_eq!(check_request(request), Err(refusal));
        assert_eq!(POLICY.prescribe_checked(&example_bank(), request), Err(refusal));
        assert_eq!(POLICY.prescribe_with_trace_checked(&example_bank(), request), Err(refusal));
        assert!(POLICY.prescribe(&example_bank(), request).is_ok());
        assert_eq!(refusal.number(), 3);
    }
    assert_eq!(check_request(REQUEST), Ok(()));
}

#[test]
fn number_4_leaves_the_list_and_the_buffer() {
    let bank = example_bank();
    let mut list = vec![0xaa; 2 * EXPLANATION_BYTES - 1];
    assert_eq!(POLICY.explain_into(&bank, REQUEST, &mut list), Err(Refusal::NoRoom));
    assert!(list.iter().all(|byte| *byte == 0xaa));
    let stopped = KernelInput { risk_bps: 9_000, ..REQUEST };
    assert!(POLICY.explain_into(&bank, stopped, &mut []).is_ok(), "a stopped request needs no room");
    let form = write_stored(&POLICY, &bank).unwrap();
    let mut buffer = vec![0xaa; 93];
    assert_eq!(read_stored_into(&form, &mut buffer), Err(Refusal::NoRoom));
    assert!(buffer.iter().all(|byte| *byte == 0xaa));
    let mut buffer = [0xaa; 133];
    assert_eq!(ffi::write_stored(&ONCE.to_bytes(), &bank, &mut buffer), 4, "four bytes more, rounding once");
    assert_eq!(buffer, [0xaa; 133]);
    assert_eq!(ffi::write_stored(&POLICY.to_bytes(), &bank, &mut buffer), 0);
    let mut buffer = [0xaa; 140];
    assert_eq!(ffi::write_stored(&FREE_ONCE.to_bytes(), &bank, &mut buffer), 4, "seven more, with an allowance");
    assert_eq!(buffer, [0xaa; 140]);
    assert_eq!(ffi::write_stored(&FREE.to_bytes(), &bank, &mut buffer), 0);
    assert_eq!(Refusal::NoRoom.number(), 4);
}

#[test]
fn numbers_5_to_8() {
    let bank = example_bank();
    let stopped = KernelInput { risk_bps: 9_000, ..REQUEST };
    assert_eq!(what_would_win(&POLICY, &bank, REQUEST, 3), Err(Refusal::UnknownModel));
    assert_eq!(what_would_win(&POLICY, &bank, stopped, 3), Err(Refusal::UnknownModel));
    assert_eq!(decision_margin(&POLICY, &bank, stopped), Err(Refusal::NothingSelected));
    assert_eq!(POLICY.utility_for_model(&bank, stopped, 1), Err(Refusal::NotEligible));
    assert_eq!(POLICY.utility_for_model(&bank, REQUEST, 3), Err(Refusal::NotEligible));
    let off = two(KernelModel { enabled: 0, ..FIRST }, FIRST);
    assert_eq!(POLICY.utility_for_model(&off, REQUEST, 1), Err(Refusal::NotEligible));
    assert_eq!(record_at(&bank, 2), Err(Refusal::BeyondBank));
    assert_eq!(record_at(&bank, u64::MAX), Err(Refusal::BeyondBank));
    assert_eq!(record_at(&[], 0), Err(Refusal::BeyondBank));
    let all = [Refusal::UnknownModel, Refusal::NothingSelected, Refusal::NotEligible, Refusal::BeyondBank];
    assert_eq!(all.map(Refusal::number), [5, 6, 7, 8]);
}

#[test]
fn number_10_by_field() {
    let high = [
        (4, 10_001, PolicySnapshot { hard_risk_limit_bps: 10_001, minimum_confidence_bps: 10_002, ..POLICY }),
        (5, 10_002, PolicySnapshot { minimum_confidence_bps: 10_002, risk_penalty_multiplier_bps: 50_001, ..POLICY }),
        (6, 50_001, PolicySnapshot { risk_penalty_multiplier_bps: 50_001, ..POLICY }),
    ];
    for (field, value, policy) in high {
        let refusal = Refusal::PolicyOutOfRange { field, value };
        assert_eq!(policy.validate(&[]), Err(refusal));
        let mut bank = two(SECOND, FIRST);
        assert_eq!(policy.trust(&mut bank), Err(refusal));
        assert_eq!(bank, example_bank(), "10 comes after the ordering");
        assert_eq!(refusal.number(), 10);
    }
}

#[test]
fn numbers_11_to_15() {
    let faults = [
        (11, Bank::default(), Refusal::EmptyCatalog),
        (12, two(FIRST, KernelModel { provider_id: 64, ..FIRST }), Refusal::DuplicateModelId { model_id: 1 }),
        (
            13,
            two(FIRST, KernelModel { provider_id: 64, quality_bps: 10_001, ..SECOND }),
            Refusal::InvalidProviderId { model_id: 2, provider_id: 64 },
        ),
        (
            14,
            two(KernelModel { quality_bps: 10_001, risk_ceiling_bps: 10_002, ..FIRST }, SECOND),
            Refusal::ModelOutOfRange { field: 7, model_id: 1, value: 10_001 },
        ),
        (
            14,
            two(FIRST, KernelModel { risk_ceiling_bps: 65_535, ..SECOND }),
            Refusal::ModelOutOfRange { field: 8, model_id: 2, value: 65_535 },
        ),
        (15, two(KernelModel { enabled: 0, ..FIRST }, KernelModel { enabled: 0, ..SECOND }), Refusal::NoEnabledModels),
    ];
    for (number, mut bank, refusal) in faults {
        assert_eq!(POLICY.validate(&bank), Err(refusal));
        assert_eq!(POLICY.trust(&mut bank), Err(refusal));
        assert_eq!(refusal.number(), number);
    }
}

#[test]
fn numbers_16_and_17_leave_the_bank() {
    let flagged = KernelModel { model_id: 5, enabled: 2, ..FIRST };
    let faults = [
        (16, two(flagged, KernelModel { model_id: 0, ..FIRST }), Refusal::ReservedModelId),
        (
            17,
            two(flagged, KernelModel { enabled: 255, ..FIRST }),
            Refusal::InvalidEnabledFlag { model_id: 5, value: 2 },
        ),
    ];
    for (number, mut bank, refusal) in faults {
        let before = bank.clone();
        assert_eq!(POLICY.trust(&mut bank), Err(refusal));
        assert_eq!((bank, refusal.number()), (before, number));
    }
}

#[test]
fn number_18_and_the_programs_19() {
    assert_eq!(write_stored(&POLICY, &many(1_395)), Err(Refusal::TooManyToStore));
    assert_eq!(Refusal::TooManyToStore.number(), 18);
    let mut input = write_stored(&POLICY, &many(1_394)).unwrap();
    input.extend(write_request(REQUEST).unwrap());
    assert_eq!(unit_text(&input).unwrap(), "refused 19\n");
}

#[test]
fn numbers_20_to_22_of_forms() {
    let form = write_stored(&POLICY, &example_bank()).unwrap();
    let with = |at: usize, byte: u8| {
        let mut changed = form.clone();
        changed[at] = byte;
        changed
    };
    let one_more = [&form[..], &[0]].concat();
    let faults: [(&[u8], Refusal); 11] = [
        (&[1, 31, 0, 9], Refusal::WrongLength),
        (&[9, 30, 0, 0], Refusal::WrongTag),
        (&[], Refusal::WrongTag),
        (&[1], Refusal::CutShort),
        (&[9, 0, 0], Refusal::WrongTag),
        (&form[..33], Refusal::WrongTag),
        (&form[..form.len() - 1], Refusal::CutShort),
        (&with(1, 31), Refusal::WrongLength),
        (&with(34, 93), Refusal::WrongLength),
        (&with(33, 1), Refusal::WrongTag),
        (&one_more, Refusal::WrongTag),
    ];
    for (form, refusal) in faults {
        let mut buffer = vec![0xaa; 200];
        assert_eq!(read_stored_into(form, &mut buffer), Err(refusal));
        assert_eq!(read_stored(form), Err(refusal));
        assert!(buffer.iter().all(|byte| *byte == 0xaa));
    }
    let request = write_request(REQUEST).unwrap();
    assert_eq!(read_request(&request[..72]), Err(Refusal::CutShort));
    assert_eq!(read_request(&form), Err(Refusal::WrongTag));
    assert_eq!(read_request(&[3, 69, 0]), Err(Refusal::WrongLength));
    assert_eq!(read_request(&[3, 71, 0]), Err(Refusal::WrongLength));
    assert_eq!(read_request(&[2, 70]), Err(Refusal::CutShort));
    assert_eq!(read_request(&[2, 71, 0]), Err(Refusal::WrongTag));
    let all = [Refusal::CutShort, Refusal::WrongTag, Refusal::WrongLength];
    assert_eq!(all.map(Refusal::number), [20, 21, 22]);
}

/// The stored form of the example's bank, with these bytes after it.
fn after_the_bank(bytes: &[u8]) -> Vec<u8> {
    [&UNIT_INPUT[..130], bytes].concat()
}

#[test]
fn numbers_20_to_23_of_the_field_that_says_how_to_round() {
    let twice = [4, 1, 0, 1, 4, 1, 0, 1];
    let faults: [(&[u8], Refusal); 12] = [
        (&[4], Refusal::CutShort),
        (&[4, 1], Refusal::CutShort),
        (&[6], Refusal::WrongTag),
        (&[4, 1, 0], Refusal::CutShort),
        (&[4, 2, 0, 1], Refusal::WrongLength),
        (&[4, 0, 0], Refusal::WrongLength),
        (&[4, 2, 0, 0, 0], Refusal::WrongLength),
        (&[4, 1, 0, 0], Refusal::UnknownRounding),
        (&[4, 1, 0, 2], Refusal::UnknownRounding),
        (&[4, 1, 0, 0, 0], Refusal::UnknownRounding),
        (&[4, 1, 0, 1, 0], Refusal::WrongTag),
        (&twice, Refusal::WrongTag),
    ];
    for (bytes, refusal) in faults {
        let form = after_the_bank(bytes);
        let mut buffer = vec![0xaa; 200];
        assert_eq!(read_stored_into(&form, &mut buffer), Err(refusal), "{bytes:?}");
        assert!(buffer.iter().all(|byte| *byte == 0xaa));
        assert_eq!(read_stored_into(&form, &mut []), Err(refusal), "before 4");
    }
    assert_eq!(read_stored(&after_the_bank(&[4, 1, 0, 1])), Ok((ONCE, example_bank())));
    let before = [&UNIT_INPUT[..33], &[4, 1, 0, 1], &UNIT_INPUT[33..130]].concat();
    assert_eq!(read_stored(&before), Err(Refusal::WrongTag));
    for length in [31, 35] {
        let long = [&[1, length as u8, 0][..], &ONCE.to_bytes()[..length], &UNIT_INPUT[33..130]].concat();
        assert_eq!(read_stored(&long), Err(Refusal::WrongLength));
    }
    assert_eq!(Refusal::UnknownRounding.number(), 23);
}

/// The field of tag 5, alone and after that of tag 4.
#[test]
fn numbers_20_to_25_of_the_field_that_says_an_allowance() {
    let (rounding, allowance, none) = ([4, 1, 0, 1], [5, 4, 0, 200, 0, 0, 0], [5, 4, 0, 0, 0, 0, 0]);
    let faults: [(&[u8], Refusal); 14] = [
        (&[5], Refusal::CutShort),
        (&[5, 4], Refusal::CutShort),
        (&[5, 4, 0], Refusal::CutShort),
        (&none[..6], Refusal::CutShort),
        (&[5, 3, 0, 0, 0, 0], Refusal::WrongLength),
        (&[5, 5, 0, 0], Refusal::WrongLength),
        (&[5, 0, 0], Refusal::WrongLength),
        (&[5, 4, 1], Refusal::WrongLength),
        (&none, Refusal::ZeroAllowance),
        (&[&none[..], &[0]].concat(), Refusal::ZeroAllowance),
        (&[&allowance[..], &[0]].concat(), Refusal::WrongTag),
        (&[&allowance[..], &[5]].concat(), Refusal::WrongTag),
        (&[&allowance[..], &rounding].concat(), Refusal::WrongTag),
        (&[allowance, allowance].concat(), Refusal::WrongTag),
    ];
    for (bytes, refusal) in faults {
        for before in [&[][..], &rounding] {
            let form = after_the_bank(&[before, bytes].concat());
            let mut buffer = vec![0xaa; 200];
            assert_eq!(read_stored_into(&form, &mut buffer), Err(refusal), "{bytes:?}");
            assert!(buffer.iter().all(|byte| *byte == 0xaa));
            assert_eq!(read_stored_into(&form, &mut []), Err(refusal), "before 4");
        }
    }
    let unknown = [&[4, 1, 0, 2][..], &none].concat();
    assert_eq!(read_stored(&after_the_bank(&unknown)), Err(Refusal::UnknownRounding), "23 before 25");
    assert_eq!(read_stored(&after_the_bank(&allowance)), Ok((FREE, example_bank())));
    let both = [&rounding[..], &allowance].concat();
    assert_eq!(read_stored(&after_the_bank(&both)), Ok((FREE_ONCE, example_bank())));
    let before = [&UNIT_INPUT[..33], &allowance, &UNIT_INPUT[33..130]].concat();
    assert_eq!(read_stored(&before), Err(Refusal::WrongTag));
    assert_eq!(Refusal::ZeroAllowance.number(), 25);
}

#[test]
fn the_programs_refuse_those_fields_before_anything_else() {
    let request = &UNIT_INPUT[130..];
    let cut = ("refused 20\n", "The input ends within a field.\n");
    let order = ("refused 21\n", "A field of the input is missing, out of its order, or one too many.\n");
    let length = ("refused 22\n", "A field of the input has a length that its tag does not have.\n");
    let rounding = ("refused 23\n", "The input's rounding, under tag 4, is not 1.\n");
    let allowance = ("refused 25\n", "The input's latency allowance, under tag 5, is 0.\n");
    let faults: [(&[u8], &[u8], (&str, &str)); 16] = [
        (&[4, 1, 0, 0], request, rounding),
        (&[4, 0, 0], request, length),
        (&[4], &[], cut),
        (&[9], &[], cut),
        (&[4, 1, 0], &[], cut),
        (&[4, 1, 0, 1], &[], order),
        (&[4, 1, 0, 0], &[], rounding),
        (request, &[4, 1, 0, 1], order),
        (&[5, 4, 0, 0, 0, 0, 0], request, allowance),
        (&[4, 1, 0, 1, 5, 4, 0, 0, 0, 0, 0], request, allowance),
        (&[4, 1, 0, 0, 5, 4, 0, 0, 0, 0, 0], request, rounding),
        (&[5, 3, 0, 0, 0, 0], request, length),
        (&[5, 4, 0, 0, 0, 0], &[], cut),
        (&[5, 4, 0, 0, 0, 0, 0], &[], allowance),
        (&[5, 4, 0, 200, 0, 0, 0], &[], order),
        (&[5, 4, 0, 200, 0, 0, 0, 4, 1, 0, 1], request, order),
    ];
    for (bytes, then, (line, sentence)) in faults {
        let input = after_the_bank(&[bytes, then].concat());
        let said = [unit_text(&input), ask_text(&input, 1), ask_words(&input, 1)].map(Result::unwrap);
        assert_eq!(said, [line, line, &[line, sentence].concat()], "{bytes:?}");
    }
}

/// 22 of the policy, 22 of the request, 23, then 1: of every call that is lent a policy.
#[test]
fn numbers_22_and_23_of_a_policy() {
    let numbers = &POLICY.to_bytes()[..30];
    let said = |last: &[u8]| PolicySnapshot::from_bytes(&[numbers, last].concat()).map(|policy| policy.rounding);
    assert_eq!((said(&[]), said(&[0]), said(&[1])), (Ok(Rounding::Apart), Ok(Rounding::Apart), Ok(Rounding::Once)));
    assert_eq!([said(&[2]), said(&[255])], [Err(Refusal::UnknownRounding); 2]);
    assert_eq!([said(&[1, 0]), said(&[2, 2])], [Err(Refusal::WrongLength); 2]);
    let free = |last: &[u8]| PolicySnapshot::from_bytes(&[numbers, last].concat());
    assert_eq!([free(&[0, 200, 0, 0, 0]), free(&[1, 200, 0, 0, 0])], [Ok(FREE), Ok(FREE_ONCE)]);
    assert_eq!([free(&[0; 5]), free(&[1, 0, 0, 0, 0])], [Ok(POLICY), Ok(ONCE)]);
    assert_eq!([free(&[2, 0, 0, 0, 0]), free(&[255; 5])], [Err(Refusal::UnknownRounding); 2]);
    assert_eq!([3, 4, 6, 9].map(|more| free(&vec![2; more])), [Err(Refusal::WrongLength); 4]);
    assert_eq!(PolicySnapshot::from_bytes(&numbers[1..]), Err(Refusal::WrongLength));

    let (request, bank) = (REQUEST.to_bytes(), &example_bank()[1..]);
    for (last, request, word) in [
        (&[2][..], &request[..], 23),
        (&[255], &request, 23),
        (&[2], &request[1..], 22),
        (&[2, 0], &request, 22),
        (&[0], &request, 1),
        (&[1], &request, 1),
        (&[2, 0, 0, 0, 0], &request, 23),
        (&[255; 5], &request[1..], 22),
        (&[2; 4], &request, 22),
        (&[2; 6], &request, 22),
        (&[0; 5], &request, 1),
        (&[1, 255, 255, 255, 255], &request, 1),
    ] {
        let policy = [numbers, last].concat();
        let words = [
            ffi::prescribe(&policy, request, bank, &mut [0; DECISION_BYTES]),
            ffi::prescribe_checked(&policy, request, bank, &mut [0; DECISION_BYTES]),
            ffi::utility_for_model(&policy, request, bank, 1, &mut []),
            ffi::explain(&policy, request, bank, &mut [], &mut [0; UNCOUNTED_BYTES]),
            ffi::what_would_win(&policy, request, bank, 1, &mut [0; BOUNDARY_BYTES]),
            ffi::decision_margin(&policy, request, bank, &mut []),
        ];
        assert_eq!(words, [word; 6], "{last:?}");
        let mut lent = bank.to_vec();
        let words =
            [ffi::validate(&policy, bank), ffi::trust(&policy, &mut lent), ffi::write_stored(&policy, bank, &mut [])];
        // These have no request.
        let owed = if [1, 5].contains(&last.len()) && last[0] > 1 { 23 } else { word };
        assert_eq!((words, &lent[..]), ([owed; 3], bank), "{last:?}");
    }
}

/// What the safe calls never ask: a buffer that is too short, a request of another length.
#[test]
fn words_of_the_calls_on_bytes() {
    assert_eq!(ffi::next_eligible(&[], 0, &mut [0; NEXT_BYTES - 1]), 4);
    assert_eq!(ffi::next_eligible(&[], 0, &mut [0; NEXT_BYTES]), 0);
    let request = REQUEST.to_bytes();
    assert_eq!(ffi::write_request(&request[1..], &mut []), 22);
    assert_eq!(ffi::write_request(&request, &mut [0; REQUEST_FORM_BYTES - 1]), 4);
    assert_eq!(ffi::write_request(&request, &mut [0; REQUEST_FORM_BYTES]), 0);
}

#[test]
fn a_word_that_tells_nothing() {
    for number in 0..=255 {
        let known = matches!(number, 1..=8 | 10..=18 | 20..=23 | 25 | 27 | 28 | 34);
        match Refusal::read(number) {
            Some(Ok(())) => assert_eq!(number, 0),
            Some(Err(refusal)) => assert!(known && u64::from(refusal.number()) == number),
            None => assert!(number != 0 && !known),
        }
    }
    let (field, model_id, value) = (8, u32::MAX, 65_534);
    let word = 14 + (8 << 8) + (65_534 << 16) + (u64::from(model_id) << 32);
    assert_eq!(Refusal::read(word), Some(Err(Refusal::ModelOutOfRange { field, model_id, value })));
    assert_eq!(Refusal::read(u64::MAX), None);
}

#[test]
fn a_refusal_says_what_is_wrong() {
    let said = POLICY.validate(&two(FIRST, FIRST)).unwrap_err().to_string();
    assert_eq!(said, "refused 12: model 1 is listed already");
    let said = check_request(KernelInput { confidence_bps: 10_002, ..REQUEST }).unwrap_err().to_string();
    assert_eq!(said, "refused 3: the request's confidence_bps is 10002");
    let said = read_stored(&after_the_bank(&[4, 1, 0, 0])).unwrap_err().to_string();
    assert_eq!(said, "refused 23: the policy rounds in a way that has no name");
    let said = read_stored(&after_the_bank(&[5, 4, 0, 0, 0, 0, 0])).unwrap_err().to_string();
    assert_eq!(said, "refused 25: the form says an allowance of 0");
    let said = [Refusal::EpochSpent, Refusal::NoFreeSlot, Refusal::SlotNotClear].map(|refusal| refusal.to_string());
    let owed = ["27: the catalogue epoch can't", "28: no slot of the bank is free", "34: a slot with id 0 has another"];
    assert!(said.iter().zip(owed).all(|(said, owed)| said.starts_with(&format!("refused {owed}"))), "{said:?}");
}

#[test]
fn what_the_program_refuses_is_its_text() {
    assert_eq!(unit_text(&[]).unwrap(), "refused 21\n");
    assert_eq!(unit_text(&UNIT_INPUT[..202]).unwrap(), "refused 20\n");
}
