//! Any bytes into every call: it comes back, writes its answer and nothing else, and where it refuses nothing at all.
mod common;
use common::{Source, EACH, REQUEST};
use volankizo::layout::*;
use volankizo::{ffi, *};

const ROUNDS: u64 = 4_000;
const UNTOUCHED: u8 = 0xa5;

/// A call, but for its buffer.
type Call<'a> = &'a dyn Fn(&mut [u8]) -> u64;

/// What a word tells; every word that a call hands back tells something.
fn tells(word: u64) -> Result<(), Refusal> {
    Refusal::read(word).unwrap_or_else(|| panic!("{word:#x} tells nothing"))
}

/// Bytes of the right length, and once in a while of any length near it.
fn near(source: &mut Source, length: usize) -> Vec<u8> {
    let length = if source.below(8) == 0 { source.below(length + 3) } else { length };
    source.bytes(length)
}

/// Some models, whole or not; half of the time sound ones with a few bytes changed, so that the searches have something to find.
fn any_bank(source: &mut Source) -> Vec<u8> {
    let count = source.below(6);
    if source.below(2) == 0 {
        let odd = if source.below(4) == 0 { source.below(RECORD_BYTES) } else { 0 };
        return source.bytes(count * RECORD_BYTES + odd);
    }
    let models = [common::FIRST, common::SECOND];
    let mut bank: Vec<u8> = (0..count).flat_map(|_| models[source.below(2)].to_bytes()).collect();
    for _ in 0..source.below(4) {
        if !bank.is_empty() {
            let at = source.below(bank.len());
            bank[at] = source.number() as u8;
        }
    }
    bank
}

/// The same with slots that are free, and once in a while one that isn't clear.
fn any_slots(source: &mut Source) -> Vec<u8> {
    let mut bank = any_bank(source);
    for slot in bank.chunks_exact_mut(RECORD_BYTES) {
        if source.below(2) == 0 {
            slot.fill(0);
            slot[source.below(RECORD_BYTES)] = (source.below(16) == 0).into();
        }
    }
    bank
}

fn any_request(source: &mut Source) -> Vec<u8> {
    if source.below(2) == 0 {
        return near(source, REQUEST_BYTES);
    }
    let mut request = REQUEST.to_bytes();
    request[source.below(REQUEST_BYTES)] = source.number() as u8;
    request.to_vec()
}

/// Of 30 bytes, 31 or 35, the 31st of which is mostly 0 or 1.
fn any_policy(source: &mut Source) -> Vec<u8> {
    if source.below(2) == 0 {
        let length = [POLICY_BYTES, ROUNDED_POLICY_BYTES, LONGEST_POLICY_BYTES][source.below(3)];
        let mut policy = near(source, length);
        if let Some(rounding) = policy.get_mut(POLICY_BYTES) {
            *rounding = [0, 1, 1, 2, 255][source.below(5)];
        }
        return policy;
    }
    let mut policy = either(source).to_bytes();
    policy[source.below(POLICY_BYTES)] = source.number() as u8;
    let short = policy[POLICY_BYTES..].iter().all(|byte| *byte == 0) && source.below(2) == 0;
    policy[..if short { POLICY_BYTES } else { LONGEST_POLICY_BYTES }].to_vec()
}

/// The example's policy, rounding either way, with an allowance or without.
fn either(source: &mut Source) -> PolicySnapshot {
    EACH[source.below(4)]
}

/// How many bytes the stored form takes of a policy in any bytes.
fn stored_need(policy: &[u8], bank: &[u8]) -> usize {
    let once = policy.get(POLICY_BYTES) == Some(&Rounding::Once.number());
    let free = policy.iter().skip(ROUNDED_POLICY_BYTES).any(|byte| *byte != 0);
    let more = if once { ROUNDING_FIELD_BYTES } else { 0 } + if free { ALLOWANCE_FIELD_BYTES } else { 0 };
    stored_form_bytes(bank.len()) + more
}

/// A form, cut, lengthened or with a byte changed, or any bytes.
fn any_form(source: &mut Source) -> Vec<u8> {
    let bank = any_bank(source);
    let stored = write_stored(&either(source), &bank).unwrap_or_default();
    let request = write_request(REQUEST).unwrap();
    let mut form = match source.below(4) {
        0 => stored,
        1 => request.to_vec(),
        2 => [&stored[..], &request].concat(),
        _ => {
            let length = source.below(200);
            source.bytes(length)
        }
    };
    match source.below(4) {
        0 => form.truncate(source.below(form.len() + 1)),
        1 => form.push(source.number() as u8),
        2 if !form.is_empty() => {
            let at = source.below(form.len());
            form[at] = source.number() as u8;
        }
        _ => (),
    }
    form
}

/// Asks with a buffer around the length that is needed: refused it stays, answered no more than that is written.
fn ask(source: &mut Source, need: usize, call: impl Fn(&mut [u8]) -> u64) -> Result<(), Refusal> {
    let room = [0, need - 1, need, need + 9][source.below(4)];
    let mut out = vec![UNTOUCHED; room];
    let told = tells(call(&mut out));
    let written = if told.is_ok() { need } else { 0 };
    assert!(written <= room && out[written..].iter().all(|byte| *byte == UNTOUCHED), "{told:?} with room {room}");
    let mut again = vec![0; room];
    assert_eq!(tells(call(&mut again)), told);
    assert_eq!(again[..written], out[..written], "every byte of the answer is written");
    told
}

#[test]
fn the_calls_as_they_are() {
    let mut answered = 0;
    for seed in 0..ROUNDS {
        let source = &mut Source(seed);
        let (policy, request, bank) = (any_policy(source), any_request(source), any_bank(source));
        let (p, q, b, id) = (&policy[..], &request[..], &bank[..], source.below(4) as u32);
        let entries = source.bytes(5 * EXPLANATION_BYTES + 3);
        let form = &any_form(source)[..];
        let answers = [
            ask(source, DECISION_BYTES, |out| ffi::prescribe(p, q, b, out)),
            ask(source, DECISION_BYTES, |out| ffi::prescribe_checked(p, q, b, out)),
            ask(source, UTILITY_BYTES, |out| ffi::utility_for_model(p, q, b, id, out)),
            ask(source, PLACE_BYTES, |out| ffi::find(b, id, out)),
            ask(source, OFFSET_BYTES, |out| ffi::record_at(b, id.into(), out)),
            ask(source, NEXT_BYTES, |out| ffi::next_eligible(&entries, id.into(), out)),
            ask(source, BOUNDARY_BYTES, |out| ffi::what_would_win(p, q, b, id, out)),
            ask(source, BOUNDARY_BYTES, |out| ffi::decision_margin(p, q, b, out)),
            ask(source, stored_need(p, b), |out| ffi::write_stored(p, b, out)),
            ask(source, REQUEST_FORM_BYTES, |out| ffi::write_request(q, out)),
            ask(source, REQUEST_BYTES, |out| ffi::read_request(form, out)),
            ask(source, UNCOUNTED_BYTES, |out| ffi::explain(p, q, b, &mut [0; 6 * EXPLANATION_BYTES], out)),
            ask(source, STORED_POLICY_BYTES, |out| ffi::read_stored(form, &mut [0; 300], out)),
            tells(ffi::check_request(q)),
            tells(ffi::validate(p, b)),
        ];
        answered += answers.iter().filter(|answer| answer.is_ok()).count();
    }
    assert!(answered as u64 > 3 * ROUNDS, "{answered} of {} were answered", 15 * ROUNDS);
}

/// What an edit leaves of the policy and the bank: refused both, answered the policy's epoch raised and the bank as long as it was.
fn edit(policy: &[u8], bank: &[u8], out: &mut [u8], call: impl Fn(&mut [u8], &mut [u8], &mut [u8]) -> u64) -> u64 {
    let (mut raised, mut edited) = (policy.to_vec(), bank.to_vec());
    let word = call(&mut raised, &mut edited, out);
    match tells(word) {
        Ok(()) => {
            let epoch = u64::from_le_bytes(*policy[8..].first_chunk().unwrap());
            assert_eq!(raised, [&policy[..8], &(epoch + 1).to_le_bytes(), &policy[16..]].concat());
            let live = |bank: &[u8]| bank.chunks(RECORD_BYTES).filter(|slot| slot[..4] != [0; 4]).count();
            assert!(live(&edited).abs_diff(live(bank)) <= 1, "one model more or less, if any");
        }
        Err(refusal) => assert_eq!((&raised[..], &edited[..]), (policy, bank), "{refusal}"),
    }
    word
}

#[test]
fn the_live_calls_as_they_are() {
    let mut answered = [0; 11];
    for seed in 0..ROUNDS {
        let source = &mut Source(seed);
        let (policy, request, bank) = (any_policy(source), any_request(source), any_slots(source));
        let record = if source.below(2) == 0 { common::FIRST.to_bytes().to_vec() } else { near(source, RECORD_BYTES) };
        let (p, q, b, r, id) = (&policy[..], &request[..], &bank[..], &record[..], source.below(4) as u32);
        let answers = [
            ask(source, DECISION_BYTES, |out| ffi::live::prescribe(p, q, b, out)),
            ask(source, DECISION_BYTES, |out| ffi::live::prescribe_checked(p, q, b, out)),
            ask(source, UNCOUNTED_BYTES, |out| ffi::live::explain(p, q, b, &mut [0; 6 * EXPLANATION_BYTES], out)),
            ask(source, PLACE_BYTES, |out| ffi::live::find(b, id, out)),
            ask(source, UTILITY_BYTES, |out| ffi::live::utility_for_model(p, q, b, id, out)),
            ask(source, BOUNDARY_BYTES, |out| ffi::live::what_would_win(p, q, b, id, out)),
            ask(source, BOUNDARY_BYTES, |out| ffi::live::decision_margin(p, q, b, out)),
            ask(source, EDIT_BYTES, |out| edit(p, b, out, |p, b, out| ffi::live::add(p, b, r, out))),
            ask(source, EDIT_BYTES, |out| edit(p, b, out, |p, b, out| ffi::live::replace(p, b, r, out))),
            ask(source, EDIT_BYTES, |out| edit(p, b, out, |p, b, out| ffi::live::remove(p, b, id, out))),
            ask(source, EDIT_BYTES, |out| edit(p, b, out, ffi::live::compact)),
        ];
        answered.iter_mut().zip(answers).for_each(|(count, answer)| *count += u64::from(answer.is_ok()));
    }
    assert!(answered.iter().all(|count| *count > ROUNDS / 400), "{answered:?} of {ROUNDS} each were answered");
}

#[test]
fn the_safe_calls() {
    for seed in 0..ROUNDS {
        let source = &mut Source(seed);
        let policy = PolicySnapshot::from_bytes(&source.bytes(POLICY_BYTES)).unwrap();
        let policy = if source.below(2) == 0 { policy } else { either(source) };
        let rounding = [Rounding::Apart, Rounding::Once][source.below(2)];
        let latency_allowance_ms = [0, 75, source.number() as u32][source.below(3)];
        let policy = PolicySnapshot { rounding, latency_allowance_ms, ..policy };
        let request = KernelInput::from_bytes(&source.bytes(REQUEST_BYTES).try_into().unwrap());
        let request = if source.below(2) == 0 { request } else { REQUEST };
        let bank = any_bank(source);
        let id = source.below(4) as u32;
        let decision = policy.prescribe(&bank, request);
        let explained = policy.explain(&bank, request);
        assert_eq!(explained.as_ref().map(|explanation| explanation.decision), decision.as_ref().copied());
        let won = what_would_win(&policy, &bank, request, id);
        assert!(won.as_ref().map_or(true, |answer| Ok(answer.decision) == decision && answer.passes <= 86));
        let margin = decision_margin(&policy, &bank, request);
        assert!(margin.as_ref().map_or(true, |answer| Ok(answer.decision) == decision && answer.passes <= 103));
        if let Ok(explanation) = &explained {
            let first = explanation.candidates.iter().find(|entry| entry.model_id == id);
            let utility = policy.utility_for_model(&bank, request, id);
            match first.map(|entry| entry.verdict) {
                Some(CandidateVerdict::Eligible(terms)) => assert_eq!(utility, Ok(terms.utility)),
                _ => assert_eq!(utility, Err(Refusal::NotEligible)),
            }
            assert_eq!(explanation.eligible().count(), explanation.decision.eligible_models.into());
        }
        let entry = source.bytes(EXPLANATION_BYTES).try_into().unwrap();
        let _ = CandidateExplanation::from_bytes(&entry);
    }
}

#[test]
fn an_explanation_fills_its_entries() {
    let (mut refused, mut filled) = (0, 0);
    for seed in 0..ROUNDS {
        let source = &mut Source(seed);
        let (policy, request, bank) = (any_policy(source), any_request(source), any_bank(source));
        let whole = bank.len() / RECORD_BYTES * EXPLANATION_BYTES;
        let room = [0, whole.saturating_sub(1), whole, whole + 9][source.below(4)];
        let (mut list, mut out) = (vec![UNTOUCHED; room], [UNTOUCHED; UNCOUNTED_BYTES]);
        let written = match tells(ffi::explain(&policy, &request, &bank, &mut list, &mut out)) {
            Ok(()) => usize::from(u16::from_le_bytes([out[45], out[46]])) * EXPLANATION_BYTES,
            Err(_) => {
                assert_eq!(out, [UNTOUCHED; UNCOUNTED_BYTES]);
                refused += 1;
                0
            }
        };
        assert!(list[written..].iter().all(|byte| *byte == UNTOUCHED));
        for (entry, record) in list[..written].chunks(EXPLANATION_BYTES).zip(bank.chunks(RECORD_BYTES)) {
            assert_eq!(entry[..4], record[..4], "an entry begins with its model's id");
            filled += 1;
        }
    }
    assert!(refused > ROUNDS / 10 && filled > ROUNDS / 10, "{refused} refused, {filled} entries");
}

#[test]
fn trust_only_orders() {
    for seed in 0..ROUNDS {
        let source = &mut Source(seed);
        let (policy, before) = (any_policy(source), any_bank(source));
        let mut bank = before.clone();
        let told = tells(ffi::trust(&policy, &mut bank)).map_err(Refusal::number);
        let mut ordered: Vec<_> = before.chunks(RECORD_BYTES).collect();
        ordered.sort_by_key(|record| record.first_chunk().map(|id| u32::from_le_bytes(*id)));
        match told {
            Err(1 | 2 | 16 | 17 | 22 | 23) => assert_eq!(bank, before),
            _ => assert_eq!(bank, ordered.concat(), "{told:?}"),
        }
    }
}

#[test]
fn forms_and_texts() {
    for seed in 0..ROUNDS {
        let source = &mut Source(seed);
        let form = any_form(source);
        let mut bank = vec![UNTOUCHED; source.below(300)];
        match read_stored_into(&form, &mut bank) {
            Ok((policy, bytes)) => {
                assert_eq!(write_stored(&policy, &bank[..bytes]).as_deref(), Ok(&form[..]));
                assert!(bank[bytes..].iter().all(|byte| *byte == UNTOUCHED));
            }
            Err(_) => assert!(bank.iter().all(|byte| *byte == UNTOUCHED)),
        }
        if let Ok(request) = read_request(&form) {
            assert_eq!(write_request(request).unwrap()[..], form[..]);
        }
        let texts = [unit_text(&form), ask_text(&form, 1), ask_words(&form, 1)];
        assert!(texts.iter().flatten().filter(|text| text.is_ascii() && text.ends_with('\n')).count() == 3);
    }
}

#[test]
fn a_text_that_has_no_room_is_not_written() {
    for seed in 0..ROUNDS / 10 {
        let form = any_form(&mut Source(seed));
        let calls: [Call; 3] = [&|out| ffi::unit_text(&form, out), &|out| ffi::ask_text(&form, 1, out), &|out| {
            ffi::ask_words(&form, 1, out)
        }];
        for call in calls {
            let mut whole = vec![UNTOUCHED; ASK_WORDS_BYTES];
            assert_eq!(call(&mut whole), 0);
            let need = 8 + u64::from_le_bytes(*whole.first_chunk().unwrap()) as usize;
            assert!(whole[need..].iter().all(|byte| *byte == UNTOUCHED));
            let mut short = vec![UNTOUCHED; need - 1];
            assert_eq!(tells(call(&mut short)), Err(Refusal::NoRoom));
            assert!(short.iter().all(|byte| *byte == UNTOUCHED));
            let mut exact = vec![UNTOUCHED; need];
            assert_eq!((call(&mut exact), &exact[..]), (0, &whole[..need]));
        }
    }
}
