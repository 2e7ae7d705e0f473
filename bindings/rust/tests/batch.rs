//! Batches: each request as it is decided alone, refusals in their order with nothing written, any bytes and any room.
mod common;
use common::{example_bank, many, Source, EACH, POLICY, REQUEST};
use volankizo::ffi::batch::{prescribe_batch, prescribe_batch_checked};
use volankizo::layout::{RECORD_BYTES, REQUEST_BYTES, ROUNDED_POLICY_BYTES, UNCOUNTED_BYTES};
use volankizo::{ffi, KernelInput, Refusal};

const UNTOUCHED: u8 = 0xa5;

/// A batch as it is called.
type Batch = fn(&[u8], &[u8], u64, &[u8], &mut [u8]) -> u64;

/// Both, and whether the requests are checked.
const BOTH: [(bool, Batch); 2] = [(false, prescribe_batch), (true, prescribe_batch_checked)];

fn packed(inputs: &[KernelInput]) -> Vec<u8> {
    inputs.iter().flat_map(KernelInput::to_bytes).collect()
}

/// Requests that are decided, stopped and rejected.
fn mixed() -> Vec<KernelInput> {
    vec![
        REQUEST,
        KernelInput { request_sequence: 43, requested_model_id: 2, ..REQUEST },
        KernelInput { request_sequence: 44, risk_bps: 9_000, ..REQUEST },
        KernelInput { request_sequence: 45, budget_limit_microunits: 299, ..REQUEST },
        REQUEST,
    ]
}

#[test]
fn each_as_it_is_decided_alone() {
    for policy in EACH {
        for bank in [example_bank(), many(0), many(300)] {
            let alone: Vec<_> = mixed().into_iter().map(|input| policy.prescribe(&bank, input).unwrap()).collect();
            assert_eq!(policy.prescribe_batch(&bank, &mixed()).unwrap(), alone);
            assert_eq!(policy.prescribe_batch_checked(&bank, &mixed()).unwrap(), alone);
        }
        assert_eq!(policy.prescribe_batch(&example_bank(), &[]), Ok(vec![]));
        assert_eq!(policy.prescribe_batch_checked(&example_bank(), &[]), Ok(vec![]));
    }
}

/// A long row, so that a place takes more than a byte.
#[test]
fn a_bad_request_is_told_with_its_place() {
    for place in [0, 1, 255, 256, 65_536, 70_000] {
        let mut inputs = vec![KernelInput { risk_bps: 10_000, ..REQUEST }; 70_001];
        inputs[place] = KernelInput { minimum_quality_bps: 10_001, ..REQUEST };
        let refusal = Refusal::InputOutOfRange { field: 3, value: 10_001, place: place as u32 };
        assert_eq!(POLICY.prescribe_batch_checked(&[], &inputs), Err(refusal));
        inputs.push(KernelInput { risk_bps: 65_535, ..REQUEST });
        assert_eq!(POLICY.prescribe_batch_checked(&[], &inputs), Err(refusal), "the first of two");
    }
    let odd = KernelInput { confidence_bps: 10_001, ..REQUEST };
    let alone = POLICY.prescribe(&example_bank(), odd).unwrap();
    assert_eq!(POLICY.prescribe_batch(&example_bank(), &[REQUEST, odd]).unwrap()[1], alone, "unchecked it is decided");
}

/// A batch with faults from one on: which is told, and that nothing is written.
#[test]
fn the_first_refusal_of_all_that_would_do() {
    let bad = KernelInput { risk_bps: 10_001, ..REQUEST };
    let requests = packed(&[REQUEST, bad]);
    let long = [&POLICY.to_bytes()[..30], &[2, 0]].concat();
    let rounds = &long[..ROUNDED_POLICY_BYTES];
    let odd = [rounds, &[200, 0, 0, 0]].concat();
    let policy = POLICY.to_bytes();
    let (bank, uneven, large) = (example_bank(), vec![0; RECORD_BYTES + 1], vec![0; 65_536 * RECORD_BYTES]);
    let rows: [(u64, &[u8], &[u8], u64, &[u8], usize); 15] = [
        (22, rounds, &requests[1..], 2, &uneven, 0),
        (22, rounds, &requests, 1, &uneven, 0),
        (22, rounds, &requests, 3, &uneven, 0),
        (22, rounds, &[], 1 << 32, &uneven, 0),
        (22, rounds, &[], u64::MAX, &uneven, 0),
        // 70 times this count is 140 where a product is cut to 64 bits
        (22, rounds, &requests, (1 << 63) + 2, &uneven, 0),
        (22, &long, &requests, 2, &uneven, 0),
        (22, &odd[..34], &requests, 2, &uneven, 0),
        (22, &[0; 36], &requests, 2, &uneven, 0),
        (22, &odd, &requests[1..], 2, &uneven, 0),
        (23, rounds, &requests, 2, &uneven, 0),
        (23, &odd, &requests, 2, &uneven, 0),
        (1, &policy, &requests, 2, &uneven, 0),
        (2, &policy, &requests, 2, &large, 0),
        (4, &policy, &requests, 2, &bank, 2 * UNCOUNTED_BYTES - 1),
    ];
    for (number, policy, requests, count, bank, room) in rows {
        for (_, batch) in BOTH {
            let mut out = vec![UNTOUCHED; room];
            assert_eq!(batch(policy, requests, count, bank, &mut out), number, "{count} requests");
            assert!(out.iter().all(|byte| *byte == UNTOUCHED));
        }
    }
    let mut out = vec![UNTOUCHED; 2 * UNCOUNTED_BYTES];
    let word = prescribe_batch_checked(&policy, &requests, 2, &bank, &mut out);
    assert_eq!(word, 3 + (1 << 8) + (10_001 << 16) + (1 << 32));
    assert!(out.iter().all(|byte| *byte == UNTOUCHED), "the sound request before it is not decided");
}

/// Any bytes, counts and rooms: what comes back is what single calls tell, byte by byte.
#[test]
fn any_bytes() {
    let mut source = Source(2026);
    let mut answered = 0;
    for _ in 0..4_000 {
        let count = source.below(5);
        let mut requests = source.bytes(count * REQUEST_BYTES);
        if source.below(2) == 0 {
            requests = vec![REQUEST.to_bytes(); count].concat();
            if count > 0 {
                let at = source.below(requests.len());
                requests[at] = source.number() as u8;
            }
        }
        let told = count as u64 + u64::from(source.below(8) == 0) * source.number();
        let policy = EACH[source.below(4)].to_bytes();
        let bank = example_bank();
        let room = (count * UNCOUNTED_BYTES + source.below(3)).saturating_sub(source.below(2));
        for (checked, batch) in BOTH {
            let mut out = vec![UNTOUCHED; room];
            let word = batch(&policy, &requests, told, &bank, &mut out);
            let single = owed(checked, &policy, &requests, told, &bank, room);
            assert_eq!((word, out), single);
            answered += u64::from(word == 0);
        }
    }
    assert!(answered > 1_000, "{answered} answered");
}

/// Word and buffer by single calls, request after request.
fn owed(checked: bool, policy: &[u8], requests: &[u8], count: u64, bank: &[u8], room: usize) -> (u64, Vec<u8>) {
    let untouched = vec![UNTOUCHED; room];
    if requests.len() as u128 != u128::from(count) * REQUEST_BYTES as u128 || count >= 1 << 32 {
        return (22, untouched);
    }
    if (room as u64) < count * UNCOUNTED_BYTES as u64 {
        return (4, untouched);
    }
    let rows = || requests.chunks(REQUEST_BYTES).enumerate();
    let bad = |(place, request): (usize, &[u8])| match ffi::check_request(request) {
        0 => None,
        word => Some(word + ((place as u64) << 32)),
    };
    if let Some(word) = rows().find_map(bad).filter(|_| checked) {
        return (word, untouched);
    }
    let mut out = untouched;
    for (place, request) in rows() {
        let mut decision = [0; 83];
        assert_eq!(ffi::prescribe(policy, request, bank, &mut decision), 0);
        out[place * UNCOUNTED_BYTES..][..UNCOUNTED_BYTES].copy_from_slice(&decision[..UNCOUNTED_BYTES]);
    }
    (0, out)
}
