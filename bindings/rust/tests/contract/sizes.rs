//! Sizes and limits: the least length that a call takes, and the most models.
use crate::common::{example_bank, many, FREE, ONCE, POLICY, REQUEST, SECOND};
use crate::Row;
use volankizo::layout::RECORD_BYTES;
use volankizo::{ffi, live, KernelInput, PolicySnapshot};

const SIZES: &str = include_str!("../../../../crates/program_deliver/src/sizes.rt");

/// The least length that a call doesn't refuse with a number.
fn least(number: u64, call: impl Fn(usize) -> u64) -> u64 {
    (0..4_000).find(|length| call(*length) & 0xff != number).expect("a length that is taken") as u64
}

/// The least room of a buffer, which a call refuses with 4 where it is shorter.
fn room(call: impl Fn(&mut [u8]) -> u64) -> u64 {
    least(4, |length| call(&mut vec![0; length]))
}

/// The most models: one fewer than the least number of them that is refused so.
fn most(refused: impl Fn(usize) -> bool) -> u64 {
    let (mut taken, mut short) = (0, 70_000);
    assert!(!refused(taken) && refused(short));
    while short - taken > 1 {
        let middle = (taken + short) / 2;
        if refused(middle) {
            short = middle;
        } else {
            taken = middle;
        }
    }
    taken as u64
}

/// A size that the library's own source names, of a text; its length's 8 bytes come before it.
fn text_bytes(name: &str) -> u64 {
    let line = SIZES.lines().find_map(|line| line.strip_prefix(&format!("pub const {name}: usize = "))).unwrap();
    8 + line.trim_end_matches(';').replace('_', "").parse::<u64>().unwrap()
}

/// The bytes of a stored form, rounded apart and without an allowance, with a bank of so many bytes.
pub fn stored_form(bank: usize) -> u64 {
    written(&POLICY, &vec![0; bank])
}

fn written(policy: &PolicySnapshot, bank: &[u8]) -> u64 {
    let (mut short, mut long) = (0, bank.len() + 100);
    let taken = |length| ffi::write_stored(&policy.to_bytes(), bank, &mut vec![0; length]) != 4;
    while long - short > 1 {
        let middle = (short + long) / 2;
        if taken(middle) {
            long = middle;
        } else {
            short = middle;
        }
    }
    long as u64
}

fn program_refuses(models: usize) -> bool {
    // more than a stored form holds are refused before
    let bank = many(models.min(1_394) as u32);
    let mut input = vec![0; 36 + bank.len()];
    ffi::write_stored(&POLICY.to_bytes(), &bank, &mut input);
    let mut request = vec![0; 73];
    ffi::write_request(&REQUEST.to_bytes(), &mut request);
    let mut text = vec![0; 848];
    ffi::unit_text(&[input, request].concat(), &mut text);
    text[8..].starts_with(b"refused 19\n")
}

/// The bytes of each request that a batch goes by.
fn request_bytes() -> u64 {
    let batch = |length| ffi::batch::prescribe_batch(&POLICY.to_bytes(), &vec![0; length], 1, &example_bank(), &mut []);
    least(22, batch)
}

/// The offsets and sizes of a boundary's rooms, by where the margin's first two stand.
pub fn rooms() -> (u64, u64, u64) {
    let mut out = vec![0; 183];
    assert_eq!(ffi::decision_margin(&POLICY.to_bytes(), &REQUEST.to_bytes(), &example_bank(), &mut out), 0);
    let quality = [&[1], &8_000u64.to_le_bytes()[..]].concat();
    let latency = [&[2], &50u64.to_le_bytes()[..]].concat();
    let at = |wanted: &[u8]| out.windows(wanted.len()).position(|window| window == wanted).unwrap() as u64;
    let (first, second) = (at(&quality), at(&latency));
    (first, second - first, (183 - first) / (second - first))
}

/// The providers that a mask of one bit lets in, each by its own.
fn all_providers() -> u64 {
    let admits = |mask: u64, provider_id: u16| {
        let bank = volankizo::Bank::from_models(&[volankizo::KernelModel { provider_id, ..SECOND }]);
        POLICY.prescribe(&bank, KernelInput { allowed_provider_mask: mask, ..REQUEST }).unwrap().is_executable()
    };
    (0..64).filter(|provider| admits(1 << provider, *provider)).map(|provider| 1 << provider).sum()
}

/// The byte of a policy after its 30 with which one token each way at price 1 costs so much.
fn rounds_to(cost: u64) -> u64 {
    let cheap = volankizo::KernelModel {
        input_cost_microunits_per_million_tokens: 1,
        output_cost_microunits_per_million_tokens: 1,
        ..SECOND
    };
    let request = KernelInput { input_tokens: 1, output_tokens: 1, ..REQUEST };
    let found = (0..=255u8).find(|rounding| {
        let policy = [&POLICY.to_bytes()[..30], &[*rounding]].concat();
        let mut out = [0; 83];
        let word = ffi::prescribe(&policy, &request.to_bytes(), &cheap.to_bytes(), &mut out);
        word == 0 && out[17..25] == cost.to_le_bytes()
    });
    found.unwrap().into()
}

/// The allowance with which 35 bytes of a policy say what 31 do.
fn no_allowance() -> u64 {
    let decided = |policy: &[u8]| {
        let mut out = [0; 83];
        assert_eq!(ffi::prescribe(policy, &REQUEST.to_bytes(), &example_bank(), &mut out), 0);
        out
    };
    let rounded = &POLICY.to_bytes()[..31];
    let same: Vec<u32> = (0..1_000)
        .filter(|allowance: &u32| decided(&[rounded, &allowance.to_le_bytes()].concat()) == decided(rounded))
        .collect();
    assert_eq!(same.len(), 1, "any other lowers a latency term");
    same[0].into()
}

pub fn rows() -> Vec<Row> {
    let (policy, request, bank) = (POLICY.to_bytes(), REQUEST.to_bytes(), example_bank());
    let (version, (_, room_bytes, rooms)) = (ffi::batch::version(), rooms());
    let taken = |length: &usize| ffi::validate(&vec![0; *length], &[]) != 22;
    let lengths: Vec<_> = (0..100).filter(taken).collect();
    assert_eq!(lengths.len(), 3, "a policy has three lengths");
    let mut next = [0; 8];
    assert_eq!(ffi::next_eligible(&[], 0, &mut next), 0);
    let stopped = POLICY.prescribe(&bank, KernelInput { risk_bps: 9_000, ..REQUEST }).unwrap();
    assert_eq!(least(22, |length| ffi::check_request(&vec![0; length])), request_bytes());
    let apart = stored_form(0);
    vec![
        ("VERSION", version),
        ("VERSION_MAJOR", version / 1_000_000),
        ("VERSION_MINOR", version / 1_000 % 1_000),
        ("VERSION_PATCH", version % 1_000),
        ("RECORD_BYTES", 1 + least(1, |length| ffi::find(&vec![0; length + 1], 1, &mut [0; 2]))),
        ("POLICY_BYTES", lengths[0] as u64),
        ("ROUNDED_POLICY_BYTES", lengths[1] as u64),
        ("LONGEST_POLICY_BYTES", lengths[2] as u64),
        ("REQUEST_BYTES", request_bytes()),
        ("DECISION_BYTES", room(|out| ffi::prescribe(&policy, &request, &bank, out))),
        ("UNCOUNTED_BYTES", room(|out| ffi::batch::prescribe_batch(&policy, &request, 1, &bank, out))),
        ("UTILITY_BYTES", room(|out| ffi::utility_for_model(&policy, &request, &bank, 1, out))),
        ("PLACE_BYTES", room(|out| ffi::find(&bank, 1, out))),
        ("NEXT_BYTES", room(|out| ffi::next_eligible(&[], 0, out))),
        ("EXPLANATION_BYTES", room(|list| ffi::explain(&policy, &request, &SECOND.to_bytes(), list, &mut [0; 65]))),
        ("BOUNDARY_BYTES", room(|out| ffi::decision_margin(&policy, &request, &bank, out))),
        ("ROOM_BYTES", room_bytes),
        ("OFFSET_BYTES", room(|out| ffi::record_at(&bank, 0, out))),
        ("EDIT_BYTES", room(|out| ffi::live::compact(&mut policy.clone(), &mut bank.to_vec(), out))),
        ("FIELD_HEADER_BYTES", (apart - 30) / 2),
        ("ROUNDING_FIELD_BYTES", written(&ONCE, &[]) - apart),
        ("ALLOWANCE_FIELD_BYTES", written(&FREE, &[]) - apart),
        ("STORED_POLICY_BYTES", room(|out| ffi::read_stored(&stored(), &mut [], out))),
        ("REQUEST_FORM_BYTES", room(|out| ffi::write_request(&request, out))),
        ("UNIT_TEXT_BYTES", text_bytes("UNIT_BYTES")),
        ("ASK_TEXT_BYTES", text_bytes("ASK_BYTES")),
        ("ASK_WORDS_BYTES", text_bytes("WORDS_BYTES")),
        ("MAX_MODELS", most(|models| live::find(&vec![0; models * RECORD_BYTES], 1).is_err())),
        (
            "MAX_STORED_MODELS",
            most(|models| ffi::write_stored(&policy, &many(models.min(65_535) as u32), &mut []) == 18),
        ),
        ("MAX_PROGRAM_MODELS", most(program_refuses)),
        ("MAX_LEVERS", rooms),
        ("NO_PLACE", stopped.selected_model_index.into()),
        ("NO_NEXT", u64::from_le_bytes(next)),
        ("ALL_PROVIDERS", all_providers()),
        ("NO_ALLOWANCE", no_allowance()),
        ("ROUNDS_APART", rounds_to(2)),
        ("ROUNDS_ONCE", rounds_to(1)),
    ]
}

/// A stored form without a model.
fn stored() -> Vec<u8> {
    let mut form = vec![0; 36];
    assert_eq!(ffi::write_stored(&POLICY.to_bytes(), &[], &mut form), 0);
    form
}
