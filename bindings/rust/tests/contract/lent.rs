//! Offsets of what is lent: the only one at which a field's bytes move the library's answer as the field does.
use crate::common::{FIRST, POLICY, REQUEST, SECOND};
use crate::Row;
use volankizo::layout::{EXPLANATION_BYTES, RECORD_BYTES, UNCOUNTED_BYTES};
use volankizo::{ffi, Bank, KernelInput, KernelModel, PolicySnapshot, Rounding};

/// A field: its name, its bytes, and the whole with that field moved.
type Field<T> = (&'static str, Vec<u8>, T);

/// All that an explanation shows: the word, the decision, and every entry.
fn shown(policy: &[u8], request: &[u8], bank: &[u8]) -> Vec<u8> {
    let mut list = vec![0; bank.len() / RECORD_BYTES * EXPLANATION_BYTES];
    let mut out = [0; UNCOUNTED_BYTES];
    let word = ffi::explain(policy, request, bank, &mut list, &mut out);
    [&word.to_le_bytes()[..], &out, &list].concat()
}

/// The only offset of `lent` where the field's bytes show what is owed.
fn offset(name: &str, lent: &[u8], field: &[u8], owed: &[u8], show: impl Fn(&[u8]) -> Vec<u8>) -> u64 {
    assert_ne!(show(lent), owed, "{name} moves nothing");
    let moved = |at: &usize| {
        let mut changed = lent.to_vec();
        changed[*at..at + field.len()].copy_from_slice(field);
        show(&changed) == owed
    };
    let places: Vec<_> = (0..=lent.len() - field.len()).filter(moved).collect();
    assert_eq!(places.len(), 1, "{name} stands at {places:?}");
    places[0] as u64
}

fn request_rows() -> Vec<Row> {
    let (policy, bank) = (POLICY.to_bytes(), Bank::from_models(&[FIRST, SECOND]));
    let show = |request: &[u8]| shown(&policy, request, &bank);
    let fields: Vec<Field<KernelInput>> = vec![
        ("REQUEST_SEQUENCE_AT", word(1 << 40), KernelInput { request_sequence: 1 << 40, ..REQUEST }),
        ("REQUEST_MODEL_AT", half(2), KernelInput { requested_model_id: 2, ..REQUEST }),
        ("REQUEST_INPUT_TOKENS_AT", half(70_000), KernelInput { input_tokens: 70_000, ..REQUEST }),
        ("REQUEST_OUTPUT_TOKENS_AT", half(70_000), KernelInput { output_tokens: 70_000, ..REQUEST }),
        ("REQUEST_VALUE_AT", word(20_000), KernelInput { business_value_microunits: 20_000, ..REQUEST }),
        ("REQUEST_BUDGET_AT", word(250), KernelInput { budget_limit_microunits: 250, ..REQUEST }),
        ("REQUEST_RISK_AT", pair(2_000), KernelInput { risk_bps: 2_000, ..REQUEST }),
        ("REQUEST_CONFIDENCE_AT", pair(9_000), KernelInput { confidence_bps: 9_000, ..REQUEST }),
        ("REQUEST_MINIMUM_QUALITY_AT", pair(8_500), KernelInput { minimum_quality_bps: 8_500, ..REQUEST }),
        ("REQUEST_LATENCY_LIMIT_AT", half(60), KernelInput { max_p95_latency_ms: 60, ..REQUEST }),
        ("REQUEST_CAPABILITIES_AT", word(2), KernelInput { required_capabilities: 2, ..REQUEST }),
        ("REQUEST_PROVIDERS_AT", word(2), KernelInput { allowed_provider_mask: 2, ..REQUEST }),
        ("REQUEST_REGIONS_AT", word(2), KernelInput { required_region_mask: 2, ..REQUEST }),
    ];
    let at = |(name, bytes, moved): Field<KernelInput>| {
        (name, offset(name, &REQUEST.to_bytes(), &bytes, &show(&moved.to_bytes()), show))
    };
    fields.into_iter().map(at).collect()
}

fn record_rows() -> Vec<Row> {
    let request = KernelInput { allowed_provider_mask: 0b10, required_region_mask: 1, ..REQUEST };
    let show = |record: &[u8]| shown(&POLICY.to_bytes(), &request.to_bytes(), record);
    let input = KernelModel { input_cost_microunits_per_million_tokens: 9_000_000, ..SECOND };
    let output = KernelModel { output_cost_microunits_per_million_tokens: 9_000_000, ..SECOND };
    let fields: Vec<Field<KernelModel>> = vec![
        ("RECORD_ID_AT", half(9), KernelModel { model_id: 9, ..SECOND }),
        ("RECORD_PROVIDER_AT", pair(3), KernelModel { provider_id: 3, ..SECOND }),
        ("RECORD_QUALITY_AT", pair(7_000), KernelModel { quality_bps: 7_000, ..SECOND }),
        ("RECORD_CEILING_AT", pair(500), KernelModel { risk_ceiling_bps: 500, ..SECOND }),
        ("RECORD_ENABLED_AT", vec![0], KernelModel { enabled: 0, ..SECOND }),
        ("RECORD_LATENCY_AT", half(40), KernelModel { p95_latency_ms: 40, ..SECOND }),
        ("RECORD_CAPABILITIES_AT", word(4), KernelModel { capabilities: 4, ..SECOND }),
        ("RECORD_REGIONS_AT", word(6), KernelModel { region_mask: 6, ..SECOND }),
        ("RECORD_INPUT_PRICE_AT", word(9_000_000), input),
        ("RECORD_OUTPUT_PRICE_AT", word(9_000_000), output),
    ];
    let at = |(name, bytes, moved): Field<KernelModel>| {
        (name, offset(name, &SECOND.to_bytes(), &bytes, &show(&moved.to_bytes()), show))
    };
    fields.into_iter().map(at).collect()
}

fn policy_rows() -> Vec<Row> {
    // one token each way, at prices of which both roundings make another cost
    let request = KernelInput { input_tokens: 1, output_tokens: 1, ..REQUEST };
    let model = KernelModel {
        input_cost_microunits_per_million_tokens: 1_000_001,
        output_cost_microunits_per_million_tokens: 1_000_001,
        ..SECOND
    };
    let show = |policy: &[u8]| shown(policy, &request.to_bytes(), &model.to_bytes());
    let fields: Vec<Field<PolicySnapshot>> = vec![
        ("POLICY_EPOCH_AT", word(1 << 40), PolicySnapshot { policy_epoch: 1 << 40, ..POLICY }),
        ("POLICY_CATALOG_EPOCH_AT", word(1 << 41), PolicySnapshot { catalog_epoch: 1 << 41, ..POLICY }),
        ("POLICY_HARD_RISK_LIMIT_AT", pair(900), PolicySnapshot { hard_risk_limit_bps: 900, ..POLICY }),
        ("POLICY_MINIMUM_CONFIDENCE_AT", pair(10_001), PolicySnapshot { minimum_confidence_bps: 10_001, ..POLICY }),
        ("POLICY_RISK_MULTIPLIER_AT", pair(20_000), PolicySnapshot { risk_penalty_multiplier_bps: 20_000, ..POLICY }),
        ("POLICY_LATENCY_PENALTY_AT", word(11), PolicySnapshot { latency_penalty_microunits_per_ms: 11, ..POLICY }),
        ("POLICY_ROUNDING_AT", vec![1], PolicySnapshot { rounding: Rounding::Once, ..POLICY }),
        ("POLICY_LATENCY_ALLOWANCE_AT", half(30), PolicySnapshot { latency_allowance_ms: 30, ..POLICY }),
    ];
    let at = |(name, bytes, moved): Field<PolicySnapshot>| {
        (name, offset(name, &POLICY.to_bytes(), &bytes, &show(&moved.to_bytes()), show))
    };
    fields.into_iter().map(at).collect()
}

fn word(number: u64) -> Vec<u8> {
    number.to_le_bytes().to_vec()
}

fn half(number: u32) -> Vec<u8> {
    number.to_le_bytes().to_vec()
}

fn pair(number: u16) -> Vec<u8> {
    number.to_le_bytes().to_vec()
}

pub fn rows() -> Vec<Row> {
    [policy_rows(), request_rows(), record_rows()].concat()
}
