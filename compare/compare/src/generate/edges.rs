//! Values at the edges of each field's range, and settings with one field moved there.
use super::random::Random;
use super::Setting;
use crate::second::bytes::Policy;
use crate::second::rules::Rounding;
use oracle::kernel::{KernelInput, KernelModel};

const BPS: [u16; 15] =
    [0, 1, 2, 4_999, 5_000, 5_001, 9_999, 10_000, 10_001, 32_768, 49_999, 50_000, 50_001, 65_534, 65_535];

pub const AMOUNTS: [u64; 16] = [
    0,
    1,
    2,
    999_999,
    1_000_000,
    1_000_001,
    (1 << 32) - 1,
    1 << 32,
    (1 << 32) + 1,
    // Times a million, on either side of 2^64.
    18_446_744_073_709,
    18_446_744_073_710,
    (1 << 63) - 1,
    1 << 63,
    (1 << 63) + 1,
    u64::MAX - 1,
    u64::MAX,
];

const COUNTS: [u32; 9] = [0, 1, 2, 999_999, 1_000_000, 1_000_001, 1 << 31, u32::MAX - 1, u32::MAX];

pub const VALUES: [i64; 14] = [
    0,
    1,
    -1,
    10_000,
    100_000_000,
    (1 << 32) - 1,
    1 << 32,
    (1 << 32) + 1,
    -(1 << 32),
    (1 << 48) - 1,
    1 << 48,
    i64::MIN,
    i64::MIN + 1,
    i64::MAX,
];

/// Basis points: an edge, a limit of this setting or a step beside it, or anything.
fn bps(r: &mut Random, near: &[u16]) -> u16 {
    match r.below(5) {
        0..=1 => r.pick(&BPS),
        2..=3 => {
            let limit = r.pick(near);
            beside(r, limit)
        }
        _ => r.draw() as u16,
    }
}

/// A number, or one step below or above it.
pub fn beside(r: &mut Random, number: u16) -> u16 {
    match r.below(3) {
        0 => number.saturating_sub(1),
        1 => number,
        _ => number.saturating_add(1),
    }
}

/// The same of milliseconds.
pub fn beside_latency(r: &mut Random, number: u32) -> u32 {
    r.pick(&[number.saturating_sub(1), number, number.saturating_add(1)])
}

pub fn amount(r: &mut Random) -> u64 {
    if r.one_in(2) {
        r.pick(&AMOUNTS)
    } else {
        r.wide(64)
    }
}

fn count(r: &mut Random) -> u32 {
    if r.one_in(2) {
        r.pick(&COUNTS)
    } else {
        r.wide(32) as u32
    }
}

fn value(r: &mut Random) -> i64 {
    match r.below(4) {
        0..=1 => r.pick(&VALUES),
        2 => r.wide(63) as i64,
        _ => r.draw() as i64,
    }
}

/// No bit, all bits, one bit, all but one, many, few.
pub fn mask(r: &mut Random) -> u64 {
    let bit = 1 << r.below(64);
    match r.below(6) {
        0 => 0,
        1 => u64::MAX,
        2 => bit,
        3 => !bit,
        4 => r.draw(),
        _ => r.draw() & r.draw() & r.draw(),
    }
}

/// Around 63, the last that a mask can admit. 64 and 128 would name bit 0 if a shift went round.
pub fn provider(r: &mut Random) -> u16 {
    r.pick(&[0, 1, 5, 62, 62, 63, 63, 64, 64, 65, 65, 127, 128, 65_535])
}

/// Only 0 is off.
pub fn enabled(r: &mut Random) -> u8 {
    r.pick(&[0, 0, 1, 1, 2, 128, 255])
}

/// A listed id, or one beside a listed one, or one that stands for none elsewhere.
pub fn id(r: &mut Random, models: &[KernelModel]) -> u32 {
    if models.is_empty() || r.one_in(6) {
        return r.pick(&[0, 1, 2, u32::MAX, 1_000_000]);
    }
    let listed = models[r.place(models.len())].model_id;
    match r.below(8) {
        0 => listed.wrapping_add(1),
        1 => listed ^ 1 << r.below(32),
        _ => listed,
    }
}

/// One field of the policy, the request, one record or every record goes to an edge.
pub fn change(r: &mut Random, setting: &mut Setting) {
    let near = limits(r, setting);
    match (r.below(8), setting.any_place(r)) {
        (0..=1, _) => change_policy(r, &mut setting.policy, &near),
        (2, Some(_)) => change_every_model(r, &mut setting.models, &near),
        (3..=5, Some(at)) => change_model(r, &mut setting.models[at], &near),
        _ => change_request(r, &mut setting.request, &near),
    }
}

/// The numbers that basis points are held against in this setting.
fn limits(r: &mut Random, setting: &Setting) -> Vec<u16> {
    let (policy, request) = (&setting.policy, &setting.request);
    let mut near = vec![
        policy.hard_risk_limit_bps,
        policy.minimum_confidence_bps,
        request.risk_bps,
        request.confidence_bps,
        request.minimum_quality_bps,
    ];
    if let Some(at) = setting.any_place(r) {
        near.extend([setting.models[at].quality_bps, setting.models[at].risk_ceiling_bps]);
    }
    near
}

fn change_policy(r: &mut Random, policy: &mut Policy, near: &[u16]) {
    match r.below(6) {
        0 => policy.policy_epoch = amount(r),
        1 => policy.catalog_epoch = amount(r),
        2 => policy.hard_risk_limit_bps = bps(r, near),
        3 => policy.minimum_confidence_bps = bps(r, near),
        4 => policy.risk_penalty_multiplier_bps = bps(r, near),
        _ => policy.latency_penalty_microunits_per_ms = amount(r),
    }
}

fn change_request(r: &mut Random, request: &mut KernelInput, near: &[u16]) {
    match r.below(13) {
        0 => request.request_sequence = amount(r),
        1 => request.requested_model_id = count(r),
        2 => request.input_tokens = count(r),
        3 => request.output_tokens = count(r),
        4 => request.business_value_microunits = value(r),
        5 => request.budget_limit_microunits = amount(r),
        6 => request.risk_bps = bps(r, near),
        7 => request.confidence_bps = bps(r, near),
        8 => request.minimum_quality_bps = bps(r, near),
        9 => request.max_p95_latency_ms = count(r),
        10 => request.required_capabilities = mask(r),
        11 => request.allowed_provider_mask = mask(r),
        _ => request.required_region_mask = mask(r),
    }
}

pub fn change_model(r: &mut Random, model: &mut KernelModel, near: &[u16]) {
    match r.below(10) {
        0 => model.model_id = count(r),
        1 => model.provider_id = provider(r),
        2 => model.quality_bps = bps(r, near),
        3 => model.risk_ceiling_bps = bps(r, near),
        4 => model.enabled = enabled(r),
        5 => model.p95_latency_ms = count(r),
        6 => model.capabilities = mask(r),
        7 => model.region_mask = mask(r),
        8 => model.input_cost_microunits_per_million_tokens = amount(r),
        _ => model.output_cost_microunits_per_million_tokens = amount(r),
    }
}

/// The same field of every record, each with its own value.
fn change_every_model(r: &mut Random, models: &mut [KernelModel], near: &[u16]) {
    let field = r.below(5);
    for model in models {
        match field {
            0 => model.provider_id = provider(r),
            1 => model.quality_bps = bps(r, near),
            2 => model.enabled = enabled(r),
            3 => model.model_id = r.below(4) as u32,
            _ => model.input_cost_microunits_per_million_tokens = amount(r),
        }
    }
}

/// Every field anywhere in its range, edges first.
pub fn anything(r: &mut Random, records: usize) -> Setting {
    let near = [0, 10_000];
    let policy = Policy {
        policy_epoch: amount(r),
        catalog_epoch: amount(r),
        hard_risk_limit_bps: bps(r, &near),
        minimum_confidence_bps: bps(r, &near),
        risk_penalty_multiplier_bps: bps(r, &near),
        latency_penalty_microunits_per_ms: amount(r),
        rounding: Rounding::Apart,
        latency_allowance_ms: 0,
    };
    let request = KernelInput {
        request_sequence: amount(r),
        requested_model_id: count(r),
        input_tokens: count(r),
        output_tokens: count(r),
        business_value_microunits: value(r),
        budget_limit_microunits: amount(r),
        risk_bps: bps(r, &near),
        confidence_bps: bps(r, &near),
        minimum_quality_bps: bps(r, &near),
        max_p95_latency_ms: count(r),
        required_capabilities: mask(r),
        allowed_provider_mask: mask(r),
        required_region_mask: mask(r),
    };
    Setting { policy, request, models: (0..records).map(|_| any_model(r, &near)).collect() }
}

fn any_model(r: &mut Random, near: &[u16]) -> KernelModel {
    KernelModel {
        model_id: count(r),
        provider_id: provider(r),
        quality_bps: bps(r, near),
        risk_ceiling_bps: bps(r, near),
        enabled: enabled(r),
        p95_latency_ms: count(r),
        capabilities: mask(r),
        region_mask: mask(r),
        input_cost_microunits_per_million_tokens: amount(r),
        output_cost_microunits_per_million_tokens: amount(r),
    }
}
