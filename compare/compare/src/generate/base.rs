//! Plausible settings: several models eligible, others rejected for different reasons.
use super::edges;
use super::random::Random;
use super::Setting;
use crate::second::bytes::Policy;
use crate::second::rules::Rounding;
use oracle::kernel::{KernelInput, KernelModel, ALL_PROVIDERS};

pub fn setting(r: &mut Random, records: usize) -> Setting {
    let mut setting = match r.below(100) {
        0..=47 => market(r, records),
        48..=69 => lattice(r, records),
        70..=85 => wide(r, records),
        86..=94 => held(r, records),
        _ => edges::anything(r, records),
    };
    number(r, &mut setting);
    setting
}

/// The ids: rising, falling, mixed, or a few that repeat. The requested one is listed more often than not.
fn number(r: &mut Random, setting: &mut Setting) {
    let n = setting.models.len();
    let order = match r.below(6) {
        0 => (0..n).rev().collect(),
        1 => r.order(n),
        2 => (0..n).map(|_| r.place(3)).collect(),
        _ => (0..n).collect(),
    };
    // Id 0 is listed now and then: nothing but `trust` refuses it.
    let first = u32::from(!r.one_in(8));
    for (model, at) in setting.models.iter_mut().zip(order) {
        model.model_id = first + at as u32;
    }
    setting.request.requested_model_id = edges::id(r, &setting.models);
}

/// A request without limits of its own on any model.
fn open_request(r: &mut Random) -> KernelInput {
    KernelInput {
        request_sequence: r.wide(64),
        requested_model_id: 0,
        input_tokens: 1_000_000,
        output_tokens: 0,
        business_value_microunits: 10_000,
        budget_limit_microunits: u64::MAX,
        risk_bps: 0,
        confidence_bps: 10_000,
        minimum_quality_bps: 0,
        max_p95_latency_ms: 0,
        required_capabilities: 0,
        allowed_provider_mask: ALL_PROVIDERS,
        required_region_mask: 0,
    }
}

/// A model that no gate refuses, and that costs nothing.
fn open_model() -> KernelModel {
    KernelModel {
        model_id: 0,
        provider_id: 0,
        quality_bps: 10_000,
        risk_ceiling_bps: u16::MAX,
        enabled: 1,
        p95_latency_ms: 0,
        capabilities: u64::MAX,
        region_mask: u64::MAX,
        input_cost_microunits_per_million_tokens: 0,
        output_cost_microunits_per_million_tokens: 0,
    }
}

fn policy(r: &mut Random, hard_risk: u16, confidence: u16, multiplier: u16, penalty: u64) -> Policy {
    Policy {
        policy_epoch: r.wide(64),
        catalog_epoch: r.wide(64),
        hard_risk_limit_bps: hard_risk,
        minimum_confidence_bps: confidence,
        risk_penalty_multiplier_bps: multiplier,
        latency_penalty_microunits_per_ms: penalty,
        rounding: Rounding::Apart,
        latency_allowance_ms: 0,
    }
}

/// Prices, delays and limits as they may occur: each gate refuses a few.
fn market(r: &mut Random, records: usize) -> Setting {
    let (hard_risk, confidence) = (r.pick(&[9_000, 7_500, 10_000]), r.pick(&[2_000, 0, 4_000]));
    let (multiplier, penalty) = (r.pick(&[10_000, 10_000, 5_000, 20_000]), r.between(0, 20));
    let request = KernelInput {
        input_tokens: r.between(1, 3_000) as u32,
        output_tokens: r.between(1, 3_000) as u32,
        business_value_microunits: r.between(60_000, 300_000) as i64,
        budget_limit_microunits: r.between(10_000, 90_000),
        risk_bps: r.between(0, 3_000) as u16,
        confidence_bps: r.between(5_000, 10_000) as u16,
        minimum_quality_bps: r.between(2_000, 6_000) as u16,
        max_p95_latency_ms: r.pick(&[0, 0, 800, 950]),
        required_capabilities: r.pick(&[0, 1, 1, 3]),
        allowed_provider_mask: r.pick(&[ALL_PROVIDERS, ALL_PROVIDERS, 0x7f, 0xb7]),
        required_region_mask: r.pick(&[0, 1, 6]),
        ..open_request(r)
    };
    let models = (0..records).map(|_| market_model(r)).collect();
    Setting { policy: policy(r, hard_risk, confidence, multiplier, penalty), request, models }
}

fn market_model(r: &mut Random) -> KernelModel {
    KernelModel {
        model_id: 0,
        provider_id: if r.one_in(24) { edges::provider(r) } else { r.below(8) as u16 },
        quality_bps: r.between(4_500, 9_900) as u16,
        risk_ceiling_bps: r.between(1_500, 8_000) as u16,
        enabled: if r.one_in(8) { edges::enabled(r) } else { 1 },
        p95_latency_ms: r.between(20, 1_000) as u32,
        capabilities: r.pick(&[1, 3, 3, 3, 7, 7, 7, 7, 4]),
        region_mask: r.pick(&[1, 3, 3, 7, 7, 7, 7, 2]),
        input_cost_microunits_per_million_tokens: r.between(100_000, 9_000_000),
        output_cost_microunits_per_million_tokens: r.between(100_000, 12_000_000),
    }
}

/// A million tokens, a penalty of 1 and a value of 10,000 make quality, price and delay whole steps of the utility: models that
/// differ by a step in each often meet in utility, cost, quality or all of them.
fn lattice(r: &mut Random, records: usize) -> Setting {
    let steps = r.pick(&[1, 1, 2, 3]);
    let mut request = open_request(r);
    request.output_tokens = r.pick(&[0, 0, 1_000_000]);
    request.minimum_quality_bps = r.pick(&[0, 5_000]);
    request.max_p95_latency_ms = r.pick(&[0, 0, 102]);
    request.budget_limit_microunits = r.pick(&[u64::MAX, 102, 205]);
    let model = |r: &mut Random| KernelModel {
        quality_bps: r.between(5_000, 5_000 + steps) as u16,
        p95_latency_ms: r.between(100, 100 + steps) as u32,
        input_cost_microunits_per_million_tokens: r.between(100, 100 + steps),
        output_cost_microunits_per_million_tokens: r.between(100, 101),
        ..open_model()
    };
    let models = (0..records).map(|_| model(r)).collect();
    Setting { policy: policy(r, 9_000, 2_000, 10_000, 1), request, models }
}

/// Numbers of any width where no gate stands in the way: products and sums on both sides of 2^64.
fn wide(r: &mut Random, records: usize) -> Setting {
    let bits = r.pick(&[0, 8, 20, 48, 64]);
    let (multiplier, penalty) = (r.wide(16) as u16, r.wide(bits));
    let budget = r.wide(64).max(r.wide(64));
    let request = KernelInput {
        input_tokens: r.wide(32) as u32,
        output_tokens: r.wide(32) as u32,
        business_value_microunits: r.wide(63).max(r.wide(63)) as i64,
        budget_limit_microunits: r.pick(&[u64::MAX, budget]),
        risk_bps: r.pick(&[0, 0, 1, 100, 10_000, 65_534]),
        confidence_bps: wide_bps(r),
        ..open_request(r)
    };
    let model = |r: &mut Random| KernelModel {
        quality_bps: wide_bps(r),
        p95_latency_ms: r.wide(32) as u32,
        input_cost_microunits_per_million_tokens: r.wide(64),
        output_cost_microunits_per_million_tokens: r.wide(64),
        ..open_model()
    };
    let models = (0..records).map(|_| model(r)).collect();
    Setting { policy: policy(r, u16::MAX, 0, multiplier, penalty), request, models }
}

fn wide_bps(r: &mut Random) -> u16 {
    let any = r.wide(16) as u16;
    r.pick(&[10_000, 65_534, 65_535, any])
}

/// Values so large that utilities meet at 2^63 - 1, where the cost decides, and costs that meet at 2^64 - 1.
fn held(r: &mut Random, records: usize) -> Setting {
    let penalty = r.pick(&[0, 1, 1 << 32]);
    let request = KernelInput {
        input_tokens: r.pick(&[1, 1_000_000, u32::MAX]),
        output_tokens: r.pick(&[0, 1, 1_000_000, u32::MAX]),
        business_value_microunits: i64::MAX - r.wide(62) as i64,
        budget_limit_microunits: u64::MAX - r.below(2),
        risk_bps: r.pick(&[0, 0, 10_000]),
        confidence_bps: r.pick(&[10_000, 30_000, 65_535]),
        ..open_request(r)
    };
    let model = |r: &mut Random| KernelModel {
        quality_bps: r.pick(&[9_999, 10_000, 10_001, 40_000, 65_534, 65_535]),
        p95_latency_ms: r.pick(&[0, 0, 1, u32::MAX]),
        input_cost_microunits_per_million_tokens: r.pick(&edges::AMOUNTS),
        output_cost_microunits_per_million_tokens: r.pick(&edges::AMOUNTS),
        ..open_model()
    };
    let models = (0..records).map(|_| model(r)).collect();
    Setting { policy: policy(r, u16::MAX, 0, 10_000, penalty), request, models }
}
