//! A policy and a request against which each of the nine rejections has a record of its own: what the small spaces are built from.
use super::Setting;
use crate::second::bytes::Policy;
use crate::second::rules::Rounding;
use oracle::kernel::{KernelInput, KernelModel};

/// A million input tokens and a penalty of 1 make prices and delays whole steps of the utility.
pub fn court() -> Setting {
    let policy = Policy {
        policy_epoch: 7,
        catalog_epoch: 3,
        hard_risk_limit_bps: 9_000,
        minimum_confidence_bps: 2_000,
        risk_penalty_multiplier_bps: 10_000,
        latency_penalty_microunits_per_ms: 1,
        rounding: Rounding::Apart,
        latency_allowance_ms: 0,
    };
    let request = KernelInput {
        request_sequence: 42,
        requested_model_id: 1,
        input_tokens: 1_000_000,
        output_tokens: 0,
        business_value_microunits: 10_000,
        budget_limit_microunits: 5_000,
        risk_bps: 1_000,
        confidence_bps: 10_000,
        minimum_quality_bps: 5_000,
        max_p95_latency_ms: 1_000,
        required_capabilities: 0b11,
        allowed_provider_mask: !(1 << 9),
        required_region_mask: 0b1,
    };
    Setting { policy, request, models: Vec::new() }
}

/// Passes every gate of `court` and earns 6,800.
pub fn good() -> KernelModel {
    KernelModel {
        model_id: 1,
        provider_id: 3,
        quality_bps: 8_000,
        risk_ceiling_bps: 5_000,
        enabled: 1,
        p95_latency_ms: 100,
        capabilities: 0b111,
        region_mask: 0b11,
        input_cost_microunits_per_million_tokens: 100,
        output_cost_microunits_per_million_tokens: 0,
    }
}

/// The reasons in the order of their counts.
pub const REASONS: usize = 9;

/// A record that `court` rejects for one reason, by a single step.
pub fn rejected(reason: usize) -> KernelModel {
    let mut model = good();
    match reason {
        0 => model.enabled = 0,
        1 => model.quality_bps = 4_999,
        2 => model.risk_ceiling_bps = 999,
        3 => model.p95_latency_ms = 1_001,
        4 => model.capabilities = 0b101,
        5 => model.provider_id = 9,
        6 => model.region_mask = 0b10,
        7 => model.input_cost_microunits_per_million_tokens = 5_001,
        // 7,000 less 1,000 for risk, 5,000 and 1,000 is just 0.
        _ => {
            model.quality_bps = 7_000;
            model.input_cost_microunits_per_million_tokens = 5_000;
            model.p95_latency_ms = 1_000;
        }
    }
    model
}

/// `court` over these records, numbered from 1.
pub fn over(models: Vec<KernelModel>) -> Setting {
    let numbered = models.into_iter().zip(1..).map(|(model, model_id)| KernelModel { model_id, ..model });
    Setting { models: numbered.collect(), ..court() }
}
