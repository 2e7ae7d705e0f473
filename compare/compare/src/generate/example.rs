//! Document 01's example.
use super::court::court;
use super::Setting;
use oracle::kernel::{KernelInput, KernelModel, ALL_PROVIDERS};

/// The policy, the request and the bank.
pub fn example() -> Setting {
    let mut setting = court();
    setting.policy.latency_penalty_microunits_per_ms = 10;
    setting.request = KernelInput {
        request_sequence: 42,
        requested_model_id: 1,
        input_tokens: 100,
        output_tokens: 100,
        business_value_microunits: 10_000,
        budget_limit_microunits: 5_000,
        risk_bps: 1_000,
        confidence_bps: 10_000,
        minimum_quality_bps: 5_000,
        max_p95_latency_ms: 0,
        required_capabilities: 1,
        allowed_provider_mask: ALL_PROVIDERS,
        required_region_mask: 0,
    };
    setting.models = example_models();
    setting
}

/// Its two models.
pub fn example_models() -> Vec<KernelModel> {
    let first = KernelModel {
        model_id: 1,
        provider_id: 0,
        quality_bps: 9_000,
        risk_ceiling_bps: 8_000,
        enabled: 1,
        p95_latency_ms: 100,
        capabilities: 3,
        region_mask: 1,
        input_cost_microunits_per_million_tokens: 3_000_000,
        output_cost_microunits_per_million_tokens: 15_000_000,
    };
    let second = KernelModel {
        model_id: 2,
        provider_id: 1,
        quality_bps: 8_000,
        p95_latency_ms: 50,
        capabilities: 1,
        input_cost_microunits_per_million_tokens: 1_000_000,
        output_cost_microunits_per_million_tokens: 2_000_000,
        ..first
    };
    vec![first, second]
}

/// Document 01's worked rows of one decision: (A), (D), (E), (F) twice, (G) to (K).
pub fn rows() -> [Setting; 10] {
    [
        example(),
        with_request(|q| q.risk_bps = 9_000),
        with_request(|q| q.risk_bps = 8_999),
        with_request(|q| q.confidence_bps = 1_999),
        with_request(|q| q.confidence_bps = 2_000),
        one_token_each_way(),
        with_models(|models| models.clear()),
        with_models(|models| {
            models[0].capabilities = 2;
            models[1].enabled = 0;
        }),
        with_models(|models| models.iter_mut().for_each(|m| m.provider_id = 64)),
        with_request(|q| q.business_value_microunits = -1),
    ]
}

pub fn with_request(change: fn(&mut KernelInput)) -> Setting {
    let mut setting = example();
    change(&mut setting.request);
    setting
}

pub fn with_models(change: fn(&mut Vec<KernelModel>)) -> Setting {
    let mut setting = example();
    change(&mut setting.models);
    setting
}

/// At price 1, each way is rounded up to 1.
pub fn one_token_each_way() -> Setting {
    let mut setting = with_request(|q| (q.input_tokens, q.output_tokens) = (1, 1));
    for model in &mut setting.models {
        model.input_cost_microunits_per_million_tokens = 1;
        model.output_cost_microunits_per_million_tokens = 1;
    }
    setting
}
