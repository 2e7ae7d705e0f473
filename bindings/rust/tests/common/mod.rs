//! The worked example, and a seeded source of numbers.
#![allow(dead_code)]
use volankizo::live::FREE_SLOT;
use volankizo::{Bank, KernelInput, KernelModel, PolicySnapshot, Rounding, ALL_PROVIDERS};

pub const POLICY: PolicySnapshot = PolicySnapshot {
    policy_epoch: 7,
    catalog_epoch: 3,
    hard_risk_limit_bps: 9_000,
    minimum_confidence_bps: 2_000,
    risk_penalty_multiplier_bps: 10_000,
    latency_penalty_microunits_per_ms: 10,
    rounding: Rounding::Apart,
    latency_allowance_ms: 0,
};

/// The same, rounding once.
pub const ONCE: PolicySnapshot = PolicySnapshot { rounding: Rounding::Once, ..POLICY };

/// The same with 200 ms of each latency free, and rounding once too.
pub const FREE: PolicySnapshot = PolicySnapshot { latency_allowance_ms: 200, ..POLICY };
pub const FREE_ONCE: PolicySnapshot = PolicySnapshot { rounding: Rounding::Once, ..FREE };

/// Policies of every kind.
pub const EACH: [PolicySnapshot; 4] = [POLICY, ONCE, FREE, FREE_ONCE];

pub const FIRST: KernelModel = KernelModel {
    model_id: 1,
    provider_id: 0,
    quality_bps: 9_000,
    risk_ceiling_bps: 8_000,
    enabled: 1,
    p95_latency_ms: 100,
    capabilities: 3,
    region_mask: 1,
    input_cost_microunits_per_million_tokens: 3_000_000,
    output_cost_microunits_per_million_tokens: 15_000_000,
};

pub const SECOND: KernelModel = KernelModel {
    model_id: 2,
    provider_id: 1,
    quality_bps: 8_000,
    p95_latency_ms: 50,
    capabilities: 1,
    input_cost_microunits_per_million_tokens: 1_000_000,
    output_cost_microunits_per_million_tokens: 2_000_000,
    ..FIRST
};

pub const REQUEST: KernelInput = KernelInput {
    request_sequence: 42,
    requested_model_id: 1,
    input_tokens: 100,
    output_tokens: 100,
    business_value_microunits: 10_000,
    budget_limit_microunits: 5_000,
    risk_bps: 1_000,
    confidence_bps: 10_000,
    minimum_quality_bps: 5_000,
    max_p95_latency_ms: 0,
    required_capabilities: 1,
    allowed_provider_mask: ALL_PROVIDERS,
    required_region_mask: 0,
};

/// Every gate can be failed alone.
pub const STRICT: KernelInput = KernelInput {
    risk_bps: 4_000,
    max_p95_latency_ms: 200,
    required_capabilities: 3,
    allowed_provider_mask: 0b1001,
    required_region_mask: 4,
    ..REQUEST
};

/// A model that passes `STRICT`.
pub const SOUND: KernelModel = KernelModel {
    provider_id: 3,
    quality_bps: 10_000,
    risk_ceiling_bps: 5_000,
    p95_latency_ms: 150,
    region_mask: 6,
    ..FIRST
};

/// A model for each way of falling out, by the order of the counts; the sixth has two ways.
pub fn failing() -> [KernelModel; 10] {
    [
        KernelModel { enabled: 0, ..SOUND },
        KernelModel { quality_bps: 4_999, ..SOUND },
        KernelModel { risk_ceiling_bps: 3_999, ..SOUND },
        KernelModel { p95_latency_ms: 201, ..SOUND },
        KernelModel { capabilities: 5, ..SOUND },
        KernelModel { provider_id: 2, ..SOUND },
        KernelModel { region_mask: 3, ..SOUND },
        KernelModel { output_cost_microunits_per_million_tokens: 48_000_000, ..SOUND },
        KernelModel { output_cost_microunits_per_million_tokens: 45_000_000, ..SOUND },
        KernelModel { provider_id: 64, ..SOUND },
    ]
}

/// The bytes that both programs get as their example.
pub const UNIT_INPUT: &[u8] = include_bytes!("../../../../crates/unit/stdin");

pub fn example_bank() -> Bank {
    Bank::from_models(&[FIRST, SECOND])
}

/// A bank of slots, the free ones as nothing.
pub fn slots(slots: &[Option<KernelModel>]) -> Bank {
    let bytes = slots.iter().flat_map(|slot| slot.map_or(FREE_SLOT, |model| model.to_bytes()));
    Bank::from_bytes(bytes.collect())
}

/// As many models as asked for, with the ids from 1 on.
pub fn many(count: u32) -> Bank {
    (1..=count).map(|model_id| KernelModel { model_id, ..SECOND }).collect()
}

/// Numbers from a seed (splitmix64), so that a failing round can be asked again.
pub struct Source(pub u64);

impl Source {
    pub fn number(&mut self) -> u64 {
        self.0 = self.0.wrapping_add(0x9e37_79b9_7f4a_7c15);
        let mut z = self.0;
        z = (z ^ (z >> 30)).wrapping_mul(0xbf58_476d_1ce4_e5b9);
        z = (z ^ (z >> 27)).wrapping_mul(0x94d0_49bb_1331_11eb);
        z ^ (z >> 31)
    }

    pub fn below(&mut self, limit: usize) -> usize {
        (self.number() % limit as u64) as usize
    }

    /// Any bytes, half of the time mostly zeros, so that small numbers come up too.
    pub fn bytes(&mut self, length: usize) -> Vec<u8> {
        let sparse = self.below(2) == 0;
        (0..length).map(|_| if sparse && self.below(4) != 0 { 0 } else { self.number() as u8 }).collect()
    }
}
