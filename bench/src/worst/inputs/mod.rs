//! Inputs that make a call take long, each by the number of its records. What most of them share: every record passes all eight gates, is paid by
//! three long divisions (a price from 2^40 on, which takes the other one with it, and a value from 2^48 on) and is eligible; and the policy has an
//! allowance, and so the most bytes that one has.
mod catalogues;
mod decisions;
mod live;
mod rows;
mod searches;
mod single;

pub use catalogues::*;
pub use decisions::*;
pub use live::*;
pub use rows::*;
pub use searches::*;
pub use single::*;

use compare::case::{Case, Listed};
use compare::generate::live::FREE;
use compare::generate::random::Random;
use compare::generate::Setting;
use compare::second::bytes::{bank_bytes, Policy, POLICY_BYTES, RECORD_BYTES, REQUEST_BYTES, ROUNDED_POLICY_BYTES};
use compare::second::rules::Rounding;
use oracle::kernel::{KernelInput, KernelModel};

/// A price from which on a cost takes the long way, where there are fewer than 2^24 tokens. With the input's price just below it, both are tested.
pub(super) const LONG_PRICE: u64 = 1 << 40;
pub(super) const TOKENS: u32 = 1_000_000;
/// With it a quality of 1 is worth 2 * 10^14, and one of 65,535 less than 2^64.
pub(super) const VALUE: i64 = 2_000_000_000_000_000_000;
/// Every record's latency is just this, so that it is taken off and nothing is left to be charged.
pub(super) const ALLOWANCE: u32 = 1;
pub(super) const ENTRY_BYTES: usize = 72;
pub(super) const VERDICT_AT: usize = 6;
pub(super) const ELIGIBLE: u8 = 4;
/// The catalogue epoch in a policy.
pub(super) const EPOCH_AT: usize = 8;
/// The minimum quality in a request.
pub(super) const QUALITY_AT: usize = 40;

/// In which order the ids stand.
#[derive(Clone, Copy)]
pub enum Ids {
    Ascending,
    /// Each takes the first place from the one before, by its id alone.
    Descending,
    /// The first has the lowest, the others descend: each takes the second place by its id alone.
    LowestThenDescending,
    /// The lowest stands last but one, the lowest but one first, and the others descend: each of these takes the second place by its id alone, and
    /// the chosen one is found late.
    LowestLate,
    /// They ascend, but for the last one, which has the lowest.
    LowestLast,
    Shuffled,
    All(u32),
}

impl Ids {
    fn list(self, n: usize) -> Vec<u32> {
        let many = n as u32;
        match self {
            Ids::Ascending => (1..=many).collect(),
            Ids::Descending => (1..=many).rev().collect(),
            Ids::LowestThenDescending => [1].into_iter().chain((2..=many).rev()).collect(),
            Ids::LowestLate => [2].into_iter().chain((4..=many).rev()).chain([1, 3]).take(n).collect(),
            Ids::LowestLast => (2..=many).chain([1]).collect(),
            Ids::Shuffled => Random::new(7).order(n).into_iter().map(|at| 1 + at as u32).collect(),
            Ids::All(id) => vec![id; n],
        }
    }
}

pub(super) fn policy(penalty: u64) -> Policy {
    Policy {
        policy_epoch: u64::MAX,
        catalog_epoch: u64::MAX - 1,
        hard_risk_limit_bps: 10_000,
        minimum_confidence_bps: 0,
        risk_penalty_multiplier_bps: 0,
        latency_penalty_microunits_per_ms: penalty,
        rounding: Rounding::Apart,
        latency_allowance_ms: ALLOWANCE,
    }
}

/// Nothing is asked that a record of `model` lacks, and everything is asked that there is.
pub(super) fn request() -> KernelInput {
    KernelInput {
        request_sequence: u64::MAX,
        requested_model_id: u32::MAX,
        input_tokens: TOKENS,
        output_tokens: TOKENS,
        business_value_microunits: VALUE,
        budget_limit_microunits: u64::MAX,
        risk_bps: 1,
        confidence_bps: 10_000,
        minimum_quality_bps: 0,
        max_p95_latency_ms: u32::MAX,
        required_capabilities: u64::MAX,
        allowed_provider_mask: u64::MAX,
        required_region_mask: u64::MAX,
    }
}

pub(super) fn model(id: u32) -> KernelModel {
    KernelModel {
        model_id: id,
        provider_id: 63,
        quality_bps: 1,
        risk_ceiling_bps: 10_000,
        enabled: 1,
        p95_latency_ms: ALLOWANCE,
        capabilities: u64::MAX,
        region_mask: u64::MAX,
        input_cost_microunits_per_million_tokens: LONG_PRICE - 1,
        output_cost_microunits_per_million_tokens: LONG_PRICE,
    }
}

/// Records that differ in their ids alone.
pub(super) fn alike(n: usize, ids: Ids) -> Setting {
    Setting { policy: policy(1), request: request(), models: ids.list(n).into_iter().map(model).collect() }
}

/// The policy's first bytes alone, which say no allowance.
pub(super) fn shortened(case: Case, bytes: usize) -> Case {
    Case { policy: case.policy[..bytes].to_vec(), ..case }
}

/// Asked about the last record.
pub(super) fn about_last(setting: Setting) -> Case {
    let last = setting.models.last().expect("there is a record").model_id;
    setting.case(last)
}
