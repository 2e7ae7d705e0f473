//! What is decided on: models, requests, and policies, with their packed bytes.
use crate::layout::{
    broken, Fields, Packed, LONGEST_POLICY_BYTES, POLICY_BYTES, RECORD_BYTES, REQUEST_BYTES, ROUNDED_POLICY_BYTES,
};
use crate::refusal::Refusal;

/// A mask that lets every provider in.
pub const ALL_PROVIDERS: u64 = u64::MAX;
/// A mask with every region's bit.
pub const ALL_REGIONS: u64 = u64::MAX;
/// The largest provider that a mask has a bit for.
pub const MAX_PROVIDER_ID: u16 = 63;
/// The most models that a call takes.
pub const MAX_CATALOG_MODELS: usize = u16::MAX as usize;
/// The most models that one stored form holds.
pub const MAX_STORED_MODELS: usize = 1_394;
/// The largest sound value of a number in basis points.
pub const MAX_BPS: u16 = 10_000;
/// The largest sound [`PolicySnapshot::risk_penalty_multiplier_bps`].
pub const MAX_RISK_PENALTY_MULTIPLIER_BPS: u16 = 50_000;

/// A model that may be chosen. Any value of any field may be asked about; [`PolicySnapshot::validate`] says which ones may serve.
#[derive(Clone, Copy, Debug, PartialEq, Eq)]
pub struct KernelModel {
    pub model_id: u32,
    pub provider_id: u16,
    pub quality_bps: u16,
    /// The highest risk of a request that this model takes.
    pub risk_ceiling_bps: u16,
    /// 0 is off, anything else on. A trusted bank has 0 and 1 alone.
    pub enabled: u8,
    pub p95_latency_ms: u32,
    /// A bit for each capability that the model has.
    pub capabilities: u64,
    /// A bit for each region that the model serves.
    pub region_mask: u64,
    pub input_cost_microunits_per_million_tokens: u64,
    pub output_cost_microunits_per_million_tokens: u64,
}

/// A request for one decision.
#[derive(Clone, Copy, Debug, PartialEq, Eq)]
pub struct KernelInput {
    /// Comes back in the decision.
    pub request_sequence: u64,
    pub requested_model_id: u32,
    pub input_tokens: u32,
    pub output_tokens: u32,
    pub business_value_microunits: i64,
    pub budget_limit_microunits: u64,
    pub risk_bps: u16,
    pub confidence_bps: u16,
    pub minimum_quality_bps: u16,
    /// 0 sets no limit.
    pub max_p95_latency_ms: u32,
    /// All of these bits are needed.
    pub required_capabilities: u64,
    /// [`ALL_PROVIDERS`] bars none.
    pub allowed_provider_mask: u64,
    /// One of these bits is needed; 0 asks for none.
    pub required_region_mask: u64,
}

/// How a cost is rounded up to whole microunits: tokens times price, by the million tokens, both ways.
#[repr(u8)]
#[derive(Clone, Copy, Debug, Default, PartialEq, Eq, Hash)]
pub enum Rounding {
    /// Input and output each by itself, before they are added, as the Rust that was ported does.
    #[default]
    Apart = 0,
    /// Their sum, once.
    Once = 1,
}

/// The six numbers of a policy, how it rounds, and its allowance. The models stand beside it, in a bank.
#[derive(Clone, Copy, Debug, PartialEq, Eq)]
pub struct PolicySnapshot {
    pub policy_epoch: u64,
    pub catalog_epoch: u64,
    /// A request with this risk or more is rejected at once.
    pub hard_risk_limit_bps: u16,
    /// A request with less confidence is rejected at once.
    pub minimum_confidence_bps: u16,
    pub risk_penalty_multiplier_bps: u16,
    /// For each millisecond of a model's latency above the allowance.
    pub latency_penalty_microunits_per_ms: u64,
    /// Not in the Rust that was ported, which rounds apart.
    pub rounding: Rounding,
    /// So many milliseconds of a model's latency are free; 0 is none. A request's limit is held against the full latency. Not in the Rust that was
    /// ported, which charges each.
    pub latency_allowance_ms: u32,
}

impl KernelModel {
    pub fn to_bytes(&self) -> [u8; RECORD_BYTES] {
        Packed::new()
            .and(self.model_id.to_le_bytes())
            .and(self.provider_id.to_le_bytes())
            .and(self.quality_bps.to_le_bytes())
            .and(self.risk_ceiling_bps.to_le_bytes())
            .and([self.enabled])
            .and(self.p95_latency_ms.to_le_bytes())
            .and(self.capabilities.to_le_bytes())
            .and(self.region_mask.to_le_bytes())
            .and(self.input_cost_microunits_per_million_tokens.to_le_bytes())
            .and(self.output_cost_microunits_per_million_tokens.to_le_bytes())
            .whole()
    }

    /// Any 47 bytes are a model.
    pub fn from_bytes(record: &[u8; RECORD_BYTES]) -> Self {
        let mut fields = Fields(record);
        KernelModel {
            model_id: fields.u32(),
            provider_id: fields.u16(),
            quality_bps: fields.u16(),
            risk_ceiling_bps: fields.u16(),
            enabled: fields.u8(),
            p95_latency_ms: fields.u32(),
            capabilities: fields.u64(),
            region_mask: fields.u64(),
            input_cost_microunits_per_million_tokens: fields.u64(),
            output_cost_microunits_per_million_tokens: fields.u64(),
        }
    }
}

impl KernelInput {
    pub fn to_bytes(&self) -> [u8; REQUEST_BYTES] {
        Packed::new()
            .and(self.request_sequence.to_le_bytes())
            .and(self.requested_model_id.to_le_bytes())
            .and(self.input_tokens.to_le_bytes())
            .and(self.output_tokens.to_le_bytes())
            .and(self.business_value_microunits.to_le_bytes())
            .and(self.budget_limit_microunits.to_le_bytes())
            .and(self.risk_bps.to_le_bytes())
            .and(self.confidence_bps.to_le_bytes())
            .and(self.minimum_quality_bps.to_le_bytes())
            .and(self.max_p95_latency_ms.to_le_bytes())
            .and(self.required_capabilities.to_le_bytes())
            .and(self.allowed_provider_mask.to_le_bytes())
            .and(self.required_region_mask.to_le_bytes())
            .whole()
    }

    /// Any 70 bytes are a request.
    pub fn from_bytes(request: &[u8; REQUEST_BYTES]) -> Self {
        let mut fields = Fields(request);
        KernelInput {
            request_sequence: fields.u64(),
            requested_model_id: fields.u32(),
            input_tokens: fields.u32(),
            output_tokens: fields.u32(),
            business_value_microunits: fields.i64(),
            budget_limit_microunits: fields.u64(),
            risk_bps: fields.u16(),
            confidence_bps: fields.u16(),
            minimum_quality_bps: fields.u16(),
            max_p95_latency_ms: fields.u32(),
            required_capabilities: fields.u64(),
            allowed_provider_mask: fields.u64(),
            required_region_mask: fields.u64(),
        }
    }
}

impl Rounding {
    fn numbered(number: u8) -> Option<Self> {
        match number {
            0 => Some(Rounding::Apart),
            1 => Some(Rounding::Once),
            _ => None,
        }
    }

    pub const fn number(self) -> u8 {
        self as u8
    }
}

impl PolicySnapshot {
    pub fn to_bytes(&self) -> [u8; LONGEST_POLICY_BYTES] {
        Packed::new()
            .and(self.policy_epoch.to_le_bytes())
            .and(self.catalog_epoch.to_le_bytes())
            .and(self.hard_risk_limit_bps.to_le_bytes())
            .and(self.minimum_confidence_bps.to_le_bytes())
            .and(self.risk_penalty_multiplier_bps.to_le_bytes())
            .and(self.latency_penalty_microunits_per_ms.to_le_bytes())
            .and([self.rounding.number()])
            .and(self.latency_allowance_ms.to_le_bytes())
            .whole()
    }

    /// Any 30 bytes are a policy that rounds apart and has no allowance; any 31 one that rounds as the last of them says, where that is 0 or 1; and any
    /// 35 one that rounds as the 31st says, with the last four for its allowance. Refusals, as of a call that is lent them: 22, 23.
    pub fn from_bytes(policy: &[u8]) -> Result<Self, Refusal> {
        if ![POLICY_BYTES, ROUNDED_POLICY_BYTES, LONGEST_POLICY_BYTES].contains(&policy.len()) {
            return Err(Refusal::WrongLength);
        }
        let mut fields = Fields(policy);
        let mut read = PolicySnapshot::numbers(&mut fields);
        if policy.len() >= ROUNDED_POLICY_BYTES {
            read.rounding = Rounding::numbered(fields.u8()).ok_or(Refusal::UnknownRounding)?;
        }
        if policy.len() == LONGEST_POLICY_BYTES {
            read.latency_allowance_ms = fields.u32();
        }
        Ok(read)
    }

    /// What the 35 bytes tell in which the library hands a policy back.
    pub(crate) fn taken(fields: &mut Fields) -> Self {
        let numbers = PolicySnapshot::numbers(fields);
        let rounding = Rounding::numbered(fields.u8()).unwrap_or_else(|| broken("a rounding that has no name"));
        PolicySnapshot { rounding, latency_allowance_ms: fields.u32(), ..numbers }
    }

    fn numbers(fields: &mut Fields) -> Self {
        PolicySnapshot {
            policy_epoch: fields.u64(),
            catalog_epoch: fields.u64(),
            hard_risk_limit_bps: fields.u16(),
            minimum_confidence_bps: fields.u16(),
            risk_penalty_multiplier_bps: fields.u16(),
            latency_penalty_microunits_per_ms: fields.u64(),
            rounding: Rounding::Apart,
            latency_allowance_ms: 0,
        }
    }
}
