//! What is decided.
use crate::layout::{broken, Fields};

/// What to do with a request.
#[repr(u8)]
#[derive(Clone, Copy, Debug, PartialEq, Eq, Hash)]
pub enum KernelAction {
    ExecuteRequested = 1,
    Substitute = 2,
    Reject = 3,
}

/// Why.
#[repr(u16)]
#[derive(Clone, Copy, Debug, PartialEq, Eq, Hash)]
pub enum KernelReason {
    RequestedModelMaximizesUtility = 1,
    AlternativeMaximizesUtility = 2,
    /// The request's risk is at the policy's limit or above it.
    RiskHardLimit = 100,
    /// The request's confidence is below the policy's minimum.
    ConfidenceHardLimit = 101,
    NoEnabledModel = 102,
    QualityConstraint = 103,
    LatencyConstraint = 104,
    CapabilityConstraint = 105,
    ProviderConstraint = 106,
    RegionConstraint = 107,
    BudgetConstraint = 108,
    NonPositiveUtility = 109,
    RiskCeilingConstraint = 110,
}

/// A decision. A rejection has model 0, place 65,535, and cost and utilities 0.
#[derive(Clone, Copy, Debug, PartialEq, Eq)]
pub struct KernelDecision {
    pub request_sequence: u64,
    pub action: KernelAction,
    pub reason: KernelReason,
    pub selected_model_id: u32,
    /// Its place in the bank.
    pub selected_model_index: u16,
    pub estimated_cost_microunits: u64,
    pub expected_utility_microunits: i64,
    /// The second best model, 0 if there is none.
    pub counterfactual_model_id: u32,
    pub counterfactual_utility_microunits: i64,
    pub evaluated_models: u16,
    pub eligible_models: u16,
    pub policy_epoch: u64,
    pub catalog_epoch: u64,
}

/// How many models fell out, and by what.
#[derive(Clone, Copy, Debug, Default, PartialEq, Eq)]
pub struct RejectionHistogram {
    pub disabled: u16,
    pub quality: u16,
    pub risk_ceiling: u16,
    pub latency: u16,
    pub capability: u16,
    pub provider: u16,
    pub region: u16,
    pub budget: u16,
    pub utility: u16,
}

/// The counts beside a decision.
#[derive(Clone, Copy, Debug, PartialEq, Eq)]
pub struct DecisionTrace {
    pub rejections: RejectionHistogram,
    pub evaluated_models: u16,
    pub eligible_models: u16,
}

impl KernelAction {
    pub(crate) fn numbered(number: u8) -> Self {
        match number {
            1 => KernelAction::ExecuteRequested,
            2 => KernelAction::Substitute,
            3 => KernelAction::Reject,
            _ => broken("an action that has no name"),
        }
    }

    pub const fn number(self) -> u8 {
        self as u8
    }
}

impl KernelReason {
    pub(crate) fn numbered(number: u16) -> Self {
        match number {
            1 => KernelReason::RequestedModelMaximizesUtility,
            2 => KernelReason::AlternativeMaximizesUtility,
            100 => KernelReason::RiskHardLimit,
            101 => KernelReason::ConfidenceHardLimit,
            102 => KernelReason::NoEnabledModel,
            103 => KernelReason::QualityConstraint,
            104 => KernelReason::LatencyConstraint,
            105 => KernelReason::CapabilityConstraint,
            106 => KernelReason::ProviderConstraint,
            107 => KernelReason::RegionConstraint,
            108 => KernelReason::BudgetConstraint,
            109 => KernelReason::NonPositiveUtility,
            110 => KernelReason::RiskCeilingConstraint,
            _ => broken("a reason that has no name"),
        }
    }

    pub const fn number(self) -> u16 {
        self as u16
    }

    /// Whether the request was stopped before any model was looked at.
    pub const fn stops_request(self) -> bool {
        matches!(self, KernelReason::RiskHardLimit | KernelReason::ConfidenceHardLimit)
    }
}

impl KernelDecision {
    /// Whether a model was selected.
    pub const fn is_executable(&self) -> bool {
        !self.is_rejected()
    }

    /// Whether it is the requested one.
    pub const fn is_requested_execution(&self) -> bool {
        matches!(self.action, KernelAction::ExecuteRequested)
    }

    /// Whether it is another one.
    pub const fn is_substitution(&self) -> bool {
        matches!(self.action, KernelAction::Substitute)
    }

    /// Whether none was selected.
    pub const fn is_rejected(&self) -> bool {
        matches!(self.action, KernelAction::Reject)
    }

    pub(crate) fn taken(fields: &mut Fields) -> Self {
        KernelDecision {
            request_sequence: fields.u64(),
            action: KernelAction::numbered(fields.u8()),
            reason: KernelReason::numbered(fields.u16()),
            selected_model_id: fields.u32(),
            selected_model_index: fields.u16(),
            estimated_cost_microunits: fields.u64(),
            expected_utility_microunits: fields.i64(),
            counterfactual_model_id: fields.u32(),
            counterfactual_utility_microunits: fields.i64(),
            evaluated_models: fields.u16(),
            eligible_models: fields.u16(),
            policy_epoch: fields.u64(),
            catalog_epoch: fields.u64(),
        }
    }
}

impl RejectionHistogram {
    pub(crate) fn taken(fields: &mut Fields) -> Self {
        RejectionHistogram {
            disabled: fields.u16(),
            quality: fields.u16(),
            risk_ceiling: fields.u16(),
            latency: fields.u16(),
            capability: fields.u16(),
            provider: fields.u16(),
            region: fields.u16(),
            budget: fields.u16(),
            utility: fields.u16(),
        }
    }
}
