//! A safe face on `libvolankizo.a`, the proved port of a decision kernel.
//!
//! Names and fields are those of the Rust that was ported; the models stand in a bank of packed bytes beside the policy, so a call
//! takes both. A call either answers or tells the [`Refusal`]; no bytes make one panic. Each call's refusals are listed in the order in
//! which the first one found comes back. [`live`] is for a bank whose models are swapped between two requests.
//!
//! ```
//! use volankizo::{Bank, KernelInput, KernelModel, PolicySnapshot, Rounding, ALL_PROVIDERS};
//!
//! let policy = PolicySnapshot {
//!     policy_epoch: 7,
//!     catalog_epoch: 3,
//!     hard_risk_limit_bps: 9_000,
//!     minimum_confidence_bps: 2_000,
//!     risk_penalty_multiplier_bps: 10_000,
//!     latency_penalty_microunits_per_ms: 10,
//!     rounding: Rounding::Apart,
//!     latency_allowance_ms: 0,
//! };
//! let mut bank = Bank::from_models(&[KernelModel {
//!     model_id: 2,
//!     provider_id: 1,
//!     quality_bps: 8_000,
//!     risk_ceiling_bps: 8_000,
//!     enabled: 1,
//!     p95_latency_ms: 50,
//!     capabilities: 1,
//!     region_mask: 1,
//!     input_cost_microunits_per_million_tokens: 1_000_000,
//!     output_cost_microunits_per_million_tokens: 2_000_000,
//! }]);
//! policy.trust(&mut bank)?;
//! let request = KernelInput {
//!     request_sequence: 42,
//!     requested_model_id: 2,
//!     input_tokens: 100,
//!     output_tokens: 100,
//!     business_value_microunits: 10_000,
//!     budget_limit_microunits: 5_000,
//!     risk_bps: 1_000,
//!     confidence_bps: 10_000,
//!     minimum_quality_bps: 5_000,
//!     max_p95_latency_ms: 0,
//!     required_capabilities: 1,
//!     allowed_provider_mask: ALL_PROVIDERS,
//!     required_region_mask: 0,
//! };
//! let decision = policy.prescribe_checked(&bank, request)?;
//! assert_eq!(decision.selected_model_id, 2);
//! assert_eq!(decision.estimated_cost_microunits, 300);
//! # Ok::<(), volankizo::Refusal>(())
//! ```
#![deny(unsafe_code)]

mod bank;
mod batch;
mod boundary;
mod calls;
mod decision;
#[allow(unsafe_code)]
pub mod ffi;
pub mod layout;
pub mod live;
mod printed;
mod records;
mod refusal;
mod stored;
mod verdict;

pub use bank::{find, models, record_at, Bank};
pub use batch::version;
pub use boundary::{Counterfactual, Lever, Margin, Requirement, MAX_PRICE_SCALE_PPM, PPM};
pub use calls::{check_request, decision_margin, next_eligible, what_would_win};
pub use decision::{DecisionTrace, KernelAction, KernelDecision, KernelReason, RejectionHistogram};
pub use printed::{ask_text, ask_words, unit_text};
pub use records::{
    KernelInput, KernelModel, PolicySnapshot, Rounding, ALL_PROVIDERS, ALL_REGIONS, MAX_BPS, MAX_CATALOG_MODELS,
    MAX_PROVIDER_ID, MAX_RISK_PENALTY_MULTIPLIER_BPS, MAX_STORED_MODELS,
};
pub use refusal::Refusal;
pub use stored::{read_request, read_stored, read_stored_into, write_request, write_stored};
pub use verdict::{CandidateExplanation, CandidateVerdict, Explanation, GateKind, UtilityTerms};
