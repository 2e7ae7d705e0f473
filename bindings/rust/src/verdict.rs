//! What became of each model of a bank.
use crate::decision::KernelDecision;
use crate::layout::{Fields, EXPLANATION_BYTES};

/// The gates in the order in which a model meets them.
#[repr(u8)]
#[derive(Clone, Copy, Debug, PartialEq, Eq, Hash)]
pub enum GateKind {
    Disabled = 1,
    Quality = 2,
    Latency = 3,
    Capability = 4,
    /// A provider that no mask has a bit for.
    ProviderUnrepresentable = 5,
    ProviderNotAllowed = 6,
    Region = 7,
    RiskCeiling = 8,
}

/// A utility and the terms it was made of: quality less risk, cost and latency, held within `i64`.
#[derive(Clone, Copy, Debug, PartialEq, Eq)]
pub struct UtilityTerms {
    pub quality_adjusted: i128,
    pub risk_penalty: i128,
    pub cost_microunits: u64,
    pub latency_penalty: i128,
    pub utility: i64,
}

/// What became of one model.
#[derive(Clone, Copy, Debug, PartialEq, Eq)]
pub enum CandidateVerdict {
    /// The first gate that it failed, with the two numbers that the gate compared.
    Rejected {
        gate: GateKind,
        measured: u64,
        limit: u64,
    },
    OverBudget {
        cost_microunits: u64,
        limit_microunits: u64,
    },
    NonPositiveUtility(UtilityTerms),
    Eligible(UtilityTerms),
}

/// One entry of an explanation.
#[derive(Clone, Copy, Debug, PartialEq, Eq)]
pub struct CandidateExplanation {
    pub model_id: u32,
    /// Its place in the bank.
    pub model_index: u16,
    pub verdict: CandidateVerdict,
}

/// A decision with an entry for each model, in the bank's order; none where the request itself is stopped.
#[derive(Clone, Debug, PartialEq, Eq)]
pub struct Explanation {
    pub decision: KernelDecision,
    pub candidates: Vec<CandidateExplanation>,
}

impl Explanation {
    /// The entries that were ranked.
    pub fn eligible(&self) -> impl Iterator<Item = &CandidateExplanation> {
        self.candidates.iter().filter(|entry| matches!(entry.verdict, CandidateVerdict::Eligible(_)))
    }
}

impl GateKind {
    fn numbered(number: u8) -> Option<Self> {
        Some(match number {
            1 => GateKind::Disabled,
            2 => GateKind::Quality,
            3 => GateKind::Latency,
            4 => GateKind::Capability,
            5 => GateKind::ProviderUnrepresentable,
            6 => GateKind::ProviderNotAllowed,
            7 => GateKind::Region,
            8 => GateKind::RiskCeiling,
            _ => return None,
        })
    }

    pub const fn number(self) -> u8 {
        self as u8
    }
}

impl CandidateExplanation {
    /// The entry that 72 bytes tell; `None` where their verdict, gate or numbers are none that a call writes.
    pub fn from_bytes(entry: &[u8; EXPLANATION_BYTES]) -> Option<Self> {
        let mut fields = Fields(entry);
        let (model_id, model_index) = (fields.u32(), fields.u16());
        let verdict = match (fields.u8(), fields.u8()) {
            (1, gate) => CandidateVerdict::Rejected {
                gate: GateKind::numbered(gate)?,
                measured: fields.wide_u64()?,
                limit: fields.wide_u64()?,
            },
            (2, 0) => CandidateVerdict::OverBudget {
                cost_microunits: fields.wide_u64()?,
                limit_microunits: fields.wide_u64()?,
            },
            (3, 0) => CandidateVerdict::NonPositiveUtility(UtilityTerms::taken(&mut fields)),
            (4, 0) => CandidateVerdict::Eligible(UtilityTerms::taken(&mut fields)),
            _ => return None,
        };
        Some(CandidateExplanation { model_id, model_index, verdict })
    }
}

impl UtilityTerms {
    fn taken(fields: &mut Fields) -> Self {
        UtilityTerms {
            quality_adjusted: fields.i128(),
            risk_penalty: fields.i128(),
            cost_microunits: fields.u64(),
            latency_penalty: fields.i128(),
            utility: fields.i64(),
        }
    }
}
