//! Where a decision turns, by one lever of one model at a time.
use crate::decision::{KernelDecision, KernelReason};
use crate::layout::{broken, Fields, BOUNDARY_BYTES};

/// Today's price in the unit of [`Lever::PriceScalePpm`].
pub const PPM: u64 = 1_000_000;
/// The highest price scale that a margin looks at.
pub const MAX_PRICE_SCALE_PPM: u64 = 1_000 * PPM;

/// What is moved.
#[repr(u8)]
#[derive(Clone, Copy, Debug, PartialEq, Eq, Hash)]
pub enum Lever {
    QualityBps = 1,
    P95LatencyMs = 2,
    /// Both prices, in millionths of today's.
    PriceScalePpm = 3,
    RiskCeilingBps = 4,
    Enabled = 5,
}

/// Where one lever would have to stand, or may stand at most.
#[derive(Clone, Copy, Debug, PartialEq, Eq)]
pub struct Requirement {
    pub lever: Lever,
    /// Where it stands today.
    pub current: u64,
    /// The setting nearest to today's at which the model is selected; in a margin the furthest at which it still is.
    pub boundary: u64,
    /// What the model costs there; the price lever alone tells it.
    pub cost_at_boundary_microunits: Option<u64>,
}

/// What would make a model win.
#[derive(Clone, Debug, PartialEq, Eq)]
pub struct Counterfactual {
    pub model_id: u32,
    /// The decision as it stands.
    pub decision: KernelDecision,
    /// The reason, where the request itself is stopped; no lever helps then.
    pub blocked_by_request: Option<KernelReason>,
    /// The levers that do it alone, in the order of [`Lever`]. None where the model is selected already.
    pub levers: Vec<Requirement>,
    /// The decisions that the search took, the opening one included.
    pub passes: u64,
}

/// How far the selected model's levers can move before it loses.
#[derive(Clone, Debug, PartialEq, Eq)]
pub struct Margin {
    pub model_id: u32,
    pub decision: KernelDecision,
    /// A lever that isn't here cannot make the model lose.
    pub levers: Vec<Requirement>,
    /// The decisions that the search took, the opening one included.
    pub passes: u64,
}

impl Lever {
    fn numbered(number: u8) -> Self {
        match number {
            1 => Lever::QualityBps,
            2 => Lever::P95LatencyMs,
            3 => Lever::PriceScalePpm,
            4 => Lever::RiskCeilingBps,
            5 => Lever::Enabled,
            _ => broken("a lever that has no name"),
        }
    }

    pub const fn number(self) -> u8 {
        self as u8
    }
}

impl Requirement {
    fn taken(fields: &mut Fields) -> Self {
        let (lever, current, boundary) = (Lever::numbered(fields.u8()), fields.u64(), fields.u64());
        let (priced, cost) = (fields.u8(), fields.u64());
        Requirement { lever, current, boundary, cost_at_boundary_microunits: (priced != 0).then_some(cost) }
    }
}

impl Counterfactual {
    /// What the 183 bytes of either search tell.
    pub(crate) fn told(answer: &[u8; BOUNDARY_BYTES]) -> Self {
        let mut fields = Fields(answer);
        let decision = KernelDecision::taken(&mut fields);
        let (model_id, blocked, count) = (fields.u32(), fields.u8(), fields.u8());
        let passes = fields.u64();
        Counterfactual {
            model_id,
            decision,
            blocked_by_request: (blocked != 0).then_some(decision.reason),
            levers: (0..count).map(|_| Requirement::taken(&mut fields)).collect(),
            passes,
        }
    }
}

impl From<Counterfactual> for Margin {
    fn from(answer: Counterfactual) -> Self {
        let Counterfactual { model_id, decision, levers, passes, .. } = answer;
        Margin { model_id, decision, levers, passes }
    }
}
