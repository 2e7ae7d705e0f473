//! The bytes in which the two searches answer.
use super::bytes::decision_bytes;
use super::deciding::Decision;

pub const BOUNDARIES_BYTES: usize = 183;
const LEVERS_AT: usize = 79;
const LEVER_BYTES: usize = 26;

/// The levers by their numbers.
#[derive(Clone, Copy, Debug, PartialEq, Eq)]
pub enum Lever {
    Quality = 1,
    Latency = 2,
    Price = 3,
    Ceiling = 4,
    Enabled = 5,
}

/// A lever's value today and where the choice turns; for the price, the cost there.
#[derive(Clone, Copy, Debug, PartialEq, Eq)]
pub struct Boundary {
    pub lever: Lever,
    pub today: u64,
    pub bound: u64,
    pub cost: Option<u64>,
}

/// What a search answers, either of the two.
#[derive(Clone, Debug, PartialEq, Eq)]
pub struct Boundaries {
    pub model_id: u32,
    pub decision: Decision,
    /// By the request itself.
    pub stopped: bool,
    pub levers: Vec<Boundary>,
    pub passes: u64,
}

/// Unused rooms are zero.
pub fn boundaries_bytes(found: &Boundaries) -> Vec<u8> {
    let mut out = decision_bytes(&found.decision);
    out.extend(found.model_id.to_le_bytes());
    out.push(u8::from(found.stopped));
    out.push(found.levers.len() as u8);
    out.extend(found.passes.to_le_bytes());
    assert_eq!(out.len(), LEVERS_AT);
    for lever in &found.levers {
        out.push(lever.lever as u8);
        out.extend(lever.today.to_le_bytes());
        out.extend(lever.bound.to_le_bytes());
        out.push(u8::from(lever.cost.is_some()));
        out.extend(lever.cost.unwrap_or(0).to_le_bytes());
    }
    assert!(out.len() <= BOUNDARIES_BYTES, "four levers at most");
    out.resize(BOUNDARIES_BYTES, 0);
    out
}

/// The passes and the levers' numbers of an answer, for the figures.
pub fn passes_and_levers(answer: &[u8]) -> (u64, Vec<u8>) {
    let passes = u64::from_le_bytes(answer[71..LEVERS_AT].try_into().expect("8 bytes"));
    let levers = answer[LEVERS_AT..].chunks_exact(LEVER_BYTES).map(|lever| lever[0]);
    (passes, levers.filter(|number| *number != 0).collect())
}
