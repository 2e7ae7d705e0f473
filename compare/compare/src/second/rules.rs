//! By which rules an answer is owed. The Rust has one set of them; a rule in which the port departs from it is named here.
use super::bytes::Policy;

/// How a cost is rounded up, by the number that a policy has for it.
#[derive(Clone, Copy, Debug, PartialEq, Eq)]
pub enum Rounding {
    /// Input and output each by itself: the Rust's way.
    Apart = 0,
    /// Their sum, once.
    Once = 1,
}

/// A field for each rule that there is another way of than the Rust's.
#[derive(Clone, Copy, Debug, PartialEq, Eq)]
pub struct Rules {
    pub rounding: Rounding,
    /// How many milliseconds of a latency are free of the penalty: none in the Rust.
    pub allowance: u32,
}

impl Rules {
    /// The Rust's own. Whatever holds for a case, the second reading must agree with the Rust by these.
    pub const RUST: Rules = Rules { rounding: Rounding::Apart, allowance: 0 };

    /// By which the library owes what is decided under a policy: those that the policy names.
    pub fn of(policy: &Policy) -> Rules {
        Rules { rounding: policy.rounding, allowance: policy.latency_allowance_ms }
    }
}
