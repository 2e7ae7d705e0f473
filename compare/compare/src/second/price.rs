//! Document 01's numbers for one record: its cost, the terms and the utility, the cost and the latency term also as document 02 has them; and a price
//! that is scaled.
use super::bytes::Policy;
use super::rules::Rounding;
use oracle::kernel::{KernelInput, KernelModel};

/// A price is told by the million tokens, and a scale in millionths.
const MILLION: u128 = 1_000_000;
/// The whole of two shares in basis points.
const TWO_SHARES: u128 = 100_000_000;

#[derive(Clone, Copy, Debug, PartialEq, Eq)]
pub struct Terms {
    pub quality: u128,
    pub risk: u128,
    pub cost: u64,
    pub latency: u128,
    pub utility: i64,
}

pub fn cost(rounding: Rounding, m: &KernelModel, q: &KernelInput) -> u64 {
    let input = u128::from(q.input_tokens) * u128::from(m.input_cost_microunits_per_million_tokens);
    let output = u128::from(q.output_tokens) * u128::from(m.output_cost_microunits_per_million_tokens);
    at_most_u64(billed(rounding, input, output))
}

/// Two products in whole microunits, rounded up.
pub fn billed(rounding: Rounding, input: u128, output: u128) -> u128 {
    match rounding {
        Rounding::Apart => millions(input) + millions(output),
        Rounding::Once => millions(input + output),
    }
}

/// Rounded up.
fn millions(product: u128) -> u128 {
    (product + 999_999) / MILLION
}

/// Rounded down.
pub fn scaled_price(price: u64, scale: u64) -> u64 {
    at_most_u64(u128::from(price) * u128::from(scale) / MILLION)
}

fn at_most_u64(number: u128) -> u64 {
    number.try_into().unwrap_or(u64::MAX)
}

/// The terms of a record with this cost.
pub fn terms(p: &Policy, q: &KernelInput, m: &KernelModel, cost: u64) -> Terms {
    let value = u128::try_from(q.business_value_microunits).unwrap_or(0);
    let quality = value * u128::from(q.confidence_bps) * u128::from(m.quality_bps) / TWO_SHARES;
    let risk = value * u128::from(q.risk_bps) * u128::from(p.risk_penalty_multiplier_bps) / TWO_SHARES;
    let latency = charged(p, m) * u128::from(p.latency_penalty_microunits_per_ms);
    let utility = less(quality, risk + u128::from(cost) + latency);
    Terms { quality, risk, cost, latency, utility }
}

/// The milliseconds above the allowance, 0 if none.
fn charged(p: &Policy, m: &KernelModel) -> u128 {
    let (latency, allowance) = (u128::from(m.p95_latency_ms), u128::from(p.latency_allowance_ms));
    if latency > allowance {
        latency - allowance
    } else {
        0
    }
}

/// What is left, held within 64 bits with a sign.
fn less(gain: u128, loss: u128) -> i64 {
    let left = gain as i128 - loss as i128;
    left.clamp(i64::MIN.into(), i64::MAX.into()) as i64
}

#[cfg(test)]
mod tests {
    use super::*;
    use crate::generate::example::{example, one_token_each_way};

    #[test]
    fn one_token_each_way_at_price_1_is_rounded_apart_or_once() {
        let setting = one_token_each_way();
        let by = |rounding| cost(rounding, &setting.models[0], &setting.request);
        assert_eq!((by(Rounding::Apart), by(Rounding::Once)), (2, 1));
    }

    #[test]
    fn the_example_has_document_01s_numbers() {
        let setting = example();
        let costs = setting.models.iter().map(|model| cost(Rounding::Apart, model, &setting.request));
        let worth = setting.models.iter().zip([1_800, 300]);
        let worth = worth.map(|(model, cost)| terms(&setting.policy, &setting.request, model, cost).utility);
        assert_eq!((costs.collect::<Vec<_>>(), worth.collect::<Vec<_>>()), (vec![1_800, 300], vec![5_200, 6_200]));
    }

    /// 10 microunits a millisecond.
    #[test]
    fn the_milliseconds_above_the_allowance_are_charged() {
        let mut setting = example();
        let mut term = |allowance: u32, latency: u32| {
            setting.policy.latency_allowance_ms = allowance;
            setting.models[0].p95_latency_ms = latency;
            terms(&setting.policy, &setting.request, &setting.models[0], 0).latency
        };
        assert_eq!([199, 200, 201].map(|latency| term(200, latency)), [0, 0, 10]);
        assert_eq!([0, 1, 200].map(|latency| term(0, latency)), [0, 10, 2_000]);
        assert_eq!([0, u32::MAX - 1, u32::MAX].map(|latency| term(u32::MAX, latency)), [0; 3]);
        assert_eq!(term(u32::MAX - 1, u32::MAX), 10);
        assert_eq!(term(1, u32::MAX), 10 * (u128::from(u32::MAX) - 1));
    }

    #[test]
    fn numbers_are_held_at_their_limits() {
        assert_eq!(
            [less(1 << 63, 0), less((1 << 63) - 1, 0), less(0, 1 << 63), less(0, 1 << 100)],
            [i64::MAX, i64::MAX, i64::MIN, i64::MIN]
        );
        assert_eq!([scaled_price(u64::MAX, 1_000_000), scaled_price(u64::MAX, 1_000_001)], [u64::MAX; 2]);
        assert_eq!([scaled_price(3, 333_333), scaled_price(3, 333_334)], [0, 1]);
    }
}
