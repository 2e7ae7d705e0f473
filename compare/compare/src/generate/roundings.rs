//! Policies that round once, and tokens and prices at which the two ways of rounding part, or just don't: for the random cases of every set, and
//! in spaces of their own.
use super::court::{good, over};
use super::random::Random;
use super::spaces::pairs;
use super::{large, printed, searches, spaces, Setting, Visit};
use crate::case::{Case, Room};
use crate::second::bytes::{POLICY_BYTES, ROUNDED_POLICY_BYTES};
use crate::second::rules::Rounding;
use oracle::kernel::KernelModel;

const BOTH: [Rounding; 2] = [Rounding::Apart, Rounding::Once];
const MILLION: u64 = 1_000_000;

// ---- random cases

/// Half of the policies round once. A quarter of the settings keep their tokens and prices.
pub fn round(r: &mut Random, setting: &mut Setting) {
    setting.policy.rounding = r.pick(&BOTH);
    match r.below(8) {
        0..=1 => {}
        2..=4 => near(r, setting),
        5 => small(r, setting),
        6 => halves(r, setting),
        _ if r.one_in(2) => beyond(r, setting),
        _ => held(r, setting),
    }
}

/// A policy that rounds apart also says so in a byte, and now and then one says what there is not.
pub fn lend(r: &mut Random, policy: &mut Vec<u8>) {
    if policy.len() == POLICY_BYTES && r.one_in(3) {
        policy.push(Rounding::Apart as u8);
    }
    if policy.len() == ROUNDED_POLICY_BYTES && r.one_in(32) {
        policy[POLICY_BYTES] = r.pick(&[2, 3, 4, 128, 255]);
    }
}

/// Each record's two products together come to a multiple of a million, or a step beside one: its output price moves there, by less than a
/// million.
fn near(r: &mut Random, setting: &mut Setting) {
    let request = &mut setting.request;
    request.output_tokens = invertible(request.output_tokens);
    let (input, inverse) = (u64::from(request.input_tokens), inverse(request.output_tokens.into()));
    for model in &mut setting.models {
        let [first, second] = prices_of(model);
        let rest = r.pick(&[0, 0, 1, 2, 999_998, 999_999]);
        let wanted = rest + MILLION - times(input, *first);
        *second = with_rest(*second, times(wanted, inverse));
    }
}

/// So many tokens, or one or two less or more, for which each rest of a million is that of some price.
fn invertible(tokens: u32) -> u32 {
    let odd = tokens | 1;
    if odd.is_multiple_of(5) {
        odd - 2
    } else {
        odd
    }
}

/// What such a number is to be multiplied by to leave 1 of whole millions. Its power 50,000 leaves 1.
fn inverse(number: u64) -> u64 {
    power(number, 49_999)
}

fn power(number: u64, exponent: u64) -> u64 {
    let half = if exponent == 0 { 1 } else { power(times(number, number), exponent / 2) };
    if exponent % 2 == 1 {
        times(half, number)
    } else {
        half
    }
}

/// What a product leaves of whole millions.
fn times(one: u64, other: u64) -> u64 {
    (one % MILLION) * (other % MILLION) % MILLION
}

/// A price that leaves this rest of whole millions, less than a million from another.
fn with_rest(price: u64, rest: u64) -> u64 {
    let whole = price - price % MILLION;
    whole.checked_add(rest).unwrap_or(whole - MILLION + rest)
}

fn prices_of(model: &mut KernelModel) -> [&mut u64; 2] {
    [&mut model.input_cost_microunits_per_million_tokens, &mut model.output_cost_microunits_per_million_tokens]
}

/// Few tokens at low prices: a cost is 0, 1, 2 or a few more. Now and then the budget is as low.
fn small(r: &mut Random, setting: &mut Setting) {
    let request = &mut setting.request;
    request.input_tokens = r.below(4) as u32;
    request.output_tokens = r.below(4) as u32;
    if r.one_in(3) {
        request.budget_limit_microunits = r.below(4);
    }
    for model in &mut setting.models {
        for price in prices_of(model) {
            *price =
                r.pick(&[0, 1, 1, 2, 3, 333_333, 333_334, 499_999, 500_000, 500_001, 999_999, 1_000_000, 1_000_001]);
        }
    }
}

/// Half a million tokens each way, or a third, where a price is a part of a microunit.
fn halves(r: &mut Random, setting: &mut Setting) {
    let (input, output) =
        r.pick(&[(500_000, 500_000), (333_333, 666_667), (333_334, 666_667), (1, 999_999), (250_000, 250_000)]);
    setting.request.input_tokens = input;
    setting.request.output_tokens = output;
}

/// Products beyond 64 bits, most of them with a cost that isn't.
fn beyond(r: &mut Random, setting: &mut Setting) {
    setting.request.input_tokens = r.draw() as u32 | 1 << 31;
    setting.request.output_tokens = r.draw() as u32 | 1 << 31;
    for model in &mut setting.models {
        for price in prices_of(model) {
            *price = r.draw() >> r.between(10, 31);
        }
    }
    worth_much(r, setting);
    near(r, setting);
}

/// Costs around 2^64 - 1, where they are held, and just as high a budget.
fn held(r: &mut Random, setting: &mut Setting) {
    let tokens = r.between(MILLION + 1, u32::MAX.into()) as u32;
    let turned = r.one_in(2);
    for model in &mut setting.models {
        set_prices(model, split(held_sum(r.pick(&AROUND_HELD)), tokens), turned);
    }
    let request = &mut setting.request;
    (request.input_tokens, request.output_tokens) = if turned { (1, tokens) } else { (tokens, 1) };
    request.budget_limit_microunits = u64::MAX - r.below(3);
    worth_much(r, setting);
}

/// Half of the time the highest value that there is, so that no cost makes every record lose.
fn worth_much(r: &mut Random, setting: &mut Setting) {
    if r.one_in(2) {
        return;
    }
    setting.request.business_value_microunits = i64::MAX;
    setting.request.confidence_bps = u16::MAX;
    setting.models.iter_mut().for_each(|model| model.quality_bps = u16::MAX - r.below(2) as u16);
}

/// Steps from 2^64 - 1 millions, of a millionth each.
const AROUND_HELD: [i64; 15] = [
    -2_000_001, -2_000_000, -1_999_999, -1_000_002, -1_000_001, -1_000_000, -999_999, -500_000, -1, 0, 1, 2, 999_999,
    1_000_000, 1_000_001,
];

/// So many steps from 2^64 - 1 millions.
fn held_sum(step: i64) -> u128 {
    (u128::from(u64::MAX) * u128::from(MILLION)).checked_add_signed(step.into()).expect("far below 2^128")
}

/// The price of so many tokens one way and of one the other, whose products make up a sum.
fn split(sum: u128, tokens: u32) -> [u64; 2] {
    let price = u64::try_from(sum / u128::from(tokens)).expect("more than a million tokens");
    [price, (sum % u128::from(tokens)) as u64]
}

/// The first is that of the input, or turned that of the output.
fn set_prices(model: &mut KernelModel, prices: [u64; 2], turned: bool) {
    let [first, second] = prices_of(model);
    [*first, *second] = if turned { [prices[1], prices[0]] } else { prices };
}

// ---- spaces

/// The case with a policy that rounds once; as it is, where its policy isn't one of 30 bytes.
pub fn once(mut case: Case) -> Case {
    if case.policy.len() == POLICY_BYTES {
        case.policy.push(Rounding::Once as u8);
    }
    case
}

/// A model with these prices, and one that is free and slower by 2 ms, each of which costs a microunit: the first is chosen as long as it costs
/// at most 1.
pub fn duel(rounding: Rounding, tokens: (u32, u32), prices: (u64, u64), budget: u64) -> Setting {
    let free = KernelModel { input_cost_microunits_per_million_tokens: 0, p95_latency_ms: 102, ..good() };
    let mut setting = over(vec![good(), free]);
    setting.policy.rounding = rounding;
    setting.request.input_tokens = tokens.0;
    setting.request.output_tokens = tokens.1;
    setting.request.budget_limit_microunits = budget;
    set_prices(&mut setting.models[0], [prices.0, prices.1], false);
    setting
}

/// Costs by either rounding.
pub fn each(visit: Visit) {
    costs(visit);
    edges(visit);
    costs_held(visit);
}

/// Up to four tokens each way at prices around parts of a million, so that every way in which two parts come to a whole number of
/// microunits, or to a step beside one, is there; with a budget of 1, and with one that suffices.
fn costs(visit: Visit) {
    let tokens: Vec<u32> = (0..=4).collect();
    let prices = [
        0, 1, 2, 249_999, 250_000, 250_001, 333_333, 333_334, 499_999, 500_000, 500_001, 999_999, 1_000_000, 1_000_001,
    ];
    for (rounding, each_way) in pairs(&BOTH, &pairs(&tokens, &tokens)) {
        for (prices, budget) in pairs(&pairs(&prices, &prices), &[1, 5_000]) {
            visit(duel(rounding, each_way, prices, budget).case(1));
        }
    }
}

/// Tokens and prices at the edges of their ranges.
fn edges(visit: Visit) {
    spaces::costs(&mut |case| visit(once(case)));
}

/// Costs around 2^64 - 1 with a budget there, both ways about.
fn costs_held(visit: Visit) {
    let tokens = [1_000_001, 1_000_003, 1 << 31, u32::MAX - 4, u32::MAX];
    for ((rounding, turned), (tokens, step)) in pairs(&pairs(&BOTH, &[false, true]), &pairs(&tokens, &AROUND_HELD)) {
        (0..3).for_each(|less| visit(held_case(rounding, tokens, step, turned, less)));
    }
}

/// The record that is worth most, for so many tokens one way and one the other, with products so many steps from 2^64 - 1 millions and a budget
/// of less than 2^64 by one more than `less`.
pub fn held_case(rounding: Rounding, tokens: u32, step: i64, turned: bool, less: u64) -> Case {
    let mut setting = spaces::richest(good());
    setting.policy.rounding = rounding;
    set_prices(&mut setting.models[0], split(held_sum(step), tokens), turned);
    let request = &mut setting.request;
    (request.input_tokens, request.output_tokens) = if turned { (1, tokens) } else { (tokens, 1) };
    request.budget_limit_microunits = u64::MAX - less;
    setting.case(1)
}

/// Prices that are scaled and rounded down each by itself, before the cost is rounded.
fn scales(visit: Visit) {
    let tokens = [1, 3, 500_000, 999_999, 1_000_000];
    let prices = [0, 1, 2, 7, 1_000_001];
    for (rounding, each_way) in pairs(&BOTH, &pairs(&tokens, &tokens)) {
        for (prices, budget) in pairs(&pairs(&prices, &prices), &[0, 1, 2, 5_000]) {
            visit(duel(rounding, each_way, prices, budget).case(1));
        }
    }
}

/// Every length of a policy that any call could take for its own, with every byte where the 31st stands; each with each other fault that comes
/// before or after.
pub fn policies(visit: Visit) {
    let case = duel(Rounding::Apart, (1, 1), (1, 1), 1).case(1);
    let lent = |length: usize, byte: u8| {
        let mut case = case.clone();
        case.policy.resize(length, 0);
        case.policy.iter_mut().skip(POLICY_BYTES).for_each(|at| *at = byte);
        case
    };
    (0..=u8::MAX).for_each(|byte| visit(lent(ROUNDED_POLICY_BYTES, byte)));
    for (length, byte) in pairs(&[0, 1, 28, 29, 30, 31, 32, 33, 34, 35, 61, 62, 70], &[0, 1, 2, 255]) {
        for ((request, bank), room) in pairs(&pairs(&[69, 70, 71], &[93, 94]), &[Room::Exact, Room::ShortBy(1)]) {
            let mut case = Case { room, list_room: room, ..lent(length, byte) };
            case.request.resize(request, 0);
            case.bank.truncate(bank);
            visit(case);
        }
    }
}

pub fn searches(visit: Visit) {
    searches::each(&mut |case| visit(once(case)));
    scales(visit);
}

pub fn printed(visit: Visit) {
    printed::each(&mut |case| visit(once(case)));
    printed_costs(visit);
}

/// Costs that the lines tell.
fn printed_costs(visit: Visit) {
    for (rounding, (input, output)) in pairs(&BOTH, &pairs(&[0, 1, 499_999, 500_000, 500_001], &[0, 1, 500_000])) {
        for (tokens, id) in pairs(&[1, 3, 1_000_000], &[1, 2]) {
            visit(duel(rounding, (tokens, 1), (input, output), 5_000).case(id));
        }
    }
}

pub fn decisions(visit: Visit) {
    spaces::each(&mut |case| visit(once(case)));
}

pub fn large(visit: Visit) {
    large::each(&mut |case| visit(once(case)));
}

#[cfg(test)]
mod tests {
    use super::super::base;
    use super::*;
    use crate::second::price::cost;

    #[test]
    fn a_price_that_moves_leaves_the_rest_that_is_wanted() {
        for tokens in [0, 1, 5, 25, 999_999, 1_000_000, u32::MAX] {
            let near = invertible(tokens);
            assert!(tokens.abs_diff(near) <= 2 && times(near.into(), inverse(near.into())) == 1);
        }
        for (price, rest) in pairs(&[0, 7, 15_000_000, u64::MAX - 1_000_000, u64::MAX], &[0, 1, 999_999]) {
            let moved = with_rest(price, rest);
            assert!(moved % 1_000_000 == rest && price.abs_diff(moved) < 1_000_000);
        }
    }

    /// The two products leave a rest of whole millions that is at most 2, or at most 2 too low.
    #[test]
    fn the_sum_of_the_products_is_near_a_whole_million() {
        for number in 0..1_000 {
            let mut r = Random::for_case(4, number);
            let mut setting = base::setting(&mut r, 3);
            near(&mut r, &mut setting);
            let (q, each) = (&setting.request, &setting.models);
            for model in each {
                let input = u128::from(q.input_tokens) * u128::from(model.input_cost_microunits_per_million_tokens);
                let output = u128::from(q.output_tokens) * u128::from(model.output_cost_microunits_per_million_tokens);
                assert!((input + output + 2) % 1_000_000 <= 4);
            }
        }
    }

    /// What the first record of a setting costs by each rounding.
    fn both_costs(setting: &Setting) -> [u64; 2] {
        BOTH.map(|rounding| cost(rounding, &setting.models[0], &setting.request))
    }

    #[test]
    fn the_two_roundings_part_in_many_settings_and_by_1_at_most() {
        let (mut parted, mut beyond, mut near_held) = (0, 0, 0);
        for number in 0..20_000 {
            let mut r = Random::for_case(3, number);
            let mut setting = searches::contest(&mut r, 1);
            round(&mut r, &mut setting);
            let [apart, once] = both_costs(&setting);
            assert!(apart - once <= 1);
            parted += u64::from(apart != once);
            beyond += u64::from(apart != once && once > u64::MAX / MILLION);
            near_held += u64::from(apart != once && once > u64::MAX - 4);
        }
        assert!(parted > 8_000 && beyond > 800 && near_held > 100, "{parted}, {beyond}, {near_held}");
    }
}
