//! Policies that have an allowance, and latencies beside it, at which a term is just 0 or just not: for the random cases of sets of their own, and in
//! spaces of their own.
use super::court::{good, over};
use super::edges::beside_latency;
use super::random::Random;
use super::roundings::{self, once};
use super::spaces::pairs;
use super::{large, live, printed, searches, spaces, Setting, Visit};
use crate::case::{Case, Room};
use crate::second::bytes::{LONG_POLICY_BYTES, POLICY_BYTES, ROUNDED_POLICY_BYTES};
use crate::second::rules::Rounding;
use oracle::kernel::KernelModel;

// ---- random cases

/// Seven policies of eight have an allowance; half of the settings may round once, as those of `roundings`.
pub fn allow(r: &mut Random, setting: &mut Setting) {
    if r.one_in(2) {
        roundings::round(r, setting);
    }
    if r.one_in(8) {
        return;
    }
    setting.policy.latency_allowance_ms = allowance(r, setting);
    match r.below(8) {
        0..=3 => {}
        4..=5 => gather(r, setting),
        6 => limit(r, setting),
        _ => charge(r, setting),
    }
}

/// Mostly some record's latency, or a step beside it; else an end of the range, or anything.
fn allowance(r: &mut Random, setting: &Setting) -> u32 {
    let any = r.wide(32) as u32;
    let chosen = match (r.below(8), setting.any_place(r)) {
        (0..=4, Some(at)) => beside_latency(r, setting.models[at].p95_latency_ms),
        (5, Some(at)) => setting.models[at].p95_latency_ms / 2,
        (6, _) => r.pick(&[u32::MAX, u32::MAX, u32::MAX - 1]),
        _ => r.pick(&[1, 2, 50, 100, 200, any]),
    };
    chosen.max(1)
}

/// Every latency comes to the allowance or a few milliseconds beside it, with a penalty that shows each of them.
fn gather(r: &mut Random, setting: &mut Setting) {
    let allowance = setting.policy.latency_allowance_ms;
    for model in &mut setting.models {
        let step = r.below(4) as u32;
        model.p95_latency_ms =
            if r.one_in(2) { allowance.saturating_sub(step) } else { allowance.saturating_add(step) };
    }
    charge(r, setting);
}

/// The latency limit at a record's full figure, at what is charged of it, or at the allowance, or a step beside.
fn limit(r: &mut Random, setting: &mut Setting) {
    if let Some(at) = setting.any_place(r) {
        let (latency, allowance) = (setting.models[at].p95_latency_ms, setting.policy.latency_allowance_ms);
        let near = r.pick(&[latency, latency, latency.saturating_sub(allowance), allowance]);
        setting.request.max_p95_latency_ms = beside_latency(r, near);
    }
}

/// Another penalty: a step, a few, or one with which a millisecond more is too much.
fn charge(r: &mut Random, setting: &mut Setting) {
    let kept = setting.policy.latency_penalty_microunits_per_ms;
    setting.policy.latency_penalty_microunits_per_ms = r.pick(&[1, 1, 10, 100, kept, (1 << 32) - 1, 1 << 32, u64::MAX]);
}

/// A policy without an allowance also says so in four bytes; now and then one has a length that none has, or rounds as there is no rounding.
pub fn lend(r: &mut Random, policy: &mut Vec<u8>) {
    if [POLICY_BYTES, ROUNDED_POLICY_BYTES].contains(&policy.len()) && r.one_in(2) {
        policy.resize(LONG_POLICY_BYTES, 0);
    }
    if policy.len() == LONG_POLICY_BYTES && r.one_in(32) {
        policy[POLICY_BYTES] = r.pick(&[2, 3, 5, 128, 255]);
    }
    if policy.len() == LONG_POLICY_BYTES && r.one_in(32) {
        policy.resize(r.between(29, 37) as usize, 1);
    }
}

// ---- spaces

/// The case with a policy that has this allowance and rounds as it does; as it is, where its policy has neither 30 bytes nor 31.
pub fn allowed(mut case: Case, allowance: u32) -> Case {
    if [POLICY_BYTES, ROUNDED_POLICY_BYTES].contains(&case.policy.len()) {
        case.policy.resize(ROUNDED_POLICY_BYTES, Rounding::Apart as u8);
        case.policy.extend(allowance.to_le_bytes());
    }
    case
}

/// None in so many bytes; below, at and above the latencies that other spaces have; and the ends of the range.
const TURNS: [u32; 11] = [0, 1, 50, 99, 100, 101, 150, 200, 999, 1_000, u32::MAX];

/// The cases of another space, with these allowances in turn; a third of them round once.
fn in_turn(each: fn(Visit), visit: Visit) {
    let mut at = 0;
    each(&mut |case| {
        let case = if at % 3 == 2 { once(case) } else { case };
        visit(allowed(case, TURNS[at % TURNS.len()]));
        at += 1;
    });
}

/// Two models of these latencies, of which the first costs a microunit less; each millisecond that is charged takes the penalty away.
pub fn race(allowance: u32, latencies: (u32, u32), penalty: u64, limit: u32) -> Setting {
    let first = KernelModel { p95_latency_ms: latencies.0, ..good() };
    let second = KernelModel { p95_latency_ms: latencies.1, input_cost_microunits_per_million_tokens: 101, ..good() };
    let mut setting = over(vec![first, second]);
    setting.policy.latency_penalty_microunits_per_ms = penalty;
    setting.policy.latency_allowance_ms = allowance;
    setting.request.max_p95_latency_ms = limit;
    setting
}

const LATENCIES: [u32; 11] = [0, 1, 2, 99, 100, 101, 102, 200, 201, u32::MAX - 1, u32::MAX];
const ALLOWANCES: [u32; 9] = [0, 1, 99, 100, 101, 200, 1 << 16, u32::MAX - 1, u32::MAX];

/// Latencies below, at and above allowances and limits; then the terms at their edges, and each byte of an allowance.
pub fn each(visit: Visit) {
    races(visit);
    in_turn(spaces::terms, visit);
    bytes(visit);
}

/// Each two latencies under each allowance, charged not at all, by the step, or so that no millisecond more is borne.
fn races(visit: Visit) {
    for (allowance, latencies) in pairs(&ALLOWANCES, &pairs(&LATENCIES, &LATENCIES)) {
        for (penalty, limit) in pairs(&[0, 1, u64::MAX], &[0, 100, 200]) {
            visit(race(allowance, latencies, penalty, limit).case(1));
        }
    }
}

/// One bit of an allowance alone, and all up to it, with latencies on either side.
fn bytes(visit: Visit) {
    for bit in 0..32 {
        for (allowance, more) in pairs(&[1_u32 << bit, u32::MAX >> bit], &[0, 1, 2]) {
            let latency = allowance.saturating_add(more);
            visit(race(allowance, (latency, latency.saturating_sub(1)), 1, 0).case(1));
        }
    }
}

/// Every length of a policy that any call could take for its own, with every byte where the 31st stands, and where each of the four after it does;
/// each with each other fault that comes before or after.
pub fn policies(visit: Visit) {
    let case = race(0, (101, 100), 1, 0).case(1);
    let lent = |length: usize, byte: u8| {
        let mut case = case.clone();
        case.policy.resize(length, byte);
        case
    };
    for (at, byte) in pairs(&[30, 31, 32, 33, 34], &(0..=u8::MAX).collect::<Vec<_>>()) {
        let mut case = lent(LONG_POLICY_BYTES, 0);
        case.policy[at] = byte;
        visit(case);
    }
    for (length, byte) in pairs(&[29, 30, 31, 32, 33, 34, 35, 36, 37, 38, 39, 43, 66, 69, 70], &[0, 1, 2, 255]) {
        for ((request, bank), room) in pairs(&pairs(&[69, 70], &[93, 94]), &[Room::Exact, Room::ShortBy(1)]) {
            let mut case = Case { room, list_room: room, ..lent(length, byte) };
            case.request.resize(request, 0);
            case.bank.truncate(bank);
            visit(case);
        }
    }
}

/// Boundaries below, at and above an allowance, and those of the other searches.
pub fn searches(visit: Visit) {
    in_turn(searches::each, visit);
    for (allowance, latencies) in pairs(&ALLOWANCES, &pairs(&LATENCIES, &LATENCIES)) {
        for ((penalty, limit), id) in pairs(&[(0, 0), (1, 0), (1, 150), (u64::MAX, 0)], &[1, 2]) {
            visit(race(allowance, latencies, penalty, limit).case(id));
        }
    }
}

pub fn printed(visit: Visit) {
    in_turn(printed::each, visit);
    for (allowance, latencies) in pairs(&[1, 100, u32::MAX], &pairs(&LATENCIES, &[0, 100, 101])) {
        for (penalty, limit) in pairs(&[1, 10, u64::MAX], &[0, 100]) {
            visit(race(allowance, latencies, penalty, limit).case(1));
        }
    }
}

/// Free slots anywhere, and banks in which several are near each other.
pub fn live(visit: Visit) {
    in_turn(live::patterns, visit);
    in_turn(live::contests, visit);
}

pub fn decisions(visit: Visit) {
    in_turn(spaces::each, visit);
}

pub fn large(visit: Visit) {
    in_turn(large::each, visit);
}

#[cfg(test)]
mod tests {
    use super::*;
    use crate::generate::{Draw, Policies, DRAWS};
    use crate::second::bytes::policy_of;
    use crate::second::deciding::decide;

    #[test]
    fn a_case_is_lent_an_allowance_and_rounds_as_it_did() {
        let case = race(0, (1, 1), 1, 0).case(1);
        let told = |case: &Case| (policy_of(&case.policy).rounding, policy_of(&case.policy).latency_allowance_ms);
        assert_eq!(told(&allowed(case.clone(), 200)), (Rounding::Apart, 200));
        assert_eq!(told(&allowed(once(case.clone()), 0)), (Rounding::Once, 0));
        let short = Case { policy: case.policy[1..].to_vec(), ..case };
        assert_eq!(allowed(short.clone(), 200).policy, short.policy);
    }

    /// Free up to 100 ms, both are level but for the cost; the second is ahead where the first alone is charged, by 2 ms.
    #[test]
    fn a_race_is_won_by_what_is_charged() {
        let chosen = |allowance, first, second| decide(&race(allowance, (first, second), 1, 0).question()).0.model_id;
        assert_eq!([100, 101, 102].map(|latency| chosen(100, latency, 100)), [1, 1, 2]);
        assert_eq!([chosen(0, 102, 100), chosen(101, 102, 100), chosen(102, 102, 100)], [2, 1, 1]);
    }

    /// How the allowances stand to the latencies of the records that they are drawn for, in random searches.
    #[test]
    fn most_policies_have_an_allowance_and_many_stand_beside_a_latency() {
        let draws = DRAWS.iter().find(|draws| draws.name == "random searches").expect("a set of this name");
        let (mut some, mut beside) = (0, 0);
        for number in 0..10_000 {
            let case = (draws.case)(Draw::of(Policies::Allowing, 3, number));
            if case.policy.len() != LONG_POLICY_BYTES || case.policy[POLICY_BYTES] > 1 {
                continue;
            }
            let allowance = policy_of(&case.policy).latency_allowance_ms;
            let near = |record: &[u8]| {
                let latency = u32::from_le_bytes(record[11..15].try_into().expect("four bytes"));
                latency.abs_diff(allowance) <= 1
            };
            some += u64::from(allowance > 0);
            beside += u64::from(allowance > 0 && case.bank.chunks_exact(47).any(near));
        }
        assert!(some > 8_000 && beside > 5_000, "{some}, {beside}");
    }
}
