//! Document 01's "Deciding": what stops a request, the verdict on each record, the counts, the ranking and the decision, over any list of records
//! with their places. It is written from the document in whole numbers, the plain way, and asks nothing of the Rust but the records' types.
use super::bytes::Policy;
use super::gates::{first_failed, Failed};
use super::price::{cost, terms, Terms};
use oracle::kernel::{KernelInput, KernelModel};
use std::cmp::Reverse;

/// A record that a catalogue lists, and the place by which it is told.
pub type Placed = (u16, KernelModel);

/// A request over a catalogue under a policy, which says by what rules.
#[derive(Clone, Debug)]
pub struct Question {
    pub policy: Policy,
    pub request: KernelInput,
    /// In the order of their places.
    pub records: Vec<Placed>,
}

impl Question {
    /// Over a list of nothing but these, each at its place in it.
    pub fn over(policy: Policy, request: KernelInput, models: Vec<KernelModel>) -> Self {
        Question { policy, request, records: in_order(models) }
    }

    /// The records without their places.
    pub fn models(&self) -> Vec<KernelModel> {
        self.records.iter().map(|(_, model)| *model).collect()
    }

    /// The first listed record with an id.
    pub fn listed(&self, id: u32) -> Option<KernelModel> {
        self.records.iter().find(|(_, model)| model.model_id == id).map(|(_, model)| *model)
    }
}

/// Each at its place in the list.
pub fn in_order(models: Vec<KernelModel>) -> Vec<Placed> {
    models.into_iter().enumerate().map(|(place, model)| (place_of(place), model)).collect()
}

fn place_of(place: usize) -> u16 {
    place.try_into().expect("at most 65,535 records")
}

/// The fields in their order; action and reason by their numbers.
#[derive(Clone, Copy, Debug, PartialEq, Eq)]
pub struct Decision {
    pub sequence: u64,
    pub action: u8,
    pub reason: u16,
    pub model_id: u32,
    pub place: u16,
    pub cost: u64,
    pub utility: i64,
    /// The second best.
    pub other_id: u32,
    pub other_utility: i64,
    pub evaluated: u16,
    pub eligible: u16,
    pub policy_epoch: u64,
    pub catalog_epoch: u64,
}

const REQUESTED: u8 = 1;
const ANOTHER: u8 = 2;
const REJECT: u8 = 3;
/// The place of a model that isn't there.
const NO_PLACE: u16 = 65_535;

const RISK_LIMIT: u16 = 100;
const CONFIDENCE_LIMIT: u16 = 101;

impl Decision {
    /// A rejection selects no id, 0 included.
    pub fn selects(&self, id: u32) -> bool {
        self.executes() && self.model_id == id
    }

    pub fn executes(&self) -> bool {
        self.action != REJECT
    }

    /// Stopped by the request itself, before any record was met.
    pub fn is_stopped(&self) -> bool {
        [RISK_LIMIT, CONFIDENCE_LIMIT].contains(&self.reason)
    }
}

/// How many records were rejected for being off, for quality, ceiling, latency, capability, provider, region, budget and utility: as the
/// counts are held and printed. Neither the gates' order nor the order of equal counts is this one.
pub type Counts = [u16; 9];

/// A reason's number, and where its count stands. The last of equals counts.
const REASONS: [(u16, usize); 9] =
    [(105, 4), (107, 6), (106, 5), (103, 1), (110, 2), (104, 3), (108, 7), (109, 8), (102, 0)];

#[derive(Clone, Copy, Debug, PartialEq, Eq)]
pub enum Verdict {
    Rejected(Failed),
    OverBudget { cost: u64, budget: u64 },
    NonPositive(Terms),
    Eligible(Terms),
}

/// A record of an explanation.
#[derive(Clone, Copy, Debug, PartialEq, Eq)]
pub struct Explained {
    pub id: u32,
    pub place: u16,
    pub verdict: Verdict,
}

/// A record as it is ranked: the lowest of these is the best.
type Ranked = (Reverse<i64>, u64, Reverse<u16>, u32, u16);

/// The decision and its counts.
pub fn decide(q: &Question) -> (Decision, Counts) {
    let mut counts = [0; 9];
    if let Some(reason) = stopping(q) {
        return (Decision { evaluated: 0, ..rejection(q, reason) }, counts);
    }
    let mut eligible = Vec::new();
    for (place, model) in &q.records {
        match verdict(q, model) {
            Verdict::Eligible(terms) => eligible.push(ranked(&terms, model, *place)),
            other => counts[counted_at(&other)] += 1,
        }
    }
    (decided(q, &eligible, &counts), counts)
}

/// The reason for which a request is stopped before any record is met.
fn stopping(q: &Question) -> Option<u16> {
    if q.request.risk_bps >= q.policy.hard_risk_limit_bps {
        return Some(RISK_LIMIT);
    }
    (q.request.confidence_bps < q.policy.minimum_confidence_bps).then_some(CONFIDENCE_LIMIT)
}

fn verdict(q: &Question, model: &KernelModel) -> Verdict {
    if let Some(failed) = first_failed(model, &q.request) {
        return Verdict::Rejected(failed);
    }
    let (cost, budget) = (cost(q.policy.rounding, model, &q.request), q.request.budget_limit_microunits);
    if cost > budget {
        return Verdict::OverBudget { cost, budget };
    }
    let terms = terms(&q.policy, &q.request, model, cost);
    match terms.utility > 0 {
        true => Verdict::Eligible(terms),
        false => Verdict::NonPositive(terms),
    }
}

/// Where the count of a verdict stands.
fn counted_at(verdict: &Verdict) -> usize {
    match verdict {
        Verdict::Rejected(failed) => match failed.gate {
            1 => 0,
            2 => 1,
            3 => 3,
            4 => 4,
            5 | 6 => 5,
            7 => 6,
            8 => 2,
            gate => unreachable!("there is no gate {gate}"),
        },
        Verdict::OverBudget { .. } => 7,
        Verdict::NonPositive(_) => 8,
        Verdict::Eligible(_) => unreachable!("an eligible record is not counted"),
    }
}

/// Higher utility, lower cost, higher quality, lower id, earlier place.
fn ranked(terms: &Terms, model: &KernelModel, place: u16) -> Ranked {
    (Reverse(terms.utility), terms.cost, Reverse(model.quality_bps), model.model_id, place)
}

fn decided(q: &Question, eligible: &[Ranked], counts: &Counts) -> Decision {
    let Some(best) = eligible.iter().min() else {
        return rejection(q, dominant(counts));
    };
    let (Reverse(utility), cost, _, model_id, place) = *best;
    let next = eligible.iter().filter(|other| *other != best).min();
    let (other_id, other_utility) = next.map_or((0, 0), |(Reverse(utility), _, _, id, _)| (*id, *utility));
    let action = if model_id == q.request.requested_model_id { REQUESTED } else { ANOTHER };
    let eligible = eligible.len() as u16;
    let reason = u16::from(action);
    Decision { action, reason, model_id, place, cost, utility, other_id, other_utility, eligible, ..rejection(q, 0) }
}

/// The reason of the largest count; of equals the last one, which is 102 where all are 0.
fn dominant(counts: &Counts) -> u16 {
    let (reason, _) = REASONS.iter().max_by_key(|(_, at)| counts[*at]).expect("there are nine");
    *reason
}

fn rejection(q: &Question, reason: u16) -> Decision {
    Decision {
        sequence: q.request.request_sequence,
        action: REJECT,
        reason,
        model_id: 0,
        place: NO_PLACE,
        cost: 0,
        utility: 0,
        other_id: 0,
        other_utility: 0,
        evaluated: q.records.len() as u16,
        eligible: 0,
        policy_epoch: q.policy.policy_epoch,
        catalog_epoch: q.policy.catalog_epoch,
    }
}

/// Whether the request itself is stopped.
pub fn is_stopped(q: &Question) -> bool {
    stopping(q).is_some()
}

/// Every listed record in its order; none of a stopped request.
pub fn explain(q: &Question) -> Vec<Explained> {
    if is_stopped(q) {
        return Vec::new();
    }
    let explained =
        |(place, model): &Placed| Explained { id: model.model_id, place: *place, verdict: verdict(q, model) };
    q.records.iter().map(explained).collect()
}

/// Of the first listed record with the id, where that is eligible and the request isn't stopped.
pub fn utility_of(q: &Question, id: u32) -> Option<i64> {
    match verdict(q, &q.listed(id)?) {
        Verdict::Eligible(terms) if !is_stopped(q) => Some(terms.utility),
        _ => None,
    }
}

#[cfg(test)]
mod tests {
    use super::*;

    #[test]
    fn of_equal_counts_the_last_reason_counts() {
        assert_eq!(dominant(&[0; 9]), 102);
        assert_eq!(dominant(&[1; 9]), 102);
        assert_eq!(dominant(&[1, 0, 0, 0, 2, 0, 2, 0, 0]), 107);
        assert_eq!(dominant(&[0, 3, 3, 0, 3, 3, 3, 0, 2]), 110);
    }
}
