//! Document 01's "Boundaries": both searches, around the second reading's own decisions, with their passes. A pass is one decision over the
//! whole catalogue.
use super::boundaries::{Boundaries, Boundary, Lever};
use super::deciding::{decide, Decision, Question};
use super::price::scaled_price;
use oracle::kernel::KernelModel;

const TOP_BPS: u64 = 10_000;
const PRICE_TODAY: u64 = 1_000_000;
const PRICE_TOP: u64 = 1_000_000_000;
const LATENCY_TOP: u64 = (1 << 32) - 1;

/// At most so many passes; the last for a margin where quality and ceiling are within 10,000.
const MOST_TO_WIN: u64 = 86;
const MOST_FOR_MARGIN: u64 = 103;
const MOST_WITHIN_BPS: u64 = 99;

/// The question, the record of it that is varied as it is today, and the passes so far.
struct Search {
    question: Question,
    at: usize,
    model: KernelModel,
    passes: u64,
    levers: Vec<Boundary>,
}

/// None where the id isn't listed.
pub fn what_would_win(question: &Question, id: u32) -> Option<Boundaries> {
    let mut search = opened(question, id)?;
    let decision = search.decide(search.model);
    if decision.is_stopped() || decision.selects(id) {
        return Some(search.done(decision));
    }
    if search.model.enabled == 0 {
        if search.wins(Lever::Enabled, 1) {
            search.found(Lever::Enabled, 0, 1);
        }
        return Some(search.done(decision));
    }
    for lever in FOUR {
        let today = value_today(&search.model, lever);
        let bound = match lever {
            Lever::Quality | Lever::Ceiling => search.lowest(lever, today, TOP_BPS),
            _ => search.highest(lever, 0, today),
        };
        search.found_if(lever, today, bound);
    }
    assert!(search.passes <= MOST_TO_WIN);
    Some(search.done(decision))
}

/// None where the decision is a rejection.
pub fn decision_margin(question: &Question) -> Option<Boundaries> {
    let (decision, _) = decide(question);
    if !decision.executes() {
        return None;
    }
    let mut search = opened(question, decision.model_id)?;
    search.passes = 1;
    for lever in FOUR {
        let today = value_today(&search.model, lever);
        let bound = match lever {
            Lever::Quality => search.lowest(lever, 0, today),
            Lever::Ceiling if search.wins(lever, 0) => None,
            Lever::Ceiling => search.lowest(lever, 0, today),
            _ => {
                let top = if lever == Lever::Latency { LATENCY_TOP } else { PRICE_TOP };
                if search.wins(lever, top) {
                    None
                } else {
                    search.highest(lever, today, top)
                }
            }
        };
        search.found_if(lever, today, bound);
    }
    let within = u64::from(search.model.quality_bps.max(search.model.risk_ceiling_bps)) <= TOP_BPS;
    assert!(search.passes <= if within { MOST_WITHIN_BPS } else { MOST_FOR_MARGIN });
    Some(search.done(decision))
}

const FOUR: [Lever; 4] = [Lever::Quality, Lever::Latency, Lever::Price, Lever::Ceiling];

fn value_today(model: &KernelModel, lever: Lever) -> u64 {
    match lever {
        Lever::Quality => u64::from(model.quality_bps),
        Lever::Latency => u64::from(model.p95_latency_ms),
        Lever::Price => PRICE_TODAY,
        Lever::Ceiling => u64::from(model.risk_ceiling_bps),
        Lever::Enabled => u64::from(model.enabled),
    }
}

/// The first listed record with the id is the one that is varied.
fn opened(question: &Question, id: u32) -> Option<Search> {
    let at = question.records.iter().position(|(_, model)| model.model_id == id)?;
    let (question, (_, model)) = (question.clone(), question.records[at]);
    Some(Search { question, at, model, passes: 0, levers: Vec::new() })
}

impl Search {
    fn done(self, decision: Decision) -> Boundaries {
        let (model_id, stopped) = (self.model.model_id, decision.is_stopped());
        Boundaries { model_id, decision, stopped, levers: self.levers, passes: self.passes }
    }

    /// One pass, with this record in the varied one's place.
    fn decide(&mut self, varied: KernelModel) -> Decision {
        self.passes += 1;
        self.question.records[self.at].1 = varied;
        decide(&self.question).0
    }

    fn decide_at(&mut self, lever: Lever, setting: u64) -> Decision {
        self.decide(set(self.model, lever, setting))
    }

    fn wins(&mut self, lever: Lever, setting: u64) -> bool {
        self.decide_at(lever, setting).selects(self.model.model_id)
    }

    /// The high end first, then middles rounded down.
    fn lowest(&mut self, lever: Lever, mut low: u64, mut high: u64) -> Option<u64> {
        if low > high || !self.wins(lever, high) {
            return None;
        }
        while low != high {
            let middle = low + (high - low) / 2;
            match self.wins(lever, middle) {
                true => high = middle,
                false => low = middle + 1,
            }
        }
        Some(high)
    }

    /// The low end first, then middles rounded up.
    fn highest(&mut self, lever: Lever, mut low: u64, mut high: u64) -> Option<u64> {
        if low > high || !self.wins(lever, low) {
            return None;
        }
        while low != high {
            let middle = high - (high - low) / 2;
            match self.wins(lever, middle) {
                true => low = middle,
                false => high = middle - 1,
            }
        }
        Some(low)
    }

    /// The price carries its cost there, which takes one more pass.
    fn found(&mut self, lever: Lever, today: u64, bound: u64) {
        let cost = (lever == Lever::Price).then(|| self.decide_at(lever, bound).cost);
        self.levers.push(Boundary { lever, today, bound, cost });
    }

    fn found_if(&mut self, lever: Lever, today: u64, bound: Option<u64>) {
        if let Some(bound) = bound {
            self.found(lever, today, bound);
        }
    }
}

fn set(mut model: KernelModel, lever: Lever, setting: u64) -> KernelModel {
    match lever {
        Lever::Quality => model.quality_bps = u16::try_from(setting).expect("within its range"),
        Lever::Latency => model.p95_latency_ms = u32::try_from(setting).expect("within its range"),
        Lever::Ceiling => model.risk_ceiling_bps = u16::try_from(setting).expect("within its range"),
        Lever::Enabled => model.enabled = u8::try_from(setting).expect("within its range"),
        Lever::Price => {
            for price in [
                &mut model.input_cost_microunits_per_million_tokens,
                &mut model.output_cost_microunits_per_million_tokens,
            ] {
                *price = scaled_price(*price, setting);
            }
        }
    }
    model
}
