//! The desk's sentences. Document 01 has none: this is a second reading of the port's own rule for them, `crates/rules/specs/Words.antt` and the files
//! that it names.
use super::boundaries::{Boundaries, Boundary, Lever};
use super::deciding::{Question, Verdict};
use super::gates::Failed;
use super::printed::refused_line;
use super::refusals::{Refusal, MOST_BPS};

/// Today's price in millionths of itself.
const TODAY: u64 = 1_000_000;

/// What is said of the model with an id, of which the judge told this verdict.
pub fn ask_words(question: &Question, id: u32, told: Option<Verdict>, found: &Boundaries) -> String {
    let lines = [vec![choice(question, found)], requested(question), asked_about(question, id, told, found)].concat();
    lines.into_iter().map(|line| line + "\n").collect()
}

/// Who was chosen, or why nobody was.
fn choice(question: &Question, found: &Boundaries) -> String {
    let (policy, request, decision) = (&question.policy, &question.request, &found.decision);
    if decision.executes() {
        let (id, cost, utility) = (decision.model_id, decision.cost, decision.utility);
        return format!("Chosen: model {id}, at a cost of {cost} microunits, with a utility of {utility} microunits.");
    }
    let why = match decision.reason {
        100 => format!(
            "the request is stopped, since its risk of {} basis points is not below the policy's hard limit of {}",
            request.risk_bps, policy.hard_risk_limit_bps
        ),
        101 => format!(
            "the request is stopped, since its confidence of {} basis points is below the policy's minimum of {}",
            request.confidence_bps, policy.minimum_confidence_bps
        ),
        reason => format!("no model is eligible, with reason {reason}"),
    };
    format!("Nothing is chosen: {why}.")
}

/// The requested model, where it isn't listed.
fn requested(question: &Question) -> Vec<String> {
    let id = question.request.requested_model_id;
    match question.listed(id) {
        Some(_) => Vec::new(),
        None => vec![format!("The requested model {id} is not listed.")],
    }
}

fn asked_about(question: &Question, id: u32, told: Option<Verdict>, found: &Boundaries) -> Vec<String> {
    if found.stopped {
        return vec!["No change to a model would help.".into(), unsearched("the request is stopped")];
    }
    if found.decision.selects(id) {
        return vec![format!("Model {id} is chosen already."), unsearched("the model is chosen already")];
    }
    let verdict = told.expect("every listed record is told something");
    let standing = format!("Model {id} {}", standing(question, id, verdict, found));
    let off = matches!(verdict, Verdict::Rejected(Failed { gate: 1, .. }));
    let rest = if off { switched_off(found) } else { levers(found) };
    [vec![standing], rest].concat()
}

/// Why it was not chosen.
fn standing(question: &Question, id: u32, verdict: Verdict, found: &Boundaries) -> String {
    match verdict {
        Verdict::Rejected(failed) => gate(failed),
        Verdict::OverBudget { cost, budget } => {
            format!("is over budget: it costs {cost} microunits, {} more than the budget of {budget}.", cost - budget)
        }
        Verdict::NonPositive(terms) => {
            format!("is rejected: its utility of {} microunits is not above 0.", terms.utility)
        }
        Verdict::Eligible(terms) => {
            let best = &found.decision;
            let quality = |id| question.listed(id).expect("a listed model").quality_bps;
            let own = (terms.utility, terms.cost, quality(id));
            let ahead = (best.utility, best.cost, quality(best.model_id));
            format!("is outranked by model {}: {}.", best.model_id, key(own, ahead))
        }
    }
}

/// The first of utility, cost and quality in which two models differ; the ids do in any case.
fn key(own: (i64, u64, u16), ahead: (i64, u64, u16)) -> String {
    if own.0 != ahead.0 {
        format!("its utility of {} microunits is below {}", own.0, ahead.0)
    } else if own.1 != ahead.1 {
        format!("at the same utility, its cost of {} microunits is above {}", own.1, ahead.1)
    } else if own.2 != ahead.2 {
        format!("at the same utility and cost, its quality of {} basis points is below {}", own.2, ahead.2)
    } else {
        "at the same utility, cost and quality, the lower id goes first".into()
    }
}

fn gate(failed: Failed) -> String {
    let (measured, limit) = (failed.measured, failed.limit);
    let why = match failed.gate {
        1 => return "is switched off.".into(),
        2 => format!("its quality of {measured} basis points is below the {limit} required"),
        3 => format!("its latency of {measured} ms is above the limit of {limit} ms"),
        4 => format!("its capabilities, mask {measured}, lack some of those required, mask {limit}"),
        5 => format!("its provider {measured} is above {limit}"),
        6 => format!("its provider {measured} is not among those allowed, mask {limit}"),
        7 => format!("its regions, mask {measured}, have none of those required, mask {limit}"),
        _ => format!("the request's risk of {measured} basis points is above its ceiling of {limit}"),
    };
    format!("is rejected: {why}.")
}

fn unsearched(why: &str) -> String {
    format!("Price alone: not searched, since {why}.")
}

fn switched_off(found: &Boundaries) -> Vec<String> {
    let then = if found.levers.is_empty() { "would still not" } else { "would" };
    vec![unsearched("the model is switched off"), format!("Switched on, it {then} be chosen.")]
}

/// The price first, then each other lever.
fn levers(found: &Boundaries) -> Vec<String> {
    let (prices, others): (Vec<&Boundary>, Vec<&Boundary>) =
        found.levers.iter().partition(|lever| lever.lever == Lever::Price);
    let price = prices.first().map_or("no price, not even 0, would make it the choice".into(), |lever| fall(lever));
    let mut lines = vec![format!("Price alone: {price}.")];
    lines.extend(others.into_iter().map(sentence));
    if found.levers.is_empty() {
        lines.push("Nor would its quality, latency or risk ceiling alone.".into());
    }
    lines
}

fn fall(lever: &Boundary) -> String {
    let less = TODAY.saturating_sub(lever.bound);
    let told = format!("it must fall by {} or more; exactly, by {}", percent_up(less), percent(less));
    let then = lever.cost.map_or(String::new(), |cost| format!(", where the request costs {cost} microunits"));
    format!("{told}, to {} of today's{then}", percent(lever.bound))
}

fn sentence(lever: &Boundary) -> String {
    let (today, bound) = (lever.today, lever.bound);
    let rise = |name| format!("{name} alone: {today} basis points today; it must rise to at least {bound}.");
    match lever.lever {
        Lever::Quality => rise("Quality"),
        Lever::Ceiling => rise("Risk ceiling"),
        Lever::Latency => format!("Latency alone: {today} ms today; it must fall to at most {bound} ms."),
        Lever::Price | Lever::Enabled => unreachable!("said before"),
    }
}

/// Millionths as percent, with four digits after the point.
fn percent(millionths: u64) -> String {
    format!("{}.{:04} percent", millionths / 10_000, millionths % 10_000)
}

/// The same with one digit: the fewest tenths that are no less.
fn percent_up(millionths: u64) -> String {
    let tenths = millionths.div_ceil(1_000);
    format!("{}.{} percent", tenths / 10, tenths % 10)
}

/// The line of a refusal and its sentence, by the id that was asked about.
pub fn refused_words(asked: u32, refusal: Refusal) -> String {
    let said = fault(asked, refusal).map_or(String::new(), |said| said + "\n");
    refused_line(refusal.number) + &said
}

fn fault(asked: u32, refusal: Refusal) -> Option<String> {
    let (id, value) = (refusal.id_or_place, refusal.value);
    let said = match refusal.number {
        3 | 10 => format!("The {} is {}", field(refusal.field), too_high(value, most(refusal.field))),
        5 => format!("Model {asked} is not listed."),
        11 => "No model is listed.".into(),
        12 => format!("Model {id} is listed more than once."),
        13 => format!("Model {id} has provider {value}; providers go from 0 to 63."),
        14 => format!("Model {id} has a {} of {}", field(refusal.field), too_high(value, MOST_BPS)),
        15 => "Every model is switched off.".into(),
        19 => "More than 900 models are listed.".into(),
        20 => "The input ends within a field.".into(),
        21 => "A field of the input is missing, out of its order, or one too many.".into(),
        22 => "A field of the input has a length that its tag does not have.".into(),
        23 => "The input's rounding, under tag 4, is not 1.".into(),
        25 => "The input's latency allowance, under tag 5, is 0.".into(),
        _ => return None,
    };
    Some(said)
}

fn field(number: u8) -> &'static str {
    match number {
        1 => "request's risk",
        2 => "request's confidence",
        3 => "request's minimum quality",
        4 => "policy's hard risk limit",
        5 => "policy's minimum confidence",
        6 => "policy's risk multiplier",
        7 => "quality",
        _ => "risk ceiling",
    }
}

/// The multiplier may be higher than the others.
fn most(field: u8) -> u16 {
    if field == 6 {
        50_000
    } else {
        MOST_BPS
    }
}

fn too_high(value: u16, most: u16) -> String {
    format!("{value} basis points; at most {most} are allowed.")
}

#[cfg(test)]
mod tests {
    use super::*;

    #[test]
    fn a_percentage_has_four_digits_after_the_point() {
        assert_eq!(
            [0, 1, 443_333, 1_000_000].map(percent),
            ["0.0000 percent", "0.0001 percent", "44.3333 percent", "100.0000 percent"]
        );
    }

    #[test]
    fn or_one_rounded_up() {
        assert_eq!(
            [0, 1, 1_000, 1_001, 556_667, 999_001, 1_000_000].map(percent_up),
            [
                "0.0 percent",
                "0.1 percent",
                "0.1 percent",
                "0.2 percent",
                "55.7 percent",
                "100.0 percent",
                "100.0 percent"
            ]
        );
    }
}
