//! What the unit's program prints, as document 01 has it, and the lines in which the desk's question is answered, which are the same but
//! for the last: it tells the passes. Only the text is made here, of what a judge tells.
use super::boundaries::{Boundaries, Boundary};
use super::deciding::{Counts, Decision};

/// Before a text stands its length in bytes.
pub const LENGTH_BYTES: usize = 8;

fn line(name: &str, words: &[String]) -> String {
    format!("{name} {}\n", words.join(" "))
}

fn decision_line(d: &Decision) -> String {
    let numbers = [
        d.sequence.to_string(),
        d.action.to_string(),
        d.reason.to_string(),
        d.model_id.to_string(),
        d.place.to_string(),
        d.cost.to_string(),
        d.utility.to_string(),
        d.other_id.to_string(),
        d.other_utility.to_string(),
        d.evaluated.to_string(),
        d.eligible.to_string(),
        d.policy_epoch.to_string(),
        d.catalog_epoch.to_string(),
    ];
    line("decision", &numbers)
}

/// A lever without a cost has a dash in its place.
fn lever_line(lever: &Boundary) -> String {
    let cost = lever.cost.map_or("-".into(), |cost| cost.to_string());
    let number = (lever.lever as u8).to_string();
    line("lever", &[number, lever.today.to_string(), lever.bound.to_string(), cost])
}

fn lever_lines(levers: &[Boundary]) -> String {
    levers.iter().map(lever_line).collect()
}

/// A rejection has no levers, and two lines.
pub fn unit_lines(decision: &Decision, counts: &Counts, levers: &[Boundary]) -> String {
    let counts = counts.map(|count| count.to_string());
    decision_line(decision) + &line("rejected", &counts) + &lever_lines(levers)
}

pub fn ask_lines(found: &Boundaries) -> String {
    decision_line(&found.decision) + &lever_lines(&found.levers) + &line("passes", &[found.passes.to_string()])
}

/// Bad input prints this alone.
pub fn refused_line(number: u8) -> String {
    line("refused", &[number.to_string()])
}
