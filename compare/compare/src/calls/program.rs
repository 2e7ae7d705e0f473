//! What the three calls that print share: the input, its tests, and a text as an answer.
use super::{Answer, By, Call};
use crate::case::Ask;
use crate::judges::Judge;
use crate::second::boundaries::Boundaries;
use crate::second::bytes::models_of;
use crate::second::deciding::Question;
use crate::second::forms::input_of;
use crate::second::refusals::{self, Passed, Refusal};
use crate::second::rules::Rules;

/// What one of the calls prints for an input that passed, or why it is refused.
type Report = fn(&dyn Judge, &Question, u32) -> Result<String, Refusal>;

/// What would make the model win; 5 where it isn't listed.
pub fn boundaries(judge: &dyn Judge, question: &Question, id: u32) -> Result<Boundaries, Refusal> {
    judge.what_would_win(question, id).ok_or(Refusal::of(refusals::NOT_LISTED))
}

/// The text with its length before it. It is the second reading's that says how much room is needed.
pub fn need(call: &Call, ask: &Ask) -> usize {
    call.reading(ask).out.len()
}

/// 4.
pub fn second(call: &Call, ask: &Ask) -> Passed {
    refusals::room(ask.room, need(call, ask))
}

/// Of the policy in the form.
pub fn rules(ask: &Ask) -> Rules {
    input_of(&ask.form).map_or(Rules::RUST, |input| Rules::of(&input.policy))
}

/// The text of a call's own, or what it prints for bad input: 20 to 23, 25 and 19, which the Rust doesn't have, then those of the judge.
pub fn answer(ask: &Ask, judge: &dyn Judge, report: Report, refused: impl Fn(Refusal) -> String) -> Answer {
    let (by, told) = match input_of(&ask.form) {
        Err(refusal) => (By::Second, Err(refusal)),
        Ok(input) => {
            let question = Question::over(input.policy.by(ask.rules), input.request, models_of(input.bank));
            (By::Printed, judged(judge, &question, ask.id, report))
        }
    };
    let text = told.unwrap_or_else(refused).into_bytes();
    let out = [&(text.len() as u64).to_le_bytes()[..], &text].concat();
    Answer { by, ..Answer::of(out) }
}

/// 10 to 15, then 3, then what the call itself says.
fn judged(judge: &dyn Judge, question: &Question, id: u32, report: Report) -> Result<String, Refusal> {
    judge.validation(&question.policy, &question.models())?;
    judge.request_limits(&question.request)?;
    report(judge, question, id)
}
