//! `unit_text`: what the unit's program prints.
use super::program;
use super::{Answer, Call, Handed, PLAIN};
use crate::case::Ask;
use crate::judges::Judge;
use crate::second::deciding::Question;
use crate::second::forms::PROGRAM_INPUT;
use crate::second::printed::{refused_line, unit_lines};
use crate::second::refusals::{Passed, Refusal};

pub const CALL: Call = Call {
    name: "unit_text",
    takes: &[Handed::Form, Handed::Out],
    tags: PROGRAM_INPUT,
    many_passes: true,
    need,
    second,
    rules: program::rules,
    answer,
    ..PLAIN
};

fn need(ask: &Ask) -> usize {
    program::need(&CALL, ask)
}

fn second(ask: &Ask) -> Passed {
    program::second(&CALL, ask)
}

fn answer(ask: &Ask, judge: &dyn Judge) -> Answer {
    program::answer(ask, judge, report, |refusal| refused_line(refusal.number))
}

fn report(judge: &dyn Judge, question: &Question, _: u32) -> Result<String, Refusal> {
    let (decision, counts) = judge.decision(question);
    let levers = judge.decision_margin(question).map_or(Vec::new(), |margin| margin.levers);
    Ok(unit_lines(&decision, &counts, &levers))
}
