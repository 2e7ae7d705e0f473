//! `ask_text`: what `ask ID` prints.
use super::program;
use super::{Answer, Call, Handed, PLAIN};
use crate::case::Ask;
use crate::judges::Judge;
use crate::second::deciding::Question;
use crate::second::forms::PROGRAM_INPUT;
use crate::second::printed::{ask_lines, refused_line};
use crate::second::refusals::{Passed, Refusal};

pub const CALL: Call = Call {
    name: "ask_text",
    takes: &[Handed::Form, Handed::Id, Handed::Out],
    tags: PROGRAM_INPUT,
    many_passes: true,
    need,
    second,
    rules: program::rules,
    answer,
    ..PLAIN
};

fn need(ask: &Ask) -> usize {
    program::need(&CALL, ask)
}

fn second(ask: &Ask) -> Passed {
    program::second(&CALL, ask)
}

fn answer(ask: &Ask, judge: &dyn Judge) -> Answer {
    program::answer(ask, judge, report, |refusal| refused_line(refusal.number))
}

fn report(judge: &dyn Judge, question: &Question, id: u32) -> Result<String, Refusal> {
    program::boundaries(judge, question, id).map(|found| ask_lines(&found))
}
