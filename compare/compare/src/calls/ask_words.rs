//! `ask_words`: what `ask ID words` prints.
use super::program;
use super::{Answer, Call, Handed, PLAIN};
use crate::case::Ask;
use crate::judges::Judge;
use crate::second::deciding::Question;
use crate::second::forms::PROGRAM_INPUT;
use crate::second::refusals::{Passed, Refusal};
use crate::second::words::{ask_words, refused_words};

pub const CALL: Call = Call {
    name: "ask_words",
    takes: &[Handed::Form, Handed::Id, Handed::Out],
    tags: PROGRAM_INPUT,
    many_passes: true,
    need,
    second,
    rules: program::rules,
    answer,
    ..PLAIN
};

fn need(ask: &Ask) -> usize {
    program::need(&CALL, ask)
}

fn second(ask: &Ask) -> Passed {
    program::second(&CALL, ask)
}

fn answer(ask: &Ask, judge: &dyn Judge) -> Answer {
    program::answer(ask, judge, report, |refusal| refused_words(ask.id, refusal))
}

fn report(judge: &dyn Judge, question: &Question, id: u32) -> Result<String, Refusal> {
    let found = program::boundaries(judge, question, id)?;
    let told = judge.explanation(question).1.into_iter().find(|told| told.id == id).map(|told| told.verdict);
    Ok(ask_words(question, id, told, &found))
}
