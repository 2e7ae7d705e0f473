//! What the programs print, for an input of their kind: a stored form, of any policy, with a request form after it.
//! An input that they refuse is no refusal here: its text begins with the line `refused N`, and in words a sentence follows.
use crate::ffi;
use crate::layout::{broken, Fields, ASK_TEXT_BYTES, ASK_WORDS_BYTES, UNIT_TEXT_BYTES};
use crate::refusal::Refusal;

/// What `unit` prints: decision, counts and margin. Never refused.
pub fn unit_text(input: &[u8]) -> Result<String, Refusal> {
    let mut out = [0; UNIT_TEXT_BYTES];
    Refusal::told(ffi::unit_text(input, &mut out))?;
    Ok(text(&out))
}

/// What `ask ID` prints: what would make a model win, in lines. Never refused.
pub fn ask_text(input: &[u8], model_id: u32) -> Result<String, Refusal> {
    let mut out = [0; ASK_TEXT_BYTES];
    Refusal::told(ffi::ask_text(input, model_id, &mut out))?;
    Ok(text(&out))
}

/// The same in words, as `ask ID words` prints it: who was chosen, why the model was not, and what would make it the choice; or what refuses
/// the input. Never refused.
pub fn ask_words(input: &[u8], model_id: u32) -> Result<String, Refusal> {
    let mut out = [0; ASK_WORDS_BYTES];
    Refusal::told(ffi::ask_words(input, model_id, &mut out))?;
    Ok(text(&out))
}

/// The text behind its length.
fn text(answer: &[u8]) -> String {
    let mut fields = Fields(answer);
    let length = fields.u64() as usize;
    let text = fields.0.get(..length).and_then(|bytes| std::str::from_utf8(bytes).ok());
    text.unwrap_or_else(|| broken("a text that is none")).to_owned()
}
