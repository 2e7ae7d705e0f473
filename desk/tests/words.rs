//! `desk why --numbers` says what `ask ID words` prints, byte by byte.
mod common;
use common::{random_list, random_request, Dice};
use desk::speech::Speech;
use desk::why::sentences;
use std::collections::BTreeSet;
use volankizo::{ask_words, write_request, write_stored};

#[test]
fn sentences_are_those_of_ask() {
    let (mut dice, mut kinds) = (Dice::new(17), BTreeSet::new());
    for _ in 0..400 {
        let (count, input) = (1 + dice.below(12) as usize, random_request(&mut dice));
        let desk = random_list(count, &mut dice);
        let stored = write_stored(&desk.policy.policy, &desk.bank).expect("a stored form");
        let form = [stored, write_request(input).expect("a request form").to_vec()].concat();
        let speech = Speech { desk: &desk, numbers: true };
        for (place, named) in desk.models.models.iter().enumerate() {
            let said: String =
                sentences(&speech, input, place).expect("sentences").into_iter().map(|line| line + "\n").collect();
            assert_eq!(said, ask_words(&form, named.model.model_id).expect("a text"), "{input:?}, {named:?}");
            kinds.extend(said.lines().map(kind));
        }
    }
    // The requests are of all kinds, or the comparison would say little.
    assert!(kinds.len() >= 25, "{kinds:#?}");
}

/// A sentence without its numbers.
fn kind(line: &str) -> String {
    line.chars().filter(|letter| !letter.is_ascii_digit()).collect()
}
