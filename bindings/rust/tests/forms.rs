//! Stored form, request form and texts: round trips, and the worked example's bytes and lines.
mod common;
use common::{example_bank, many, Source, FIRST, FREE, FREE_ONCE, ONCE, POLICY, REQUEST, SECOND, UNIT_INPUT};
use volankizo::{
    ask_text, ask_words, read_request, read_stored, read_stored_into, unit_text, write_request, write_stored, Bank,
    KernelInput, KernelModel, PolicySnapshot, Rounding, MAX_STORED_MODELS,
};

const LINES: &str = "\
decision 42 2 2 2 1 300 6200 1 5200 2 2 7 3
rejected 0 0 0 0 0 0 0 0 0
lever 1 8000 7000 -
lever 2 50 150 -
lever 3 1000000 4330000 1299
lever 4 8000 1000 -
";

const CHOSEN: &str = "Chosen: model 2, at a cost of 300 microunits, with a utility of 6200 microunits.\n";

const WORDS: &str = "\
Model 1 is outranked by model 2: its utility of 5200 microunits is below 6200.
Price alone: it must fall by 55.7 percent or more; exactly, by 55.6667 percent, to 44.3333 percent of today's, \
where the request costs 798 microunits.
";

const ALREADY: &str = "\
Model 2 is chosen already.
Price alone: not searched, since the model is chosen already.
";

const THREE: &str = "\
Model 1 is outranked by model 2: its utility of 6100 microunits is below 6200.
Price alone: it must fall by 11.4 percent or more; exactly, by 11.3334 percent, to 88.6666 percent of today's, \
where the request costs 798 microunits.
Quality alone: 9000 basis points today; it must rise to at least 9101.
Latency alone: 100 ms today; it must fall to at most 89 ms.
";

/// The same with tag 4, as `examples/inputs` has it, and what is printed for it.
const ONCE_INPUT: &[u8] = include_bytes!("../../../examples/inputs/once.bin");
const ONCE_LINES: &str = include_str!("../../../examples/inputs/once.txt");

/// With tag 5, and with both.
const FREE_INPUT: &[u8] = include_bytes!("../../../examples/inputs/free.bin");
const FREE_LINES: &str = include_str!("../../../examples/inputs/free.txt");
const FREE_ONCE_INPUT: &[u8] = include_bytes!("../../../examples/inputs/free-once.bin");
const FREE_ONCE_LINES: &str = include_str!("../../../examples/inputs/free-once.txt");

#[test]
fn the_example_in_bytes() {
    let form = write_stored(&POLICY, &example_bank()).unwrap();
    let request = write_request(REQUEST).unwrap();
    assert_eq!([&form[..], &request].concat(), UNIT_INPUT);
    assert_eq!(read_stored(&UNIT_INPUT[..130]), Ok((POLICY, example_bank())));
    assert_eq!(read_request(&UNIT_INPUT[130..]), Ok(REQUEST));
}

#[test]
fn what_was_written_is_read_and_written_again() {
    let mut source = Source(5);
    for models in [0, 1, 2, 3, 17, 900, MAX_STORED_MODELS] {
        let numbers = PolicySnapshot::from_bytes(&source.bytes(30)).unwrap();
        let bank = Bank::from_bytes(source.bytes(47 * models));
        let kinds = [
            (Rounding::Apart, 0, 36),
            (Rounding::Once, 0, 40),
            (Rounding::Apart, 1, 43),
            (Rounding::Once, 1 + source.below(1 << 31) as u32, 47),
        ];
        for (rounding, latency_allowance_ms, more) in kinds {
            let policy = PolicySnapshot { rounding, latency_allowance_ms, ..numbers };
            let form = write_stored(&policy, &bank).unwrap();
            assert_eq!(form.len(), more + bank.len());
            let (read, models) = read_stored(&form).unwrap();
            assert_eq!((read, &models), (policy, &bank));
            assert_eq!(write_stored(&read, &models), Ok(form));
        }
    }
    for _ in 0..100 {
        let input = KernelInput::from_bytes(&source.bytes(70).try_into().unwrap());
        let form = write_request(input).unwrap();
        assert_eq!(read_request(&form), Ok(input));
    }
}

#[test]
fn reading_leaves_the_rest_of_the_buffer() {
    let form = write_stored(&POLICY, &example_bank()).unwrap();
    let mut buffer = vec![0xaa; 120];
    assert_eq!(read_stored_into(&form, &mut buffer), Ok((POLICY, 94)));
    assert_eq!(buffer[..94], example_bank()[..]);
    assert!(buffer[94..].iter().all(|byte| *byte == 0xaa));
    let empty = write_stored(&POLICY, &[]).unwrap();
    assert_eq!(read_stored_into(&empty, &mut []), Ok((POLICY, 0)));
    let empty = write_stored(&ONCE, &[]).unwrap();
    assert_eq!(read_stored_into(&empty, &mut []), Ok((ONCE, 0)));
}

#[test]
fn the_example_rounding_once() {
    let form = write_stored(&ONCE, &example_bank()).unwrap();
    assert_eq!(form, [&UNIT_INPUT[..130], &[4, 1, 0, 1]].concat());
    assert_eq!(read_stored(&form), Ok((ONCE, example_bank())));
    let input = [&form[..], &UNIT_INPUT[130..]].concat();
    assert_eq!(input, ONCE_INPUT);
    assert_eq!(unit_text(&input).unwrap(), ONCE_LINES);
    let lines = "decision 42 2 2 2 1 300 6200 1 5200 2 2 7 3\nlever 3 1000000 443888 799\npasses 26\n";
    assert_eq!(ask_text(&input, 1).unwrap(), lines);
    let words = ask_words(&input, 1).unwrap();
    let price = "Price alone: it must fall by 55.7 percent or more; exactly, by 55.6112 percent, to 44.3888 percent of today's, \
                 where the request costs 799 microunits.";
    assert_eq!(words.lines().last(), Some(price));
}

/// Nothing is charged for 50 ms and for 100, so that model 1 is behind by 500 in place of 1,000.
#[test]
fn the_example_with_an_allowance() {
    let (rounding, allowance) = ([4, 1, 0, 1], [5, 4, 0, 200, 0, 0, 0]);
    let forms = [FREE, FREE_ONCE].map(|policy| write_stored(&policy, &example_bank()).unwrap());
    assert_eq!(forms[0], [&UNIT_INPUT[..130], &allowance].concat());
    assert_eq!(forms[1], [&UNIT_INPUT[..130], &rounding, &allowance].concat());
    assert_eq!(forms.each_ref().map(|form| read_stored(form).unwrap().0), [FREE, FREE_ONCE]);
    let inputs = forms.map(|form| [&form[..], &UNIT_INPUT[130..]].concat());
    assert_eq!(inputs, [FREE_INPUT, FREE_ONCE_INPUT]);
    assert_eq!(inputs.each_ref().map(|input| unit_text(input).unwrap()), [FREE_LINES, FREE_ONCE_LINES]);
    let lines =
        "decision 42 2 2 2 1 300 6700 1 6200 2 2 7 3\nlever 1 9000 9501 -\nlever 3 1000000 721333 1299\npasses 36\n";
    assert_eq!(ask_text(FREE_INPUT, 1).unwrap(), lines);
    let words = ask_words(FREE_INPUT, 1).unwrap();
    assert!(words.contains("its utility of 6200 microunits is below 6700") && !words.contains("Latency"), "{words}");
}

#[test]
fn the_six_lines() {
    assert_eq!(unit_text(UNIT_INPUT).unwrap(), LINES);
}

#[test]
fn a_rejection_has_two_lines() {
    let mut input = write_stored(&POLICY, &example_bank()).unwrap();
    input.extend(write_request(KernelInput { risk_bps: 9_000, ..REQUEST }).unwrap());
    let text = unit_text(&input).unwrap();
    assert_eq!(text.lines().collect::<Vec<_>>()[0], "decision 42 3 100 0 65535 0 0 0 0 0 0 7 3");
    assert_eq!(text.lines().count(), 2);
}

#[test]
fn the_desks_question() {
    let text = ask_text(UNIT_INPUT, 1).unwrap();
    assert_eq!(text, "decision 42 2 2 2 1 300 6200 1 5200 2 2 7 3\nlever 3 1000000 443333 798\npasses 26\n");
    assert_eq!(ask_words(UNIT_INPUT, 1).unwrap(), [CHOSEN, WORDS].concat());
    assert_eq!(ask_words(UNIT_INPUT, 2).unwrap(), [CHOSEN, ALREADY].concat());
    assert_eq!(ask_text(UNIT_INPUT, 3).unwrap(), "refused 5\n");
    assert_eq!(ask_words(UNIT_INPUT, 3).unwrap(), "refused 5\nModel 3 is not listed.\n");
}

#[test]
fn a_sentence_for_each_lever() {
    let first = KernelModel { output_cost_microunits_per_million_tokens: 6_000_000, ..FIRST };
    let mut input = write_stored(&POLICY, &Bank::from_models(&[first, SECOND])).unwrap();
    input.extend(write_request(REQUEST).unwrap());
    assert_eq!(ask_words(&input, 1).unwrap(), [CHOSEN, THREE].concat());
}

#[test]
fn the_longest_texts_have_room() {
    let mut input = write_stored(&POLICY, &many(900)).unwrap();
    input.extend(write_request(REQUEST).unwrap());
    assert!(unit_text(&input).unwrap().starts_with("decision 42 1 1 1 0 300 6200 2 6200 900 900 7 3\n"));
    assert!(ask_words(&input, 900).unwrap().ends_with('\n'));
}
