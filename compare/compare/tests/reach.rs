//! The inputs reach every rule: each refusal of each call, each reason, each count, each key of the ranking, each extreme, each verdict,
//! each lever, each line, each sentence, and free slots and edits of each kind.
use compare::calls::{
    ADD, ASK, CALLS, COMPACT, EXPLAIN, LIVE_EXPLAIN, LIVE_MARGIN, LIVE_PRESCRIBE, LIVE_WIN, MARGIN, NEXT, READ_STORED,
    REMOVE, REPLACE, TRUST, UNIT, WIN, WORDS, WRITE_STORED,
};
use compare::case::Case;
use compare::figures::{Figures, ALLOWANCES, COUNTS, EXTREMES, KEYS, LATENCIES, LEVERS, ROUNDINGS, SEARCHED};
use compare::generate::{Asked, Draw, Policies, DRAWS, SPACES};

fn note(figures: &mut Figures, asked: &Asked, case: &Case) {
    for (at, call) in CALLS.iter().enumerate().filter(|(at, _)| asked.asks(*at, case)) {
        figures.note(at, case, &call.owed_on(case));
    }
}

/// The refusals of each call, in the order of `CALLS`. 2 takes a bank of 65,536 records and 18 one of 1,395: the small spaces alone reach
/// them, and are asked for them apart. 25 takes a form that says an allowance.
const REFUSED: [&[u8]; CALLS.len()] = [
    &[1, 4, 22, 23],
    &[1, 3, 4, 22, 23],
    &[1, 4, 7, 22, 23],
    &[1, 4],
    &[3, 22],
    &[1, 4, 22, 23],
    &[4],
    &[1, 10, 11, 12, 13, 14, 15, 22, 23],
    &[1, 10, 11, 12, 13, 14, 15, 16, 17, 22, 23],
    &[1, 4, 5, 22, 23],
    &[1, 4, 6, 22, 23],
    &[1, 4, 8],
    &[1, 4, 22, 23],
    &[4, 20, 21, 22, 23],
    &[4, 22],
    &[4, 20, 21, 22],
    &[4],
    &[4],
    &[4],
    &[1, 4, 22, 23, 34],
    &[1, 3, 4, 22, 23, 34],
    &[1, 4, 22, 23, 34],
    &[1, 4, 34],
    &[1, 4, 7, 22, 23, 34],
    &[1, 4, 5, 22, 23, 34],
    &[1, 4, 6, 22, 23, 34],
    &[1, 4, 12, 16, 22, 23, 27, 28, 34],
    &[1, 4, 5, 16, 22, 23, 27, 34],
    &[1, 4, 5, 16, 22, 23, 27, 34],
    &[1, 4, 22, 23, 27, 34],
    &[1, 4, 22, 23],
    &[1, 3, 4, 22, 23],
];

/// What each call prints in place of an answer, from the third on by the desk alone; 19 takes 901 models, and random cases may miss it.
const PRINTED_REFUSED: [u8; 11] = [3, 10, 11, 12, 13, 14, 15, 20, 21, 22, 23];

/// The sentences without their numbers, as far as they are told apart. A provider above 63 has been refused before.
const SENTENCES: [&str; 42] = [
    "A field of the input has a length that its tag does not have",
    "A field of the input is missing, out of its order, or one to",
    "Chosen: model , at a cost of  microunits, with a utility of ",
    "Every model is switched off.",
    "Latency alone:  ms today; it must fall to at most  ms.",
    "Model  has a quality of  basis points; at most  are allowed.",
    "Model  has a risk ceiling of  basis points; at most  are all",
    "Model  has provider ; providers go from  to .",
    "Model  is chosen already.",
    "Model  is listed more than once.",
    "Model  is not listed.",
    "Model  is outranked by model : its utility of  microunits is",
    "Model  is over budget: it costs  microunits,  more than the ",
    "Model  is rejected: its capabilities, mask , lack some of th",
    "Model  is rejected: its latency of  ms is above the limit of",
    "Model  is rejected: its provider  is not among those allowed",
    "Model  is rejected: its quality of  basis points is below th",
    "Model  is rejected: its regions, mask , have none of those r",
    "Model  is rejected: its utility of - microunits is not above",
    "Model  is rejected: the request's risk of  basis points is a",
    "Model  is switched off.",
    "No change to a model would help.",
    "No model is listed.",
    "Nor would its quality, latency or risk ceiling alone.",
    "Nothing is chosen: no model is eligible, with reason .",
    "Nothing is chosen: the request is stopped, since its confide",
    "Nothing is chosen: the request is stopped, since its risk of",
    "Price alone: it must fall by . percent or more; exactly, by ",
    "Price alone: no price, not even , would make it the choice.",
    "Price alone: not searched, since the model is chosen already",
    "Price alone: not searched, since the model is switched off.",
    "Price alone: not searched, since the request is stopped.",
    "Quality alone:  basis points today; it must rise to at least",
    "Risk ceiling alone:  basis points today; it must rise to at ",
    "Switched on, it would be chosen.",
    "Switched on, it would still not be chosen.",
    "The input ends within a field.",
    "The input's rounding, under tag , is not .",
    "The policy's hard risk limit is  basis points; at most  are ",
    "The policy's minimum confidence is  basis points; at most  a",
    "The policy's risk multiplier is  basis points; at most  are ",
    "The requested model  is not listed.",
];

/// Those that random cases may miss.
const RARE_SENTENCES: [&str; 8] = [
    "Model  is outranked by model : at the same utility and cost,",
    "Model  is outranked by model : at the same utility, cost and",
    "Model  is outranked by model : at the same utility, its cost",
    "Model  is rejected: its utility of  microunits is not above ",
    "More than  models are listed.",
    "The request's confidence is  basis points; at most  are allo",
    "The request's minimum quality is  basis points; at most  are",
    "The request's risk is  basis points; at most  are allowed.",
];

fn assert_seen(figures: &Figures, what: &str) {
    assert!(figures.seen.get(what).is_some_and(|times| *times > 10), "{what}");
}

fn assert_reached(figures: &Figures) {
    for (call, numbers) in REFUSED.iter().enumerate() {
        for number in *numbers {
            assert!(figures.refused.contains_key(&(call, *number)), "{} is refused {number}", CALLS[call].name);
        }
        let others = figures
            .refused
            .keys()
            .filter(|(of, number)| *of == call && ![2, 18, 25].contains(number) && !numbers.contains(number));
        assert_eq!(others.count(), 0, "{} is refused with no other number", CALLS[call].name);
    }
    let zero = figures.refused.keys().filter(|(_, number)| *number == 25);
    assert!(zero.into_iter().all(|(call, _)| *call == READ_STORED), "no other form that is read says an allowance");
    let reasons = [1, 2].into_iter().chain(100..=110).map(|reason| format!("reason {reason:3}"));
    let counts = COUNTS.iter().map(|count| format!("some rejected for {count}"));
    let keys = KEYS.map(|key| format!("first before second by {key}"));
    let extremes = EXTREMES.iter().map(|(name, _)| format!("some {name}"));
    reasons.chain(counts).chain(keys).chain(extremes).for_each(|what| assert_seen(figures, &what));
    let explained = [EXPLAIN, LIVE_EXPLAIN];
    let gates = explained.into_iter().flat_map(|call| (1..=8).map(move |gate| (call, gate)));
    let gates = gates.map(|(call, gate)| (call, format!("some with verdict 1, gate {gate}")));
    let verdicts = explained.into_iter().flat_map(|call| (2..=4).map(move |verdict| (call, verdict)));
    let verdicts = verdicts.map(|(call, verdict)| (call, format!("some with verdict {verdict}")));
    let levers = LEVERS.iter().flat_map(|lever| [WIN, LIVE_WIN].map(|call| (call, format!("lever {lever}"))));
    let margins =
        LEVERS[..4].iter().flat_map(|lever| [MARGIN, LIVE_MARGIN].map(|call| (call, format!("lever {lever}"))));
    let refused = [UNIT, ASK, WORDS].into_iter().flat_map(|call| PRINTED_REFUSED.map(|number| (call, number)));
    let refused =
        refused.chain([(ASK, 5), (WORDS, 5)]).map(|(call, number)| (call, format!("prints refused {number}")));
    let lines = (1..=4).map(|lever| (UNIT, format!("prints lever {lever}")));
    let lines = lines.chain((1..=5).map(|lever| (ASK, format!("prints lever {lever}"))));
    assert_said(figures, &SENTENCES);
    let others = [
        (UNIT, "prints decision"),
        (UNIT, "prints rejected"),
        (ASK, "prints passes"),
        (EXPLAIN, "no record"),
        (NEXT, "none"),
        (TRUST, "bank reordered"),
        (TRUST, "bank reordered, though refused"),
        (WIN, "1 pass, no search"),
        (WIN, SEARCHED),
        (MARGIN, SEARCHED),
        (LIVE_EXPLAIN, "no record"),
        (LIVE_WIN, "1 pass, no search"),
        (LIVE_WIN, SEARCHED),
        (LIVE_MARGIN, SEARCHED),
        (LIVE_PRESCRIBE, "no slot free"),
        (LIVE_PRESCRIBE, "some slots free"),
        (LIVE_PRESCRIBE, "every slot free"),
        (LIVE_PRESCRIBE, "another reason than over all slots"),
        (LIVE_PRESCRIBE, "chosen behind a free slot"),
        (ADD, "between live records"),
        (ADD, "to a bank with none"),
        (ADD, "after the last live record"),
        (REPLACE, "by the bytes that are there"),
        (REPLACE, "by others"),
        (REMOVE, "the first of several"),
        (REMOVE, "the only one"),
        (COMPACT, "nothing to move"),
        (COMPACT, "gaps closed"),
    ];
    let others = others.map(|(call, what)| (call, what.to_string()));
    let printed = refused.chain(lines);
    for (call, what) in gates.chain(verdicts).chain(levers).chain(margins).chain(printed).chain(others) {
        let times = figures.found.get(&(call, what.clone()));
        assert!(times.is_some_and(|times| *times > 10), "{}: {what}", CALLS[call].name);
    }
}

fn assert_said(figures: &Figures, sentences: &[&str]) {
    for sentence in sentences {
        let times = figures.found.get(&(WORDS, format!("says {sentence}")));
        assert!(times.is_some_and(|times| *times > 10), "ask_words: says {sentence}");
    }
}

/// How a policy may round.
fn assert_roundings(figures: &Figures) {
    ROUNDINGS.iter().for_each(|what| assert_seen(figures, what));
}

/// Allowances of every kind beside every kind of latency; the refusal of one that is 0, from the call and in each text, with its sentence; and edits
/// of policies that have one.
fn assert_allowances(figures: &Figures) {
    ALLOWANCES.iter().chain(LATENCIES.iter().map(|(name, _)| name)).for_each(|what| assert_seen(figures, what));
    assert!(figures.refused.get(&(READ_STORED, 25)).is_some_and(|times| *times > 10));
    let printed = [UNIT, ASK, WORDS].map(|call| (call, "prints refused 25"));
    let edited = [ADD, REPLACE, REMOVE, COMPACT].map(|call| (call, "policy of 35 bytes"));
    for (call, what) in printed.into_iter().chain(edited) {
        let times = figures.found.get(&(call, what.into()));
        assert!(times.is_some_and(|times| *times > 10), "{}: {what}", CALLS[call].name);
    }
    assert_said(figures, &["The input's latency allowance, under tag , is ."]);
}

#[test]
fn the_small_spaces_reach_everything() {
    let mut figures = Figures::default();
    for space in &SPACES {
        (space.each)(&mut |case| note(&mut figures, &space.asked, &case));
    }
    assert_reached(&figures);
    assert_said(&figures, &RARE_SENTENCES);
    assert_roundings(&figures);
    assert_allowances(&figures);
    // Only banks of 65,536 records and more; neither a request nor a list is a bank.
    let banks = (0..CALLS.len()).filter(|call| REFUSED[*call].contains(&1));
    assert!(banks.clone().count() == 24 && banks.into_iter().all(|call| figures.refused.contains_key(&(call, 2))));
    assert!(figures.refused.contains_key(&(WRITE_STORED, 18)));
    assert!([UNIT, ASK, WORDS].iter().all(|call| figures.found.contains_key(&(*call, "prints refused 19".into()))));
}

/// What so many cases of each set reach.
fn reached(policies: Policies) -> Figures {
    let mut figures = Figures::default();
    for draws in &DRAWS {
        (0..20_000 * draws.share.max(20) / 100)
            .for_each(|number| note(&mut figures, &draws.asked, &(draws.case)(Draw::of(policies, 7, number))));
    }
    figures
}

#[test]
fn random_cases_that_round_apart_reach_everything_else() {
    assert_reached(&reached(Policies::Apart));
}

#[test]
fn random_cases_that_round_either_way_reach_everything() {
    let figures = reached(Policies::Both);
    assert_reached(&figures);
    assert_roundings(&figures);
}

#[test]
fn random_cases_with_an_allowance_reach_everything() {
    let figures = reached(Policies::Allowing);
    assert_reached(&figures);
    assert_roundings(&figures);
    assert_allowances(&figures);
}
