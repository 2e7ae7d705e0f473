//! The rule by which the port departs from the Rust: a policy may round costs once. Where it does, the second reading is the judge, and the Rust
//! stays one wherever that changes nothing; were it done without the policy's saying so, the two would part, and that is a difference.
use compare::calls::{Answer, By, ASK, CALLS, EXPLAIN, MARGIN, NEXT, PRESCRIBE, UNIT, UTILITY, WIN};
use compare::case::Case;
use compare::generate::example::{example, one_token_each_way};
use compare::generate::roundings::once;
use compare::generate::{Draw, Policies, Setting, DRAWS, SPACES};
use compare::list::Entry;
use compare::second::bytes::{models_of, policy_of, request_of, POLICY_BYTES};
use compare::second::deciding::{is_stopped, Question};
use compare::second::gates::first_failed;
use compare::second::price::cost;
use compare::second::rules::Rounding;
use oracle::kernel::KernelModel;

/// A case whose policy rounds apart, and the same with one that rounds once.
fn either(case: &Case) -> [Case; 2] {
    [case.clone(), once(case.clone())]
}

/// The call's answer by each.
fn both(call: usize, case: &Case) -> [Answer; 2] {
    either(case).map(|case| CALLS[call].owed_on(&case))
}

/// The cost in a decision's bytes, and who told it.
fn told(answer: &Answer) -> (u64, By) {
    (u64::from_le_bytes(answer.out[17..25].try_into().expect("8 bytes")), answer.by)
}

#[test]
fn one_token_each_way_at_price_1_costs_1_in_place_of_2() {
    let case = one_token_each_way().case(1);
    assert_eq!(both(PRESCRIBE, &case).each_ref().map(told), [(2, By::Rust), (1, By::Second)]);
    let said = [0, 1].map(|rounding| Case { policy: [&case.policy[..], &[rounding]].concat(), ..case.clone() });
    assert_eq!(said.map(|case| told(&CALLS[PRESCRIBE].owed_on(&case))), [(2, By::Rust), (1, By::Second)]);
}

#[test]
fn a_rule_that_the_policy_does_not_name_is_a_difference_naming_both() {
    let call = &CALLS[PRESCRIBE];
    let case = once(one_token_each_way().case(1));
    let apart = call.held(&call.ask(&case)).expect_err("the Rust rounds twice");
    assert_eq!((told(&apart.rust).0, told(&apart.second).0), (2, 1));
    let shown = apart.to_string();
    let lines: Vec<&str> = shown.lines().collect();
    assert!(lines[0].starts_with("the Rust ") && lines[1].starts_with("the second reading "), "{shown}");
}

#[test]
fn the_list_says_who_told_an_answer() {
    let teller = |case: Case| {
        let mut bytes = Vec::new();
        Entry { call: PRESCRIBE, case }.write(&mut bytes);
        bytes[0]
    };
    let tellers = |case: Case| either(&case).map(teller);
    assert_eq!(tellers(one_token_each_way().case(1)), [1, 2]);
    assert_eq!(tellers(example().case(1)), [1, 1]);
}

/// Rounded once, model 1 wins to a cost of 799 and model 2 is chosen to one of 1,300: scales of 443,888 and 4,333,333.
#[test]
fn searches_and_texts_follow_the_rule() {
    let case = once(example().case(1));
    let printed = |call: usize| {
        let owed = CALLS[call].owed_on(&case);
        assert_eq!(owed.by, By::Second);
        String::from_utf8(owed.out[8..].to_vec()).expect("text")
    };
    let lines = "decision 42 2 2 2 1 300 6200 1 5200 2 2 7 3\nrejected 0 0 0 0 0 0 0 0 0\nlever 1 8000 7000 -\n\
                 lever 2 50 150 -\nlever 3 1000000 4333333 1300\nlever 4 8000 1000 -\n";
    assert_eq!(printed(UNIT), lines);
    let lines = "decision 42 2 2 2 1 300 6200 1 5200 2 2 7 3\nlever 3 1000000 443888 799\npasses 26\n";
    assert_eq!(printed(ASK), lines);
}

/// An eligible record that rounding apart makes too dear for the budget, and the next one after it.
#[test]
fn a_list_that_is_read_was_explained_by_the_same_rule() {
    let mut setting: Setting = one_token_each_way();
    setting.request.budget_limit_microunits = 1;
    let next = both(NEXT, &setting.case(1)).map(|answer| answer.out);
    assert_eq!(next, [u64::MAX.to_le_bytes(), 0_u64.to_le_bytes()].map(|place| place.to_vec()));
}

/// Whether an explanation shows a cost that the two roundings differ in.
fn shows_another_cost(case: &Case) -> bool {
    let (policy, request, models) = (policy_of(&case.policy), request_of(&case.request), models_of(&case.bank));
    let question = Question::over(policy, request, models);
    let priced = |model: &&KernelModel| first_failed(model, &request).is_none();
    let differs = |model: &KernelModel| {
        let [apart, once] = [Rounding::Apart, Rounding::Once].map(|rounding| cost(rounding, model, &request));
        assert!(apart - once <= 1, "a part is rounded up by less than 1");
        apart != once
    };
    !is_stopped(&question) && question.models().iter().filter(priced).any(differs)
}

/// The draw of a number by which every policy rounds apart.
fn apart(number: u64) -> Draw {
    Draw::of(Policies::Apart, 5, number)
}

/// How many answers departed and how many stayed the Rust's.
#[derive(Default)]
struct Tally {
    departed: u64,
    stayed: u64,
}

impl Tally {
    /// An explanation shows every cost that was asked for. No other answer can depart where it doesn't, but for one that looks for the cost at
    /// other prices.
    fn check(&mut self, case: &Case) {
        let [apart, owed] = both(EXPLAIN, case);
        if apart.refusal.is_some() || case.policy.len() != POLICY_BYTES {
            assert_eq!(owed, apart);
            return;
        }
        let departs = shows_another_cost(case);
        assert_eq!(
            (owed.list != apart.list, owed.by),
            (departs, if departs { By::Second } else { By::Rust }),
            "{case}"
        );
        for call in [PRESCRIBE, UTILITY] {
            let [apart, owed] = both(call, case);
            assert!(owed == apart || departs && owed.by == By::Second, "{case}");
        }
        *(if departs { &mut self.departed } else { &mut self.stayed }) += 1;
    }
}

#[test]
fn answers_depart_where_a_cost_does_and_only_there() {
    let mut tally = Tally::default();
    let decisions = SPACES.iter().find(|space| space.name == "decisions").expect("a set of this name");
    (decisions.each)(&mut |case| tally.check(&case));
    let random = DRAWS.iter().find(|draws| draws.name == "random decisions").expect("a set of this name");
    (0..20_000).for_each(|number| tally.check(&(random.case)(apart(number))));
    assert!(tally.departed > 1_000 && tally.stayed > 1_000, "{} departed, {} stayed", tally.departed, tally.stayed);
}

/// A 31st byte of 0 says what 30 bytes say.
#[test]
fn a_policy_that_says_that_it_rounds_apart_is_the_rusts() {
    let random = DRAWS.iter().find(|draws| draws.name == "random searches").expect("a set of this name");
    for number in 0..5_000 {
        let case = (random.case)(apart(number));
        if case.policy.len() == POLICY_BYTES {
            let long = Case { policy: [&case.policy[..], &[0]].concat(), ..case.clone() };
            for call in [PRESCRIBE, EXPLAIN, UTILITY, WIN, MARGIN, UNIT] {
                assert_eq!(CALLS[call].owed_on(&long), CALLS[call].owed_on(&case), "{case}");
            }
        }
    }
}
