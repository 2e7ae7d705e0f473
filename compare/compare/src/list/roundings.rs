//! Of every kind that takes a policy, or a form with one: policies that say how they round, sound and not. They stand after all others, which
//! have policies of 30 bytes.
use super::{add, fits, Entry, SEED};
use crate::calls::{
    ASK, CHECKED, EXPLAIN, MARGIN, NEXT, PRESCRIBE, READ_REQUEST, READ_STORED, TRUST, UNIT, UTILITY, VALIDATE, WIN,
    WORDS, WRITE_STORED,
};
use crate::case::{Case, Formed, Room};
use crate::form::Damage;
use crate::generate::catalogues::{self, sound, FAULTS};
use crate::generate::example::{example, one_token_each_way, rows};
use crate::generate::forms::{self, damaged, ONCE};
use crate::generate::roundings::{duel, held_case, once};
use crate::generate::{lists, printed, random_case, searches, small_size, Draw, Policies, Setting};
use crate::second::bytes::{REQUEST_BYTES, ROUNDED_POLICY_BYTES};
use crate::second::refusals;
use crate::second::rules::Rounding::{Apart, Once};

pub fn entries(list: &mut Vec<Entry>) {
    costs(list);
    decisions(list);
    policies(list);
    catalogues(list);
    boundaries(list);
    forms(list);
    texts(list);
    random(list, PRESCRIBE, 10, |draw| random_case(draw, small_size));
    random(list, UTILITY, 5, |draw| random_case(draw, small_size));
    random(list, EXPLAIN, 5, lists::random);
    random(list, TRUST, 3, catalogues::random);
    random(list, WIN, 6, searches::random);
    random(list, MARGIN, 6, searches::random);
    random(list, READ_STORED, 4, forms::random);
    random(list, UNIT, 4, printed::random);
    random(list, WORDS, 4, printed::random);
}

/// The first so many random cases that fit an entry, whose policy says how it rounds.
fn random(list: &mut Vec<Entry>, call: usize, number: usize, case: fn(Draw) -> Case) {
    let draw = |number: u64| Draw { seed: SEED + call as u64, number, policies: Policies::Both };
    let cases = (0..).map(|at| case(draw(at))).filter(|case| says(case) && fits(call, case));
    cases.take(number).for_each(|case| add(list, call, Case { room: Room::Exact, ..case }));
}

fn says(case: &Case) -> bool {
    let sound = refusals::policy_and_request(&case.policy, &case.request).is_ok();
    sound && case.policy.len() == ROUNDED_POLICY_BYTES && case.request.len() == REQUEST_BYTES
}

/// The case with a policy that says in a byte that it rounds apart.
fn says_apart(mut case: Case) -> Case {
    case.policy.push(Apart as u8);
    case
}

/// Sums at a million, one below and one above, of one direction, of none, and where a cost is held; each told by both.
fn costs(list: &mut Vec<Entry>) {
    let sums = [
        ((1, 1), (1, 1)),
        ((1, 1), (599_999, 400_000)),
        ((1, 1), (600_000, 400_000)),
        ((1, 1), (600_000, 400_001)),
        ((1, 1), (1_000_000, 1_000_000)),
        ((3, 3), (333_333, 1)),
        ((3, 7), (333_334, 285_714)),
        ((1, 0), (1_000_001, 1)),
        ((0, 0), (u64::MAX, u64::MAX)),
    ];
    for (tokens, prices) in sums {
        add(list, PRESCRIBE, duel(Once, tokens, prices, 5_000).case(1));
    }
    add(list, UTILITY, duel(Once, (3, 7), (333_334, 285_714), 5_000).case(1));
    for step in [-2_000_000, -1_000_001, -1_000_000, -1, 0, 1, 1_000_000] {
        add(list, EXPLAIN, held_case(Once, 1_000_003, step, false, 1));
    }
    add(list, EXPLAIN, held_case(Apart, 1_000_003, -1_000_000, false, 1));
    add(list, PRESCRIBE, held_case(Once, u32::MAX, -1_000_000, true, 0));
}

/// Worked rows in which a model is priced, rounded once; and one token each way at price 1 with a budget of 1, which suffices once and not
/// apart.
fn decisions(list: &mut Vec<Entry>) {
    [0, 4, 5, 9].iter().for_each(|row| add(list, PRESCRIBE, once(rows()[*row].case(1))));
    let mut setting = one_token_each_way();
    setting.request.budget_limit_microunits = 1;
    for call in [PRESCRIBE, CHECKED, UTILITY, EXPLAIN, NEXT, WIN, MARGIN] {
        add(list, call, says_apart(setting.case(1)));
        add(list, call, once(setting.case(1)));
    }
    setting.request.risk_bps = 10_001;
    add(list, CHECKED, once(setting.case(1)));
}

/// 22 for a policy of 29 bytes and of 32, and for a request of 69, before 23; 23 before anything else.
fn policies(list: &mut Vec<Entry>) {
    let wrong = Case { bank: vec![0], ..example().case(1) };
    for call in [PRESCRIBE, CHECKED, UTILITY, EXPLAIN, WIN, MARGIN, VALIDATE, TRUST, WRITE_STORED] {
        for (length, rounding, request) in [(29, 0, 70), (31, 2, 70), (31, 255, 69), (32, 2, 70)] {
            let mut case = Case { room: Room::ShortBy(1), ..wrong.clone() };
            case.policy.resize(length, rounding);
            case.request.resize(request, 0);
            // A request that is too short is told by calls that have one.
            if request == REQUEST_BYTES || ![VALIDATE, TRUST, WRITE_STORED].contains(&call) {
                add(list, call, case);
            }
        }
    }
}

/// A catalogue is checked alike, however its policy rounds.
fn catalogues(list: &mut Vec<Entry>) {
    for call in [VALIDATE, TRUST] {
        add(list, call, says_apart(sound(&[2, 1]).case(1)));
        add(list, call, once(sound(&[2, 1]).case(1)));
        let mut faulty = sound(&[2, 1]);
        FAULTS[2](&mut faulty, 0);
        add(list, call, once(faulty.case(1)));
    }
}

/// The worked boundaries rounded once; prices that are scaled and rounded down each by itself; half a microunit each way.
fn boundaries(list: &mut Vec<Entry>) {
    for call in [WIN, MARGIN] {
        add(list, call, once(example().case(1)));
        for (tokens, prices) in [((1_000_000, 1_000_000), (1, 1)), ((500_000, 500_000), (1, 1)), ((3, 7), (500_001, 7))]
        {
            for (rounding, budget) in [(Apart, 2), (Once, 1)] {
                add(list, call, duel(rounding, tokens, prices, budget).case(1));
            }
        }
    }
}

/// Once there are four bytes more, also of the room; then each fault of the field that they are.
fn forms(list: &mut Vec<Entry>) {
    for room in [Room::Exact, Room::ShortBy(1), Room::ShortBy(4), Room::LongerBy(3)] {
        add(list, WRITE_STORED, Case { room, ..once(example().case(1)) });
    }
    add(list, WRITE_STORED, says_apart(example().case(1)));
    let empty = Setting { models: Vec::new(), ..example() };
    add(list, WRITE_STORED, once(empty.case(1)));
    for (room, list_room) in
        [(Room::Exact, Room::LongerBy(1)), (Room::ShortBy(1), Room::Exact), (Room::Exact, Room::ShortBy(1))]
    {
        add(list, READ_STORED, Case { room, list_room, ..ONCE.damaged(&[]) });
    }
    for damage in FAULTY {
        add(list, READ_STORED, ONCE.damaged(&[damage]));
    }
    add(list, READ_STORED, Case { list_room: Room::ShortBy(1), ..ONCE.damaged(&[Damage::Filled(2, 0)]) });
    add(list, READ_STORED, damaged(&[Damage::Tail(1, 4)]));
    add(list, READ_STORED, damaged(&[Damage::Tail(1, 5)]));
    let request = CASES_OF_A_REQUEST.map(|before| [before, &example().case(1).request].concat());
    for form in request {
        add(list, READ_REQUEST, Case { formed: Formed::Bytes(form), ..example().case(1) });
    }
}

/// A byte 4 begins no request form.
const CASES_OF_A_REQUEST: [&[u8]; 2] = [&[4, 1, 0, 1, 3, 70, 0], &[4, 70, 0]];

/// What can be wrong with the field that says how to round: the third of a form.
const FAULTY: [Damage; 14] = [
    Damage::Filled(2, 0),
    Damage::Filled(2, 2),
    Damage::Filled(2, 255),
    Damage::Body(2, -1),
    Damage::Body(2, 1),
    Damage::Says(2, 257),
    Damage::Keep(131),
    Damage::Keep(132),
    Damage::Keep(133),
    Damage::Tag(2, 5),
    Damage::Tail(1, 0),
    Damage::Twice(2),
    Damage::Swapped(1, 2),
    Damage::Body(0, 1),
];

/// The example and half a microunit each way, printed by both roundings; then each fault.
fn texts(list: &mut Vec<Entry>) {
    for call in [UNIT, ASK, WORDS] {
        add(list, call, once(example().case(1)));
        for rounding in [Apart, Once] {
            add(list, call, duel(rounding, (500_000, 500_000), (3, 3), 5_000).case(1));
        }
        add(list, call, Case { room: Room::ShortBy(1), ..once(example().case(1)) });
    }
    for damage in FAULTY.into_iter().take(9).chain([Damage::Twice(2), Damage::Swapped(2, 3), Damage::Without(3)]) {
        add(list, UNIT, ONCE.damaged(&[damage]));
    }
    for damage in [Damage::Filled(2, 0), Damage::Body(2, 1), Damage::Twice(2)] {
        add(list, ASK, ONCE.damaged(&[damage]));
        add(list, WORDS, ONCE.damaged(&[damage]));
    }
    add(list, UNIT, once(Setting { models: Vec::new(), ..example() }.case(1)));
}
