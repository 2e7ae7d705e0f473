//! Of every kind that takes a policy, or a form with one: policies with an allowance, sound and not. They stand after all others, which have policies
//! of 30 bytes and of 31.
use super::{add, fits, Entry, SEED};
use crate::calls::{
    ADD, ASK, BATCH, BATCH_CHECKED, CHECKED, COMPACT, EXPLAIN, LIVE_CHECKED, LIVE_EXPLAIN, LIVE_MARGIN, LIVE_PRESCRIBE,
    LIVE_UTILITY, LIVE_WIN, MARGIN, NEXT, PRESCRIBE, READ_REQUEST, READ_STORED, REMOVE, REPLACE, TRUST, UNIT, UTILITY,
    VALIDATE, WIN, WORDS, WRITE_STORED,
};
use crate::case::{Case, Formed, Room};
use crate::form::Damage;
use crate::generate::allowances::{allowed, race};
use crate::generate::catalogues::{self, sound, FAULTS};
use crate::generate::edits::{self, set_epoch};
use crate::generate::example::{example, example_models, with_models, with_request};
use crate::generate::forms::{self, Example, ALLOWING, BOTH};
use crate::generate::live::{self, on, Slot};
use crate::generate::roundings::once;
use crate::generate::{lists, printed, random_case, searches, small_size, Draw, Policies, Setting};
use crate::second::bytes::{bank_bytes, LONG_POLICY_BYTES, REQUEST_BYTES};
use crate::second::refusals;
use oracle::kernel::KernelModel;

pub fn entries(list: &mut Vec<Entry>) {
    terms(list);
    gates(list);
    catalogues(list);
    boundaries(list);
    live(list);
    policies(list);
    forms(list);
    texts(list);
    random(list, PRESCRIBE, 8, |draw| random_case(draw, small_size));
    random(list, UTILITY, 5, |draw| random_case(draw, small_size));
    random(list, EXPLAIN, 4, lists::random);
    random(list, TRUST, 2, catalogues::random);
    random(list, WIN, 6, searches::random);
    random(list, MARGIN, 6, searches::random);
    random(list, READ_STORED, 4, forms::random);
    random(list, UNIT, 4, printed::random);
    random(list, WORDS, 4, printed::random);
    random(list, LIVE_PRESCRIBE, 3, live::random);
    random(list, LIVE_WIN, 3, live::random);
    random(list, LIVE_MARGIN, 3, live::random);
    random(list, BATCH, 4, |draw| random_case(draw, small_size));
    for call in EDITS {
        random(list, call, 2, edits::random);
    }
}

const EDITS: [usize; 4] = [ADD, REPLACE, REMOVE, COMPACT];

/// The first so many random cases that fit an entry, whose policy has an allowance.
fn random(list: &mut Vec<Entry>, call: usize, number: usize, case: fn(Draw) -> Case) {
    let draw = |number: u64| Draw { seed: SEED + call as u64, number, policies: Policies::Allowing };
    let cases = (0..).map(|at| case(draw(at))).filter(|case| says(case) && fits(call, case));
    cases.take(number).for_each(|case| add(list, call, Case { room: Room::Exact, ..case }));
}

fn says(case: &Case) -> bool {
    let sound = refusals::policy_and_request(&case.policy, &case.request).is_ok();
    sound && case.policy.len() == LONG_POLICY_BYTES && case.policy[31..] != [0; 4]
}

/// The example with so many milliseconds free, and the same rounded once.
fn free(allowance: u32) -> [Case; 2] {
    let case = example().case(1);
    [allowed(case.clone(), allowance), allowed(once(case), allowance)]
}

/// The example's latencies are 50 and 100: none in so many bytes, below, at and above both, each byte of an allowance, and all of them. Then latencies
/// and penalties at the ends of their ranges.
fn terms(list: &mut Vec<Entry>) {
    for allowance in [0, 1, 49, 50, 51, 99, 100, 101, 200, 1 << 8, 1 << 16, 1 << 24, u32::MAX] {
        add(list, PRESCRIBE, free(allowance)[0].clone());
    }
    for allowance in [0, 60, 200] {
        add(list, PRESCRIBE, free(allowance)[1].clone());
    }
    for (call, id) in [(CHECKED, 1), (UTILITY, 1), (UTILITY, 2), (UTILITY, 3), (EXPLAIN, 1), (NEXT, 1)] {
        free(75).into_iter().for_each(|case| add(list, call, Case { id, ..case }));
    }
    for call in [BATCH, BATCH_CHECKED] {
        free(75).into_iter().for_each(|case| add(list, call, Case { id: 3, ..case }));
    }
    let ends = [(1, u32::MAX), (u32::MAX - 1, u32::MAX), (u32::MAX, u32::MAX), (200, 201), (200, 200), (200, 0)];
    for ((allowance, latency), penalty) in ends.into_iter().zip([1, u64::MAX, u64::MAX, u64::MAX, u64::MAX, 0]) {
        add(list, EXPLAIN, race(allowance, (latency, 0), penalty, 0).case(1));
    }
    // The first costs a microunit less: it is chosen until 2 ms more of it are charged.
    for latency in [100, 101, 102, 103] {
        add(list, PRESCRIBE, race(100, (latency, 100), 1, 0).case(1));
        add(list, UTILITY, race(101, (latency, 100), 1, 0).case(1));
    }
}

/// The full figure is compared, at the limit and above it, though all of it is free.
fn gates(list: &mut Vec<Entry>) {
    let limits = [with_request(|q| q.max_p95_latency_ms = 99), with_request(|q| q.max_p95_latency_ms = 100)];
    for setting in limits {
        for call in [PRESCRIBE, EXPLAIN, UTILITY, WIN, WORDS] {
            add(list, call, allowed(setting.case(1), 200));
        }
    }
    add(list, MARGIN, allowed(with_request(|q| q.max_p95_latency_ms = 60).case(1), 55));
}

/// A catalogue is checked alike, whatever is free.
fn catalogues(list: &mut Vec<Entry>) {
    for call in [VALIDATE, TRUST] {
        [0, 200].into_iter().for_each(|allowance| add(list, call, allowed(sound(&[2, 1]).case(1), allowance)));
        let mut faulty = sound(&[2, 1]);
        FAULTS[2](&mut faulty, 0);
        add(list, call, allowed(once(faulty.case(1)), u32::MAX));
    }
}

/// The worked boundaries with milliseconds free, by either rounding; boundaries of a latency below the allowance, at it and above; none where every
/// latency is free; a model that is off.
fn boundaries(list: &mut Vec<Entry>) {
    for call in [WIN, MARGIN] {
        for allowance in [0, 40, 50, 75, 100, 200, u32::MAX] {
            add(list, call, free(allowance)[0].clone());
        }
        add(list, call, free(75)[1].clone());
        for (allowance, latencies) in
            [(99, (100, 102)), (100, (103, 100)), (101, (103, 100)), (102, (103, 100)), (500, (100, 100)), (1, (0, 2))]
        {
            add(list, call, race(allowance, latencies, 1, 0).case(1));
        }
        add(list, call, race(u32::MAX - 1, (u32::MAX, 0), 10_000, 0).case(1));
        add(list, call, allowed(with_models(|models| models[0].enabled = 0).case(1), 200));
    }
}

/// The example's models in slots 1 and 3 of four; each live call and each edit by a policy with an allowance.
fn live(list: &mut Vec<Entry>) {
    let [first, second] = [0, 1].map(|at| Slot::Live(example_models()[at]));
    let gapped = on(&[Slot::Free, first, Slot::Free, second], example().case(1));
    let calls = [LIVE_PRESCRIBE, LIVE_CHECKED, LIVE_EXPLAIN, LIVE_UTILITY, LIVE_WIN, LIVE_MARGIN];
    for allowance in [75, 200] {
        calls.into_iter().for_each(|call| add(list, call, allowed(gapped.clone(), allowance)));
    }
    add(list, LIVE_MARGIN, allowed(once(gapped.clone()), 75));
    for call in EDITS {
        let model_id = if call == ADD { 9 } else { 1 };
        let record = bank_bytes(&[KernelModel { model_id, quality_bps: 0x1234, ..example_models()[0] }]);
        for allowance in [0, 0x0403_0201, u32::MAX] {
            let mut case = allowed(once(Case { record: record.clone(), ..gapped.clone() }), allowance);
            set_epoch(&mut case.policy, (1 << 32) - 1);
            add(list, call, case);
        }
    }
}

/// 22 for a policy of 32 to 34 bytes and of 36, and for a request of 69, before 23; 23 by the 31st byte before anything else; no allowance is refused.
fn policies(list: &mut Vec<Entry>) {
    let wrong = Case { bank: vec![0], room: Room::ShortBy(1), ..example().case(1) };
    let requestless = [VALIDATE, TRUST, WRITE_STORED, ADD, REPLACE, REMOVE, COMPACT];
    let others = [PRESCRIBE, CHECKED, UTILITY, EXPLAIN, WIN, MARGIN, BATCH, LIVE_PRESCRIBE, LIVE_MARGIN];
    for call in others.into_iter().chain(requestless) {
        for (length, rounding, request) in [(34, 2, 70), (36, 2, 70), (35, 2, 70), (35, 255, 69)] {
            let mut case = wrong.clone();
            case.policy.resize(length, rounding);
            case.request.resize(request, 0);
            // A request that is too short is told by calls that have one.
            if request == REQUEST_BYTES || !requestless.contains(&call) {
                add(list, call, case);
            }
        }
    }
    for length in [32, 33, 37, 39, 43] {
        let mut case = example().case(1);
        case.policy.resize(length, 1);
        add(list, PRESCRIBE, case);
    }
    for call in [PRESCRIBE, VALIDATE] {
        add(list, call, allowed(Case { bank: vec![0], ..example().case(1) }, 200));
    }
}

/// With an allowance there are seven bytes more, also of the room; then each fault of the field that they are.
fn forms(list: &mut Vec<Entry>) {
    for room in [Room::Exact, Room::ShortBy(1), Room::ShortBy(7), Room::LongerBy(3)] {
        free(200).into_iter().for_each(|case| add(list, WRITE_STORED, Case { room, ..case }));
    }
    free(0).into_iter().for_each(|case| add(list, WRITE_STORED, case));
    let empty = Setting { models: Vec::new(), ..example() };
    add(list, WRITE_STORED, allowed(empty.case(1), 0x0403_0201));
    add(list, READ_STORED, allowed(empty.case(1), 0x0403_0201));
    for whole in [ALLOWING, BOTH] {
        for (room, list_room) in
            [(Room::Exact, Room::LongerBy(1)), (Room::ShortBy(1), Room::Exact), (Room::Exact, Room::ShortBy(1))]
        {
            add(list, READ_STORED, Case { room, list_room, ..whole.damaged(&[]) });
        }
    }
    each_fault(list, READ_STORED);
    let zero = Case { list_room: Room::ShortBy(1), ..ALLOWING.damaged(&[Damage::Filled(2, 0)]) };
    add(list, READ_STORED, zero);
    let request = [[5, 4, 0, 1, 0, 0, 0].as_slice(), &[3, 70, 0], &example().case(1).request].concat();
    add(list, READ_REQUEST, Case { formed: Formed::Bytes(request), ..example().case(1) });
}

/// What can be wrong with the field that says an allowance: the third of a form, and the fourth where the policy rounds once; and with the one before
/// it, which is told first.
fn each_fault(list: &mut Vec<Entry>, call: usize) {
    let mut faulty = |whole: Example, damages: &[Damage]| add(list, call, whole.damaged(damages));
    for (whole, at, start) in [(ALLOWING, 2, 130), (BOTH, 3, 134)] {
        for damage in [
            Damage::Filled(at, 0),
            Damage::Filled(at, 255),
            Damage::Byte(start + 3, 0),
            Damage::Body(at, -4),
            Damage::Body(at, -1),
            Damage::Body(at, 1),
            Damage::Says(at, 260),
            Damage::Keep(start + 1),
            Damage::Keep(start + 3),
            Damage::Keep(start + 6),
            Damage::Tag(at, 4),
            Damage::Tag(at, 6),
            Damage::Twice(at),
            Damage::Swapped(at - 1, at),
        ] {
            faulty(whole, &[damage]);
        }
    }
    faulty(BOTH, &[Damage::Filled(2, 2), Damage::Filled(3, 0)]);
    faulty(BOTH, &[Damage::Body(2, 1), Damage::Filled(3, 0)]);
    faulty(BOTH, &[Damage::Filled(3, 0), Damage::Tail(1, 0)]);
    faulty(ALLOWING, &[Damage::Rounding(3, 1)]);
    faulty(ALLOWING, &[Damage::Tail(1, 5)]);
    faulty(ALLOWING, &[Damage::Body(0, 5)]);
}

/// The example with milliseconds free, by both roundings, asked about each model; then each fault, in each text.
fn texts(list: &mut Vec<Entry>) {
    for call in [UNIT, ASK, WORDS] {
        for case in [75, 200].into_iter().flat_map(free) {
            add(list, call, case);
        }
        add(list, call, race(100, (101, 100), 1, 0).case(2));
        add(list, call, Case { room: Room::ShortBy(1), ..free(200)[0].clone() });
        add(list, call, BOTH.damaged(&[Damage::Filled(3, 0)]));
        add(list, call, BOTH.damaged(&[Damage::Filled(2, 0), Damage::Filled(3, 0)]));
    }
    each_fault(list, UNIT);
    for damage in [Damage::Filled(2, 0), Damage::Body(2, 1), Damage::Twice(2), Damage::Without(3), Damage::Keep(136)] {
        add(list, ASK, ALLOWING.damaged(&[damage]));
        add(list, WORDS, ALLOWING.damaged(&[damage]));
    }
    add(list, UNIT, allowed(Setting { models: Vec::new(), ..example() }.case(1), 200));
}
