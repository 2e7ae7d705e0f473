//! Kinds 20 to 30: the calls on live records, and the edits of a live bank. They stand after all others.
use super::{add, fits, Entry, SEED};
use crate::calls::{
    ADD, COMPACT, LIVE_CHECKED, LIVE_EXPLAIN, LIVE_FIND, LIVE_MARGIN, LIVE_PRESCRIBE, LIVE_UTILITY, LIVE_WIN, NEXT,
    PRESCRIBE, REMOVE, REPLACE,
};
use crate::case::{Case, Room};
use crate::generate::court::{court, good, rejected};
use crate::generate::edits::{self, set_epoch};
use crate::generate::example::{example, example_models, with_request};
use crate::generate::live::{self, bank, on, Slot};
use crate::generate::roundings::once;
use crate::generate::{Draw, Policies};
use crate::second::bytes::{bank_bytes, RECORD_BYTES};
use oracle::kernel::KernelModel;

const LIVE: [usize; 7] = [LIVE_PRESCRIBE, LIVE_CHECKED, LIVE_EXPLAIN, LIVE_FIND, LIVE_UTILITY, LIVE_WIN, LIVE_MARGIN];
const EDITS: [usize; 4] = [ADD, REPLACE, REMOVE, COMPACT];

pub fn entries(list: &mut Vec<Entry>) {
    example_behind_gaps(list);
    free_slots(list);
    spoilt(list);
    rooms(list);
    adding(list);
    by_id(list);
    compacting(list);
    epochs(list);
    faults(list);
    for (call, number) in LIVE.into_iter().zip([8, 4, 4, 4, 6, 5, 5]) {
        random(list, call, number, live::random);
    }
    random(list, NEXT, 4, edits::standing);
    for (call, number) in EDITS.into_iter().zip([16, 10, 10, 8]) {
        random(list, call, number, edits::random);
    }
}

/// The first so many random cases that fit an entry, by policies of either kind.
fn random(list: &mut Vec<Entry>, call: usize, number: usize, case: fn(Draw) -> Case) {
    let draw = |number: u64| Draw { seed: SEED + call as u64, number, policies: Policies::Both };
    let cases = (0..).step_by(5).map(|at| case(draw(at))).filter(|case| fits(call, case));
    cases.take(number).for_each(|case| add(list, call, case));
}

fn each(list: &mut Vec<Entry>, calls: &[usize], case: &Case) {
    calls.iter().for_each(|call| add(list, *call, case.clone()));
}

/// The example's models in slots 1 and 3 of five: the chosen one is behind two gaps.
fn gapped() -> Case {
    let [first, second] = [0, 1].map(|at| Slot::Live(example_models()[at]));
    on(&[Slot::Free, first, Slot::Free, second, Slot::Free], example().case(1))
}

/// Asked about each id and none, by the calls on live records and by one on every record; rounded once; stopped; and the list that is read.
fn example_behind_gaps(list: &mut Vec<Entry>) {
    each(list, &LIVE, &gapped());
    each(list, &LIVE, &once(gapped()));
    add(list, PRESCRIBE, gapped());
    for id in [0, 2, 3] {
        each(list, &[LIVE_FIND, LIVE_UTILITY, LIVE_WIN], &Case { id, ..gapped() });
    }
    (0..=2).for_each(|place| add(list, NEXT, Case { place, ..gapped() }));
    let stopped = Case { request: with_request(|q| q.risk_bps = 9_000).case(1).request, ..gapped() };
    each(list, &[LIVE_PRESCRIBE, LIVE_EXPLAIN, LIVE_UTILITY, LIVE_WIN, LIVE_MARGIN], &stopped);
    let above = Case { request: with_request(|q| q.risk_bps = 10_001).case(1).request, ..gapped() };
    each(list, &[LIVE_PRESCRIBE, LIVE_CHECKED], &above);
}

/// No slot, no slot that is live, none that is free; free slots that are no reason; an id that is listed twice, the first one off.
fn free_slots(list: &mut Vec<Entry>) {
    let live = |model: KernelModel| Slot::Live(model);
    let off = KernelModel { enabled: 0, ..good() };
    let other = KernelModel { model_id: 2, ..good() };
    let banks: [&[Slot]; 6] = [
        &[],
        &[Slot::Free; 3],
        &[live(good()), live(other)],
        &[Slot::Free, Slot::Free, live(rejected(1))],
        &[Slot::Free, live(off), Slot::Free, live(good()), live(other)],
        &[Slot::Free, live(good()), live(other), live(KernelModel { quality_bps: 8_500, ..good() })],
    ];
    for slots in banks {
        each(list, &LIVE, &on(slots, court().case(1)));
    }
}

/// The first byte after the id and the last; a byte of the id makes the slot live.
fn spoilt(list: &mut Vec<Entry>) {
    for at in [4, RECORD_BYTES - 1] {
        let case = edited(&[Slot::Live(good()), Slot::Spoilt(at)], 1);
        each(list, &LIVE, &case);
        each(list, &EDITS, &case);
    }
    let mut case = edited(&[Slot::Free, Slot::Live(good())], 1);
    case.bank[3] = 1;
    each(list, &[LIVE_PRESCRIBE, LIVE_FIND], &case);
    each(list, &EDITS, &case);
}

/// Too short, just enough by a call's live records, and longer; 34 comes first.
fn rooms(list: &mut Vec<Entry>) {
    for call in LIVE {
        add(list, call, Case { room: Room::ShortBy(1), ..gapped() });
        add(list, call, Case { room: Room::LongerBy(2), ..gapped() });
    }
    for list_room in [Room::ShortBy(1), Room::ShortBy(72), Room::LongerBy(3)] {
        add(list, LIVE_EXPLAIN, Case { list_room, ..gapped() });
    }
    let spoilt = on(&[Slot::Spoilt(10)], example().case(1));
    each(list, &LIVE, &Case { room: Room::ShortBy(1), ..spoilt });
}

/// Slots to edit, with the example's policy and a record of this id to offer.
fn edited(slots: &[Slot], id: u32) -> Case {
    let record = bank_bytes(&[KernelModel { model_id: id, quality_bps: 0x1234, ..example_models()[0] }]);
    Case { bank: bank(slots), record, ..example().case(id) }
}

/// A slot for each id, free for 0.
fn slots(ids: &[u32]) -> Vec<Slot> {
    let slot = |id: &u32| match id {
        0 => Slot::Free,
        _ => Slot::Live(KernelModel { model_id: *id, ..good() }),
    };
    ids.iter().map(slot).collect()
}

/// To an all-zero bank, between two live ones, to the last slot, to a full bank, to none; an id that is there.
fn adding(list: &mut Vec<Entry>) {
    let banks: [&[u32]; 7] = [&[0, 0, 0], &[5, 0, 6, 0], &[5, 6, 0], &[5, 6], &[], &[5, 0, 7], &[5, 7]];
    for ids in banks {
        add(list, ADD, edited(&slots(ids), 7));
    }
    add(list, ADD, once(edited(&slots(&[5, 0]), u32::MAX)));
}

/// An id that is listed twice, once and not at all; and the bytes that are there, offered once more.
fn by_id(list: &mut Vec<Entry>) {
    for ids in [&[0, 7, 5, 7], &[0, 0, 5, 7], &[0, 0, 5, 0]] {
        each(list, &[REPLACE, REMOVE], &edited(&slots(ids), 7));
        each(list, &[REPLACE, REMOVE], &once(edited(&slots(ids), 7)));
    }
    add(list, REPLACE, Case { record: bank(&slots(&[7])), ..edited(&slots(&[5, 7]), 7) });
}

/// Gaps anywhere, at the end alone, nothing live, nothing at all, an id that is listed twice.
fn compacting(list: &mut Vec<Entry>) {
    let banks: [&[u32]; 6] = [&[0, 7, 0, 0, 5, 9, 0], &[7, 5, 0], &[7, 5], &[0, 0], &[], &[0, 3, 0, 3, 2]];
    for ids in banks {
        add(list, COMPACT, edited(&slots(ids), 1));
    }
    add(list, COMPACT, once(edited(&slots(&[0, 7]), 1)));
}

/// One byte goes over into the next, into all of them, and none is left; 16 comes before 27, and 12, 5 and 28 after it.
fn epochs(list: &mut Vec<Entry>) {
    for epoch in [255, (1 << 32) - 1, u64::MAX - 1, u64::MAX] {
        for (call, id) in [(ADD, 8), (REPLACE, 7), (REMOVE, 7), (COMPACT, 1)] {
            let mut case = edited(&slots(&[7, 0]), id);
            set_epoch(&mut case.policy, epoch);
            add(list, call, case);
        }
    }
    for (call, id) in [(ADD, 0), (ADD, 7), (REPLACE, 0), (REPLACE, 8), (REMOVE, 0), (REMOVE, 8)] {
        let mut case = edited(&slots(&[7]), id);
        set_epoch(&mut case.policy, u64::MAX);
        add(list, call, case);
    }
    let mut full = edited(&slots(&[7]), 8);
    set_epoch(&mut full.policy, u64::MAX);
    add(list, ADD, full);
}

/// Each fault with the one that comes after it: the record's length, the policy's, its 31st byte, the bank's length, 34, the room, id 0.
fn faults(list: &mut Vec<Entry>) {
    let sound = edited(&slots(&[7, 0]), 0);
    let spoilt = Case { bank: bank(&[Slot::Spoilt(46)]), room: Room::ShortBy(1), ..sound.clone() };
    let length = Case { bank: [&spoilt.bank[..], &[0]].concat(), ..spoilt.clone() };
    let policy = |bytes: usize, case: &Case| {
        let mut case = case.clone();
        case.policy.resize(bytes, 2);
        case
    };
    let record = |bytes: usize| Case { record: vec![1; bytes], ..policy(32, &length) };
    for call in EDITS {
        for room in [Room::Exact, Room::ShortBy(1), Room::ShortBy(2), Room::LongerBy(1)] {
            add(list, call, Case { room, ..sound.clone() });
        }
        let cases = [policy(31, &length), policy(29, &length), policy(32, &length), spoilt.clone(), length.clone()];
        cases.into_iter().for_each(|case| add(list, call, case));
    }
    for call in [ADD, REPLACE] {
        [0, 46, 48].into_iter().for_each(|bytes| add(list, call, record(bytes)));
    }
}
