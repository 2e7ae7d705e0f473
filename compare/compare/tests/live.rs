//! Live banks and their edits: rows worked by hand from document 02, to which the second reading comes by itself, and what follows for any row of
//! edits.
use compare::calls::{
    Answer, By, ADD, CALLS, CHECKED, COMPACT, EXPLAIN, FIND, LIVE_CHECKED, LIVE_EXPLAIN, LIVE_FIND, LIVE_MARGIN,
    LIVE_PRESCRIBE, LIVE_UTILITY, LIVE_WIN, MARGIN, NEXT, PRESCRIBE, REMOVE, REPLACE, UTILITY, WIN,
};
use compare::case::{Case, Listed, Room};
use compare::generate::edits::{set_epoch, STEPS};
use compare::generate::example::{example, example_models};
use compare::generate::{Draw, Policies, DRAWS};
use compare::second::bytes::{bank_bytes, policy_of, POLICY_BYTES, RECORD_BYTES};
use compare::second::refusals::{self, Refusal};
use compare::second::slots::{Listing, Slots};
use oracle::kernel::KernelModel;
use std::collections::BTreeSet;

/// A record of the example, under an id of its own.
fn record(model_id: u32) -> Vec<u8> {
    bank_bytes(&[KernelModel { model_id, ..example_models()[1] }])
}

const FREE: [u8; RECORD_BYTES] = [0; RECORD_BYTES];

/// A bank with these ids; 0 is a free slot.
fn ids(ids: &[u32]) -> Vec<u8> {
    ids.iter().flat_map(|id| if *id == 0 { FREE.to_vec() } else { record(*id) }).collect()
}

/// The example's policy, with 3 as its catalogue epoch, over a bank; an id that is offered in another record than the bank has, and removed.
fn asked(bank: &[u8], id: u32) -> Case {
    Case { bank: bank.to_vec(), record: [&id.to_le_bytes()[..], &[9; 43]].concat(), ..example().case(id) }
}

/// What a call leaves: its number, the ids in their slots, and the catalogue epoch; or why it is refused, and nothing is left to tell.
fn left(call: usize, case: &Case) -> Result<(u16, Vec<u32>, u64), Refusal> {
    let owed = CALLS[call].owed_on(case);
    assert_eq!(owed.by, By::Second);
    if let Some(refusal) = owed.refusal {
        assert_eq!((&owed.out, &owed.bank, &owed.policy), (&vec![], &vec![], &vec![]));
        return Err(refusal);
    }
    assert_eq!((owed.bank.len(), owed.policy.len()), (case.bank.len(), case.policy.len()));
    assert!((0..owed.policy.len()).all(|at| (8..16).contains(&at) || owed.policy[at] == case.policy[at]));
    let slots = owed.bank.chunks_exact(RECORD_BYTES).map(|slot| u32::from_le_bytes(slot[..4].try_into().unwrap()));
    Ok((u16::from_le_bytes(owed.out.try_into().unwrap()), slots.collect(), policy_of(&owed.policy).catalog_epoch))
}

fn refused(number: u8) -> Result<(u16, Vec<u32>, u64), Refusal> {
    Err(Refusal::of(number))
}

fn repeated(id: u32) -> Result<(u16, Vec<u32>, u64), Refusal> {
    Err(Refusal { id_or_place: id, ..Refusal::of(12) })
}

#[test]
fn adding_takes_the_lowest_free_slot() {
    assert_eq!(left(ADD, &asked(&ids(&[0, 0, 0]), 7)), Ok((0, vec![7, 0, 0], 4)), "an all-zero bank");
    assert_eq!(left(ADD, &asked(&ids(&[5, 0, 6, 0]), 7)), Ok((1, vec![5, 7, 6, 0], 4)), "between two live ones");
    assert_eq!(left(ADD, &asked(&ids(&[5, 6, 0]), 7)), Ok((2, vec![5, 6, 7], 4)), "the last slot");
    assert_eq!(left(ADD, &asked(&ids(&[5, 6]), 7)), refused(28), "a full bank");
    assert_eq!(left(ADD, &asked(&[], 7)), refused(28), "no slot at all");
    assert_eq!(left(ADD, &asked(&ids(&[5, 0, 7]), 7)), repeated(7), "an id that is there");
    assert_eq!(left(ADD, &asked(&ids(&[5, 7]), 7)), repeated(7), "an id that is there, in a full bank");
}

#[test]
fn replacing_and_removing_mean_the_first_live_record() {
    assert_eq!(left(REPLACE, &asked(&ids(&[0, 7, 5, 7]), 7)), Ok((1, vec![0, 7, 5, 7], 4)));
    assert_eq!(left(REPLACE, &asked(&ids(&[0, 7, 5, 7]), 6)), refused(5));
    assert_eq!(left(REMOVE, &asked(&ids(&[0, 7, 5, 7]), 7)), Ok((1, vec![0, 0, 5, 7], 4)), "listed twice");
    assert_eq!(left(REMOVE, &asked(&ids(&[0, 0, 5, 7]), 7)), Ok((3, vec![0, 0, 5, 0], 4)));
    assert_eq!(left(REMOVE, &asked(&ids(&[0, 0, 5, 0]), 7)), refused(5));
    assert_eq!(left(REMOVE, &asked(&ids(&[0, 0]), 1)), refused(5));
}

/// Every byte of the slot, and of no other.
#[test]
fn an_edit_writes_one_slot_whole() {
    let case = asked(&ids(&[5, 0, 7, 7]), 7);
    let replaced = CALLS[REPLACE].owed_on(&case).bank;
    assert_eq!(replaced, [record(5), FREE.to_vec(), case.record.clone(), record(7)].concat());
    let removed = CALLS[REMOVE].owed_on(&case).bank;
    assert_eq!(removed, [record(5), FREE.to_vec(), FREE.to_vec(), record(7)].concat());
    let case = asked(&case.bank, 8);
    let added = CALLS[ADD].owed_on(&case).bank;
    assert_eq!(added, [record(5), case.record.clone(), record(7), record(7)].concat());
}

#[test]
fn a_compaction_closes_the_gaps_and_keeps_the_order() {
    let compacted = |slots: &[u32]| left(COMPACT, &asked(&ids(slots), 1));
    assert_eq!(compacted(&[0, 7, 0, 0, 5, 9, 0]), Ok((3, vec![7, 5, 9, 0, 0, 0, 0], 4)));
    assert_eq!(compacted(&[7, 5, 0]), Ok((2, vec![7, 5, 0], 4)), "nothing moves");
    assert_eq!(compacted(&[0, 0]), Ok((0, vec![0, 0], 4)), "nothing is live");
    assert_eq!(compacted(&[]), Ok((0, vec![], 4)), "nothing at all");
    assert_eq!(compacted(&[0, 3, 0, 3, 2]), Ok((3, vec![3, 3, 2, 0, 0], 4)), "an id that is listed twice");
}

#[test]
fn the_epoch_rises_by_one_and_not_beyond_its_largest() {
    let at = |epoch: u64, id: u32| {
        let mut case = asked(&ids(&[0, 7]), id);
        set_epoch(&mut case.policy, epoch);
        case
    };
    let epochs = |epoch: u64| {
        [(ADD, 8), (REPLACE, 7), (REMOVE, 7), (COMPACT, 0)]
            .map(|(call, id)| left(call, &at(epoch, id)).map(|(_, _, epoch)| epoch))
    };
    assert_eq!(epochs(255), [Ok(256); 4]);
    assert_eq!(epochs(u64::MAX - 1), [Ok(u64::MAX); 4]);
    assert_eq!(epochs(u64::MAX), [Err(Refusal::of(27)); 4]);
    let last = |call: usize, id: u32| left(call, &at(u64::MAX, id)).map(|_| ());
    assert_eq!([last(ADD, 0), last(REPLACE, 0), last(REMOVE, 0)], [Err(Refusal::of(16)); 3], "16 before 27");
    assert_eq!([last(ADD, 7), last(REPLACE, 8), last(REMOVE, 8)], [Err(Refusal::of(27)); 3], "27 before 12 and 5");
    let mut full = asked(&ids(&[7]), 8);
    set_epoch(&mut full.policy, u64::MAX);
    assert_eq!(left(ADD, &full), refused(27), "27 before 28");
}

/// The bytes that are there, offered once more.
#[test]
fn an_edit_that_writes_what_is_there_raises_the_epoch() {
    let case = Case { record: record(7), ..asked(&ids(&[5, 7]), 7) };
    let owed = CALLS[REPLACE].owed_on(&case);
    assert_eq!((owed.bank, policy_of(&owed.policy).catalog_epoch), (case.bank, 4));
}

#[test]
fn a_policy_of_31_bytes_keeps_its_last() {
    for rounding in [0, 1] {
        let mut case = asked(&ids(&[7]), 7);
        case.policy.push(rounding);
        for call in [REPLACE, REMOVE, COMPACT] {
            let policy = CALLS[call].owed_on(&case).policy;
            assert_eq!((policy.len(), policy[POLICY_BYTES]), (31, rounding));
        }
    }
}

const EDITS: [usize; 4] = [ADD, REPLACE, REMOVE, COMPACT];
const LIVE: [usize; 7] = [LIVE_PRESCRIBE, LIVE_CHECKED, LIVE_EXPLAIN, LIVE_FIND, LIVE_UTILITY, LIVE_WIN, LIVE_MARGIN];

/// The number by which each of the live calls and edits is refused, 0 where it isn't.
fn numbers(case: &Case) -> Vec<u8> {
    let owed = LIVE.iter().chain(&EDITS).map(|call| CALLS[*call].owed_on(case));
    owed.map(|owed| owed.refusal.map_or(0, |refusal| refusal.number)).collect()
}

/// The first byte after the id and the last one; a slot with one byte of the id set is live.
#[test]
fn a_slot_with_id_0_and_another_byte_is_34() {
    for at in [4, 46] {
        let mut case = asked(&ids(&[1, 0, 2]), 2);
        case.bank[RECORD_BYTES + at] = 1;
        assert_eq!(numbers(&case), [34; 11]);
        assert_eq!(numbers(&Case { room: Room::ShortBy(1), ..case.clone() }), [34; 11], "34 before 4");
        case.bank.push(0);
        assert_eq!(numbers(&case), [1; 11], "1 before 34");
    }
    for at in 0..4 {
        let mut case = asked(&ids(&[1, 0, 2]), 2);
        case.bank[RECORD_BYTES + at] = 3;
        assert_eq!(numbers(&case), [0, 0, 0, 0, 0, 0, 0, 12, 0, 0, 0]);
    }
    let mut many = asked(&vec![0; 65_536 * RECORD_BYTES], 2);
    many.bank[46] = 1;
    assert_eq!(numbers(&many), [2; 11], "2 before 34");
}

#[test]
fn refusals_come_in_their_order() {
    let mut case = asked(&ids(&[1, 0]), 0);
    assert_eq!(numbers(&case), [0, 0, 0, 0, 7, 5, 0, 16, 16, 16, 0], "id 0 is no model's");
    case.room = Room::ShortBy(1);
    assert_eq!(numbers(&case), [4; 11], "4 before what the call itself refuses");
    case.policy.extend([2]);
    assert_eq!(numbers(&case), [23, 23, 23, 4, 23, 23, 23, 23, 23, 23, 23]);
    case.policy.push(0);
    assert_eq!(numbers(&case), [22, 22, 22, 4, 22, 22, 22, 22, 22, 22, 22]);
    let record = Case { record: vec![1; 48], bank: vec![0], ..asked(&[], 1) };
    assert_eq!(numbers(&record), [1, 1, 1, 1, 1, 1, 1, 22, 22, 1, 1], "a record's length before the bank's");
}

/// The example's two models behind gaps.
fn gapped() -> Case {
    let [first, second] = [0, 1].map(|at| bank_bytes(&example_models()[at..=at]));
    let bank = [&FREE[..], &first, &FREE, &second, &FREE].concat();
    Case { bank, ..example().case(1) }
}

/// Document 01's example, with the chosen model behind two gaps: place 3 in place of 1, and nothing else is another.
#[test]
fn the_example_behind_gaps_is_decided_as_it_is() {
    let (plain, case) = (example().case(1), gapped());
    let owed = CALLS[LIVE_PRESCRIBE].owed_on(&case);
    let mut expected = CALLS[PRESCRIBE].owed_on(&plain);
    expected.out[15..17].copy_from_slice(&3_u16.to_le_bytes());
    assert_eq!((owed.by, &owed), (By::Rust, &expected));
    assert_eq!(CALLS[LIVE_FIND].owed_on(&case).out, [1, 0]);
    for (call, live) in [(WIN, LIVE_WIN), (MARGIN, LIVE_MARGIN)] {
        let mut expected = CALLS[call].owed_on(&plain);
        expected.out[15..17].copy_from_slice(&3_u16.to_le_bytes());
        assert_eq!(CALLS[live].owed_on(&case), expected);
    }
    let list = CALLS[LIVE_EXPLAIN].owed_on(&case).list;
    assert_eq!((list.len(), &list[4..6], &list[76..78]), (144, &[1, 0][..], &[3, 0][..]));
}

/// The earlier calls decide the same bank with five models, of which three are off.
#[test]
fn the_earlier_calls_count_a_free_slot_as_a_model_that_is_off() {
    let out = CALLS[PRESCRIBE].owed_on(&gapped()).out;
    assert_eq!((&out[15..17], &out[45..49], &out[65..67]), (&[3, 0][..], &[5, 0, 2, 0][..], &[3, 0][..]));
    let out = CALLS[LIVE_PRESCRIBE].owed_on(&gapped()).out;
    assert_eq!((&out[15..17], &out[45..49], &out[65..67]), (&[3, 0][..], &[2, 0, 2, 0][..], &[0, 0][..]));
    assert_eq!(CALLS[FIND].owed_on(&Case { id: 0, ..gapped() }).out, [0, 0]);
    assert_eq!(CALLS[LIVE_FIND].owed_on(&Case { id: 0, ..gapped() }).out, [255, 255]);
}

/// Two of three slots are free: over all of them being off is the reason, over the live one it is the quality.
#[test]
fn free_slots_are_no_reason() {
    let mut case = gapped();
    case.bank = [&FREE[..], &FREE, &bank_bytes(&[KernelModel { quality_bps: 1, ..example_models()[0] }])].concat();
    let reason = |call: usize| CALLS[call].owed_on(&case).out[9];
    assert_eq!((reason(PRESCRIBE), reason(LIVE_PRESCRIBE)), (102, 103));
}

// ---- any row of edits

fn draws(name: &str) -> fn(Draw) -> Case {
    DRAWS.iter().find(|draws| draws.name == name).expect("a set of this name").case
}

/// The cases of rows of edits whose policy and bank are sound.
fn sound_steps() -> Vec<Case> {
    let case = draws("random edits");
    let all = Policies::EACH
        .into_iter()
        .flat_map(|policies| (0..400 * STEPS).map(move |number| case(Draw::of(policies, 21, number))));
    all.filter(|case| refusals::policy(&case.policy).is_ok() && refusals::listed(Listing::Live, &case.bank).is_ok())
        .collect()
}

fn is_unique(slots: &Slots) -> bool {
    let ids: BTreeSet<u32> = slots.live.iter().map(|(_, model)| model.model_id).collect();
    ids.len() == slots.live.len()
}

#[test]
fn edits_keep_ids_unique_and_every_slot_live_or_free() {
    let mut kept = 0;
    for case in sound_steps() {
        for call in EDITS {
            let owed = CALLS[call].owed_on(&case);
            if owed.refusal.is_none() {
                assert_eq!(refusals::listed(Listing::Live, &owed.bank), Ok(()));
                assert!(is_unique(&Slots::of(&owed.bank)) || !is_unique(&Slots::of(&case.bank)), "{case}");
                assert_eq!(policy_of(&owed.policy).catalog_epoch, policy_of(&case.policy).catalog_epoch + 1);
                kept += 1;
            }
        }
    }
    assert!(kept > 20_000, "{kept}");
}

/// Removing and adding once more, where the slot is the lowest free one.
#[test]
fn what_was_freed_is_used_again() {
    let mut again = 0;
    for case in sound_steps() {
        let removed = CALLS[REMOVE].owed_on(&Case { room: Room::Exact, ..case.clone() });
        if removed.refusal.is_some() || policy_of(&removed.policy).catalog_epoch == u64::MAX {
            continue;
        }
        let next = Case { bank: removed.bank.clone(), policy: removed.policy, room: Room::Exact, ..case.clone() };
        let record = [&case.id.to_le_bytes()[..], &[1; 43]].concat();
        let listed_twice = !is_unique(&Slots::of(&case.bank));
        let added = CALLS[ADD].owed_on(&Case { record, ..next });
        let lowest = Slots::of(&case.bank).lowest_free().unwrap_or(u16::MAX);
        let freed = u16::from_le_bytes(removed.out.try_into().unwrap());
        if !listed_twice {
            assert_eq!(added.out, lowest.min(freed).to_le_bytes());
            again += u64::from(freed < lowest);
        }
    }
    assert!(again > 300, "{again}");
}

/// Any answer with places and epochs left out: of a decision at its front, and of a list.
fn without_places(mut answer: Answer) -> Answer {
    if answer.out.len() >= 65 {
        answer.out[15..17].fill(0);
        answer.out[57..65].fill(0);
    }
    answer.list.chunks_exact_mut(72).for_each(|entry| entry[4..6].fill(0));
    answer
}

/// Before and after a compaction, and over the live records alone by the calls that know no slots.
#[test]
fn a_compaction_moves_places_and_the_epoch_alone() {
    let case = draws("random edited banks");
    let mut compared = 0;
    for number in 0..3_000 {
        let case = case(Draw::of(Policies::Both, 22, number));
        let owed = CALLS[COMPACT].owed_on(&case);
        if owed.refusal.is_some() {
            continue;
        }
        let live = Slots::of(&case.bank).live.len();
        let after = Case { bank: owed.bank.clone(), policy: owed.policy, ..case.clone() };
        let alone = Case { bank: owed.bank[..live * RECORD_BYTES].to_vec(), ..after.clone() };
        let siblings = [PRESCRIBE, CHECKED, EXPLAIN, FIND, UTILITY, WIN, MARGIN];
        for (live, plain) in LIVE.into_iter().zip(siblings).filter(|(live, _)| *live != LIVE_FIND) {
            let [before, after, alone] =
                [(live, &case), (live, &after), (plain, &alone)].map(|(call, case)| CALLS[call].owed_on(case));
            assert_eq!(after, alone, "{case}");
            assert_eq!(without_places(before), without_places(after), "{case}");
            compared += 1;
        }
        for place in 0..=live as u64 {
            let next = |case: &Case| CALLS[NEXT].owed_on(&Case { place, ..case.clone() });
            let listed = Listed::Explained(Listing::Every);
            assert_eq!(next(&case), next(&Case { listed, ..alone.clone() }), "the list has no gap");
        }
    }
    assert!(compared > 10_000, "{compared}");
}
