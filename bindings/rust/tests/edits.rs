//! The worked rows of edits and compactions: the slot that each takes, every byte that it leaves, and each of its refusals with what comes before it.
mod common;
use common::{example_bank, many, slots, EACH, FIRST, FREE_ONCE, POLICY, REQUEST, SECOND};
use volankizo::layout::{EDIT_BYTES, POLICY_BYTES, RECORD_BYTES, ROUNDED_POLICY_BYTES};
use volankizo::live::{self, FREE_SLOT};
use volankizo::{ffi, Bank, KernelModel, PolicySnapshot, Refusal};

const THIRD: KernelModel = KernelModel { model_id: 3, ..SECOND };
/// Its epoch can't be raised.
const SPENT: PolicySnapshot = PolicySnapshot { catalog_epoch: u64::MAX, ..POLICY };

/// A model of which every byte is set.
fn every_byte() -> KernelModel {
    KernelModel::from_bytes(&[0xff; RECORD_BYTES])
}

/// An edit, but for the policy and the bank that it changes.
type Edit<'a> = &'a dyn Fn(&mut PolicySnapshot, &mut [u8]) -> Result<u16, Refusal>;

fn adding(model: KernelModel) -> impl Fn(&mut PolicySnapshot, &mut [u8]) -> Result<u16, Refusal> {
    move |policy, bank| live::add(policy, bank, model)
}

fn replacing(model: KernelModel) -> impl Fn(&mut PolicySnapshot, &mut [u8]) -> Result<u16, Refusal> {
    move |policy, bank| live::replace(policy, bank, model)
}

fn removing(id: u32) -> impl Fn(&mut PolicySnapshot, &mut [u8]) -> Result<u16, Refusal> {
    move |policy, bank| live::remove(policy, bank, id)
}

/// An edit under the example's policy, of every kind: the number that it tells and the bank that it leaves. The policy has its epoch raised and is
/// else as it was.
fn done(
    before: &[Option<KernelModel>],
    edit: impl Fn(&mut PolicySnapshot, &mut [u8]) -> Result<u16, Refusal>,
) -> (u16, Bank) {
    let told = EACH.map(|policy| {
        let (mut raised, mut bank) = (policy, slots(before));
        let number = edit(&mut raised, &mut bank).unwrap();
        assert_eq!(raised, PolicySnapshot { catalog_epoch: 4, ..policy });
        (number, bank)
    });
    let [first, others @ ..] = told;
    assert!(others.iter().all(|other| *other == first));
    first
}

/// Why an edit is refused; neither policy nor bank is changed.
fn refused(policy: PolicySnapshot, bank: &Bank, edit: Edit) -> Refusal {
    let (mut lent, mut edited) = (policy, bank.clone());
    let refusal = edit(&mut lent, &mut edited).unwrap_err();
    assert!(lent == policy && edited == *bank, "{refusal}");
    refusal
}

#[test]
fn adding_takes_the_lowest_free_slot() {
    let (first, second, third) = (Some(FIRST), Some(SECOND), Some(THIRD));
    assert_eq!(done(&[None, None, None], adding(THIRD)), (0, slots(&[third, None, None])), "an all-zero bank");
    assert_eq!(done(&[first, None, second], adding(THIRD)), (1, slots(&[first, third, second])), "between two");
    assert_eq!(done(&[None, first, None], adding(THIRD)), (0, slots(&[third, first, None])), "of two, the lower");
    assert_eq!(done(&[first, second, None], adding(THIRD)), (2, slots(&[first, second, third])), "the last");
    let odd = Some(every_byte());
    assert_eq!(done(&[None], adding(every_byte())), (0, slots(&[odd])), "no field is validated");
    let near = KernelModel { model_id: 256, ..FIRST };
    assert_eq!(
        done(&[first, None], adding(near)),
        (1, slots(&[first, Some(near)])),
        "an id with a low byte of 0 is no 0"
    );
}

#[test]
fn adding_to_a_full_bank() {
    for full in [example_bank(), Bank::default(), many(65_535)] {
        assert_eq!(refused(POLICY, &full, &adding(KernelModel { model_id: 70_000, ..FIRST })), Refusal::NoFreeSlot);
    }
    let there = Refusal::DuplicateModelId { model_id: 2 };
    assert_eq!(refused(POLICY, &example_bank(), &adding(SECOND)), there, "12 before 28");
    assert_eq!(
        refused(POLICY, &slots(&[None, Some(SECOND), None]), &adding(SECOND)),
        there,
        "with a slot free before it"
    );
}

#[test]
fn what_was_freed_is_used_again() {
    let (mut policy, mut bank) = (POLICY, many(4));
    assert_eq!(live::remove(&mut policy, &mut bank, 2), Ok(1));
    assert_eq!(bank[47..94], FREE_SLOT);
    assert_eq!(live::add(&mut policy, &mut bank, KernelModel { model_id: 9, ..FIRST }), Ok(1));
    assert_eq!(live::find(&bank, 9), Ok(Some(1)));
    assert_eq!(policy.catalog_epoch, 5);
}

#[test]
fn replacing_goes_by_the_id() {
    let (first, second) = (Some(FIRST), Some(SECOND));
    let better = KernelModel { quality_bps: 9_999, ..SECOND };
    assert_eq!(done(&[None, first, second], replacing(better)), (2, slots(&[None, first, Some(better)])));
    assert_eq!(
        done(&[second, None, second], replacing(better)),
        (0, slots(&[Some(better), None, second])),
        "the first"
    );
    assert_eq!(done(&[first, second], replacing(SECOND)), (1, example_bank()), "the bytes that are there");
    let odd = KernelModel { model_id: 2, ..every_byte() };
    assert_eq!(done(&[first, second, second], replacing(odd)), (1, slots(&[first, Some(odd), second])), "every byte");
    assert_eq!(done(&[None, Some(odd)], replacing(SECOND)), (1, slots(&[None, second])), "and back");
    for bank in [slots(&[None, Some(FIRST)]), example_bank(), Bank::default()] {
        assert_eq!(refused(POLICY, &bank, &replacing(THIRD)), Refusal::UnknownModel);
    }
}

#[test]
fn removing_an_id_that_is_listed_twice() {
    let twin = KernelModel { quality_bps: 9_999, ..FIRST };
    let before = [Some(SECOND), Some(FIRST), Some(twin)];
    assert_eq!(done(&before, removing(1)), (1, slots(&[Some(SECOND), None, Some(twin)])), "the first is freed");
    assert_eq!(done(&[Some(SECOND), None, Some(twin)], removing(1)), (2, slots(&[Some(SECOND), None, None])));
    assert_eq!(refused(POLICY, &slots(&[Some(SECOND), None, None]), &removing(1)), Refusal::UnknownModel);
    assert_eq!(done(&[Some(SECOND)], removing(2)), (0, slots(&[None])), "the last model");
    let odd = Some(every_byte());
    assert_eq!(done(&[odd, odd, odd], removing(u32::MAX)), (0, slots(&[None, odd, odd])), "every byte is cleared");
}

#[test]
fn id_0_is_refused_before_the_epoch() {
    let none = KernelModel { model_id: 0, ..FIRST };
    let edits: [Edit; 3] = [&adding(none), &replacing(none), &removing(0)];
    for edit in edits {
        for bank in [example_bank(), slots(&[None]), Bank::default()] {
            assert_eq!(refused(POLICY, &bank, edit), Refusal::ReservedModelId);
            assert_eq!(refused(SPENT, &bank, edit), Refusal::ReservedModelId);
        }
    }
    let clear = KernelModel::from_bytes(&FREE_SLOT);
    assert_eq!(refused(POLICY, &slots(&[None]), &adding(clear)), Refusal::ReservedModelId, "a free slot is no model");
}

#[test]
fn the_largest_epoch() {
    let mut policy = PolicySnapshot { catalog_epoch: u64::MAX - 1, ..POLICY };
    let mut bank = slots(&[Some(FIRST), None]);
    assert_eq!(live::add(&mut policy, &mut bank, SECOND), Ok(1));
    assert_eq!(policy, SPENT);
    // Each beside what would come after it: 12, 28, 5, and nothing.
    let edits: [Edit; 7] = [
        &adding(SECOND),
        &adding(THIRD),
        &replacing(THIRD),
        &replacing(SECOND),
        &removing(3),
        &removing(1),
        &live::compact,
    ];
    for edit in edits {
        assert_eq!(refused(SPENT, &bank, edit), Refusal::EpochSpent);
    }
    assert_eq!(refused(SPENT, &Bank::default(), edits[6]), Refusal::EpochSpent, "nothing to move");
    assert_eq!(live::prescribe(&SPENT, &bank, REQUEST).unwrap().catalog_epoch, u64::MAX, "it decides all the same");
    let mut below = PolicySnapshot { catalog_epoch: u64::from(u32::MAX), ..POLICY };
    assert_eq!((live::compact(&mut below, &mut bank), below.catalog_epoch), (Ok(2), 1 << 32));
}

/// What every call that takes slots says of a bank, the edits with the bank as it was.
fn every_refusal_of(bank: &Bank, policy: PolicySnapshot) -> Vec<Refusal> {
    let mut list = vec![0xaa; 72];
    let refusals = vec![
        live::prescribe(&policy, bank, REQUEST).unwrap_err(),
        live::prescribe_checked(&policy, bank, REQUEST).unwrap_err(),
        live::explain(&policy, bank, REQUEST).unwrap_err(),
        live::explain_into(&policy, bank, REQUEST, &mut list).unwrap_err(),
        live::find(bank, 0).unwrap_err(),
        live::utility_for_model(&policy, bank, REQUEST, 0).unwrap_err(),
        live::what_would_win(&policy, bank, REQUEST, 0).unwrap_err(),
        live::decision_margin(&policy, bank, REQUEST).unwrap_err(),
        refused(policy, bank, &adding(FIRST)),
        refused(policy, bank, &replacing(THIRD)),
        refused(policy, bank, &removing(0)),
        refused(policy, bank, &live::compact),
    ];
    assert_eq!(list, [0xaa; 72]);
    refusals
}

/// Id 0 with one other byte set, from the first to the last: before 16, 27 and 12, and wherever the slot stands.
#[test]
fn a_slot_that_is_not_clear() {
    for byte in 4..RECORD_BYTES {
        for place in 0..3 {
            let mut bank = slots(&[None, None, None]);
            bank[place * 47 + byte] = 1;
            assert_eq!(every_refusal_of(&bank, SPENT), [Refusal::SlotNotClear; 12], "byte {byte} of slot {place}");
        }
    }
    let mut bank = slots(&[Some(FIRST), Some(SECOND), None]);
    bank[3 * 47 - 1] = 0x80;
    assert_eq!(every_refusal_of(&bank, POLICY), [Refusal::SlotNotClear; 12], "behind live ones");
    for byte in 0..4 {
        let mut bank = slots(&[None]);
        bank[byte] = 1;
        assert_eq!(live::find(&bank, 1 << (8 * byte)), Ok(Some(0)), "a byte of the id makes it live");
    }
}

#[test]
fn lengths_come_before_slots() {
    let unclear = Bank::from_bytes([vec![0; 46], vec![1]].concat());
    let uneven = Bank::from_bytes([&unclear[..], &[0]].concat());
    assert_eq!(every_refusal_of(&uneven, SPENT), [Refusal::UnevenBank; 12]);
    let large = Bank::from_bytes(unclear.repeat(65_536));
    assert_eq!(every_refusal_of(&large, SPENT), [Refusal::CatalogTooLarge; 12]);
    let largest = Bank::from_bytes(unclear.repeat(65_535));
    assert_eq!(every_refusal_of(&largest, SPENT), [Refusal::SlotNotClear; 12]);
}

#[test]
fn a_compaction_keeps_the_order() {
    let (first, second, third) = (Some(FIRST), Some(SECOND), Some(THIRD));
    let compact = |before: &[Option<KernelModel>]| done(before, live::compact);
    let twin = Some(KernelModel { quality_bps: 1, ..SECOND });
    let closed = slots(&[second, first, twin, third, None, None, None, None]);
    assert_eq!(compact(&[None, second, None, None, first, twin, None, third]), (4, closed));
    let odd = Some(every_byte());
    assert_eq!(compact(&[None, odd, odd]), (2, slots(&[odd, odd, None])), "every byte that it leaves is cleared");
    assert_eq!(compact(&[None, first]), (1, slots(&[first, None])), "one slot down");
    assert_eq!(compact(&[first, None]), (1, slots(&[first, None])), "nothing moves, and the epoch is raised");
    assert_eq!(compact(&[first, second]), (2, example_bank()));
    assert_eq!(compact(&[None, None]), (0, slots(&[None, None])), "no record is live");
    assert_eq!(compact(&[]), (0, Bank::default()), "no slot");
}

#[test]
fn the_largest_compactions() {
    let mut policy = POLICY;
    let mut full = many(65_535);
    assert_eq!(live::compact(&mut policy, &mut full), Ok(65_535));
    assert!(full == many(65_535));
    let mut last = Bank::from_bytes(FREE_SLOT.repeat(65_535));
    last[65_534 * 47..].copy_from_slice(&FIRST.to_bytes());
    assert_eq!(live::compact(&mut policy, &mut last), Ok(1));
    assert_eq!((&last[..47], live::find(&last, 1)), (&FIRST.to_bytes()[..], Ok(Some(0))));
    assert!(last[47..].iter().all(|byte| *byte == 0));
    assert_eq!(policy.catalog_epoch, 5);
}

/// An edit on bytes, what is offered to it given: the policy, the bank and the buffer that it writes.
type Call<'a> = &'a dyn Fn(&mut [u8], &mut [u8], &mut [u8]) -> u64;

/// A policy of each length is edited in place, in bytes 8 to 15 alone; of the bank one slot, and two bytes of the buffer.
#[test]
fn the_bytes_that_an_edit_writes() {
    let mut before = many(300);
    before[299 * RECORD_BYTES..].fill(0);
    let added = KernelModel { model_id: 1_000, ..FIRST }.to_bytes();
    let other = KernelModel { model_id: 299, ..FIRST }.to_bytes();
    let edits: [(Call, u16, [u8; RECORD_BYTES]); 4] = [
        (&|policy, bank, out| ffi::live::add(policy, bank, &added, out), 299, added),
        (&|policy, bank, out| ffi::live::replace(policy, bank, &other, out), 298, other),
        (&|policy, bank, out| ffi::live::remove(policy, bank, 258, out), 257, FREE_SLOT),
        // Nothing moves: slot 299 is the free one.
        (&|policy, bank, out| ffi::live::compact(policy, bank, out), 299, FREE_SLOT),
    ];
    let longest = PolicySnapshot { catalog_epoch: 0x01ff_ffff, ..FREE_ONCE }.to_bytes();
    for (edit, number, slot) in edits {
        for policy in [&longest[..POLICY_BYTES], &longest[..ROUNDED_POLICY_BYTES], &longest] {
            let (mut raised, mut bank, mut out) = (policy.to_vec(), before.clone(), [0xaa; EDIT_BYTES + 3]);
            assert_eq!(edit(&mut raised, &mut bank, &mut out), 0);
            assert_eq!(out, [&number.to_le_bytes()[..], &[0xaa; 3]].concat()[..]);
            assert_eq!(raised, [&policy[..8], &0x0200_0000_u64.to_le_bytes(), &policy[16..]].concat());
            let at = usize::from(number) * RECORD_BYTES;
            assert_eq!(bank[at..at + RECORD_BYTES], slot);
            assert!(bank[..at] == before[..at] && bank[at + RECORD_BYTES..] == before[at + RECORD_BYTES..]);
        }
    }
}

/// Policy, bank, record, room, and the words of adding, replacing, removing and compacting.
type Row<'a> = (&'a [u8], &'a [u8], &'a [u8], usize, [u64; 4]);

/// Everything wrong at once, and one fault less from row to row.
#[test]
fn the_words_of_edits_on_bytes() {
    let (spent, sound) = (&SPENT.to_bytes()[..], &POLICY.to_bytes()[..]);
    let (odd, long) = ([&spent[..POLICY_BYTES], &[2]].concat(), [spent, &[2]].concat());
    let (uneven, pair, full) = (vec![1; 48], slots(&[Some(SECOND), None]), example_bank());
    let unclear = [vec![0; 46], vec![1]].concat();
    let (none, second, third) = (&FREE_SLOT[..], &SECOND.to_bytes()[..], &THIRD.to_bytes()[..]);
    let rows: [Row; 12] = [
        (&long, &uneven, &none[1..], 1, [22; 4]),
        (&long, &uneven, none, 1, [22; 4]),
        (&odd, &uneven, &none[1..], 1, [22, 22, 23, 23]),
        (&odd, &uneven, none, 1, [23; 4]),
        (spent, &uneven, none, 1, [1; 4]),
        (spent, &unclear, none, 1, [34; 4]),
        (spent, &pair, none, 1, [4; 4]),
        (spent, &pair, none, 2, [16, 16, 16, 27]),
        (spent, &pair, second, 2, [27; 4]),
        (sound, &pair, second, 2, [12 + (2 << 32), 0, 0, 0]),
        (sound, &full, third, 2, [28, 5, 5, 0]),
        (sound, &pair, third, 2, [0, 5, 5, 0]),
    ];
    for (policy, bank, record, room, words) in rows {
        let id = u32::from(record[0]);
        let edits: [Call; 4] = [
            &|policy, bank, out| ffi::live::add(policy, bank, record, out),
            &|policy, bank, out| ffi::live::replace(policy, bank, record, out),
            &|policy, bank, out| ffi::live::remove(policy, bank, id, out),
            &|policy, bank, out| ffi::live::compact(policy, bank, out),
        ];
        for (edit, word) in edits.into_iter().zip(words) {
            let (mut lent, mut edited, mut out) = (policy.to_vec(), bank.to_vec(), vec![0xaa; room]);
            assert_eq!(edit(&mut lent, &mut edited, &mut out), word, "of {words:?}");
            let left = (&lent[..], &edited[..], &out[..]) == (policy, bank, &vec![0xaa; room]);
            assert_eq!(left, word != 0, "of {words:?}");
        }
    }
    let long = [second, &[0]].concat();
    assert_eq!(
        ffi::live::add(&mut sound.to_vec(), &mut pair.clone(), &long, &mut [0; 2]),
        22,
        "a byte more than a record"
    );
}
