//! Cases for the calls on live records: free slots anywhere in a bank, slots that are neither live nor free, and buffers around what the live records
//! take. Every other call is asked on such banks too, where a free slot is a model that is switched off.
use super::court::{good, over, rejected};
use super::large::MOST;
use super::lists::mixed;
use super::random::Random;
use super::searches::contest;
use super::spaces::pairs;
use super::{random_case, searches, Draw, Setting, Visit};
use crate::case::{Case, Listed, Room};
use crate::second::bytes::{bank_bytes, RECORD_BYTES};
use crate::second::slots::Listing;
use oracle::kernel::KernelModel;

/// A free slot.
pub const FREE: [u8; RECORD_BYTES] = [0; RECORD_BYTES];

/// One slot of a bank.
#[derive(Clone, Copy)]
pub enum Slot {
    Free,
    Live(KernelModel),
    /// All zero but for the byte at an offset, which is no byte of the id.
    Spoilt(usize),
}

impl Slot {
    fn bytes(self) -> Vec<u8> {
        match self {
            Slot::Free => FREE.to_vec(),
            Slot::Live(model) => bank_bytes(&[model]),
            Slot::Spoilt(at) => {
                let mut slot = FREE.to_vec();
                slot[at] = 1;
                slot
            }
        }
    }
}

pub fn bank(slots: &[Slot]) -> Vec<u8> {
    slots.iter().flat_map(|slot| slot.bytes()).collect()
}

/// The case on these slots, with the explanation of the live ones as the list that is read.
pub fn on(slots: &[Slot], case: Case) -> Case {
    Case { bank: bank(slots), listed: Listed::Explained(Listing::Live), ..case }
}

/// Every row of up to so many of these.
pub fn rows<T: Copy>(of: &[T], most: usize) -> Vec<Vec<T>> {
    let mut all = vec![Vec::new()];
    let mut longest = all.clone();
    for _ in 0..most {
        longest = longest.iter().flat_map(|row| of.iter().map(|last| [&row[..], &[*last]].concat())).collect();
        all.extend(longest.clone());
    }
    all
}

pub fn each(visit: Visit) {
    patterns(visit);
    repeats(visit);
    spoilt(visit);
    rooms(visit);
    faults(visit);
    contests(visit);
    too_many(visit);
}

/// Records of every verdict in the slots that a pattern leaves, before and after each gap; the request stopped or not.
pub fn patterns(visit: Visit) {
    const SLOTS: usize = 8;
    for (pattern, stop) in pairs(&(0..1_u32 << SLOTS).collect::<Vec<_>>(), &[0, 1, 2, 3]) {
        let setting = mixed(SLOTS, stop);
        let slot = |(at, model): (usize, &KernelModel)| match pattern >> at & 1 {
            0 => Slot::Free,
            _ => Slot::Live(*model),
        };
        let slots: Vec<Slot> = setting.models.iter().enumerate().map(slot).collect();
        visit(Case { place: u64::from(pattern % 9), ..on(&slots, setting.case(1 + pattern % 9)) });
    }
}

/// Up to four slots of which some list an id twice: the first live record is meant, chosen or not, and the earlier slot is the better one.
fn repeats(visit: Visit) {
    let better = KernelModel { quality_bps: 8_500, ..good() };
    let other = KernelModel { model_id: 2, ..good() };
    let slots = [Slot::Free, Slot::Live(good()), Slot::Live(better), Slot::Live(rejected(1)), Slot::Live(other)];
    for (number, slots) in rows(&slots, 4).iter().enumerate() {
        for id in 0..=3 {
            visit(Case { place: number as u64 % 3, ..on(slots, over(vec![]).case(id)) });
        }
    }
}

/// Each byte of the first, a middle and the last slot alone: of the id it makes the slot live, any other is 34. The same beside live records that
/// are eligible, and with a second slot that is spoilt.
fn spoilt(visit: Visit) {
    for ((at, byte), slot) in pairs(&pairs(&(0..RECORD_BYTES).collect::<Vec<_>>(), &[1, 128, 255]), &[0, 2, 4]) {
        for live in [[Slot::Free; 5], [1, 2, 3, 4, 5].map(|model_id| Slot::Live(KernelModel { model_id, ..good() }))] {
            let mut case = on(&live, over(vec![]).case(4));
            case.bank[slot * RECORD_BYTES..][..RECORD_BYTES].copy_from_slice(&FREE);
            case.bank[slot * RECORD_BYTES + at] = byte;
            visit(case);
        }
    }
    for (first, last) in pairs(&[4, 10, 46], &[4, 10, 46]) {
        visit(on(&[Slot::Spoilt(first), Slot::Live(good()), Slot::Spoilt(last)], over(vec![]).case(1)));
    }
}

/// Two live records in four slots.
fn two() -> [Slot; 4] {
    [Slot::Free, Slot::Live(good()), Slot::Free, second()]
}

/// A live record that is better than `good`.
fn second() -> Slot {
    Slot::Live(KernelModel { model_id: 2, quality_bps: 8_100, ..good() })
}

/// Every length of the buffer up to a few bytes more than the longest answer takes, and of the list up to a record more than it takes; 34 comes
/// before either, what the call itself refuses after. A stopped request needs no list.
fn rooms(visit: Visit) {
    let rooms: Vec<Room> = (0..=184).map(Room::ShortBy).chain((1..=3).map(Room::LongerBy)).collect();
    for room in rooms {
        for id in [2, 3] {
            visit(Case { room, ..on(&two(), over(vec![]).case(id)) });
        }
        visit(Case { room, ..on(&[Slot::Live(good()), Slot::Spoilt(46)], over(vec![]).case(1)) });
    }
    let lists: Vec<Room> = (0..=2 * 72).map(Room::ShortBy).chain((1..=75).map(Room::LongerBy)).collect();
    for (list_room, stop) in pairs(&lists, &[0, 1]) {
        let case = on(&two(), mixed(0, stop).case(1));
        visit(Case { list_room, ..case.clone() });
        visit(Case { list_room, room: Room::ShortBy(1), ..case });
    }
}

/// Every fault with every other: lengths, how to round, a slot that is spoilt, room, a request above its limits or stopped, an id that no live
/// record has.
fn faults(visit: Visit) {
    let spoilt = [Slot::Live(good()), Slot::Spoilt(4), second()];
    let banks = [bank(&two()), bank(&spoilt), [bank(&spoilt), vec![0]].concat(), bank(&[Slot::Free; 3])];
    let policies = [(29, 0), (30, 0), (31, 0), (31, 1), (31, 2), (32, 0), (34, 0), (35, 1), (35, 2), (36, 0)];
    let lent = pairs(&policies, &[69, 70, 71]);
    for (((policy, rounding), request), bank) in pairs(&lent, &[0, 1, 2, 3]) {
        for ((room, list_room), (risk, id)) in pairs(&both_rooms(), &pairs(&[1_000, 9_000, 10_001], &[0, 2, 3])) {
            let mut setting = over(vec![]);
            setting.request.risk_bps = risk;
            let mut case = Case { room, list_room, ..on(&[], setting.case(id)) };
            case.bank.clone_from(&banks[bank]);
            case.policy.resize(policy, rounding);
            case.request.resize(request, 0);
            visit(case);
        }
    }
}

fn both_rooms() -> Vec<(Room, Room)> {
    pairs(&[Room::Exact, Room::ShortBy(1)], &[Room::Exact, Room::ShortBy(1)])
}

/// Banks in which several are near each other, with gaps.
pub fn contests(visit: Visit) {
    let mut r = Random::new(0x9a75);
    for (records, times) in [(1, 40), (2, 40), (5, 100), (22, 60), (900, 6)] {
        for _ in 0..times {
            let setting = contest(&mut r, records);
            let mut case = setting.case(searches::id_to_ask_for(&mut r, &setting));
            scatter(&mut r, &mut case, &[2, 3, 10]);
            visit(case);
        }
    }
}

/// One slot more than a bank may have, and the first one spoilt: 2 comes before 34.
fn too_many(visit: Visit) {
    let mut case = slots(MOST + 1, |at| at == MOST - 1);
    case.bank[RECORD_BYTES - 1] = 1;
    visit(case);
}

// ---- random cases

/// Any case, or one for the searches, with free slots between its records and in their place, and now and then a slot that is spoilt.
pub fn random(draw: Draw) -> Case {
    let draw = draw.beside(0x11fe);
    let mut r = draw.source(0x11ff);
    let mut case = if r.one_in(3) { searches::random(draw) } else { random_case(draw, size) };
    number(&mut r, &mut case.bank);
    scatter(&mut r, &mut case, &[1, 2, 2, 3, 3, 10, 10, 100, 1 << 20]);
    if r.one_in(12) {
        spoil(&mut r, &mut case.bank);
    }
    if r.one_in(16) {
        case.id = 0;
    }
    if r.one_in(2) {
        case.listed = Listed::Explained(Listing::Live);
    }
    case
}

/// The unit's 900 now and then; larger banks are a set of their own.
fn size(r: &mut Random) -> usize {
    match r.below(400) {
        0 => 900,
        _ => r.pick(&[0, 1, 1, 2, 2, 3, 3, 4, 5, 5, 8, 22]),
    }
}

/// Mostly no record has id 0.
fn number(r: &mut Random, bank: &mut [u8]) {
    let keep = r.one_in(16);
    for record in bank.chunks_exact_mut(RECORD_BYTES).filter(|record| record[..4] == [0; 4] && !keep) {
        record[0] = r.between(1, 8) as u8;
    }
}

/// One slot in so many is free, before a record or in its place. The largest bank grows no further.
fn scatter(r: &mut Random, case: &mut Case, among: &[u64]) {
    let (seldom, between) = (r.pick(among), r.one_in(2));
    let mut bank = Vec::with_capacity(case.bank.len());
    for record in case.bank.chunks(RECORD_BYTES) {
        let free = record.len() == RECORD_BYTES && r.one_in(seldom);
        if free {
            bank.extend(FREE);
        }
        if !free || between {
            bank.extend(record);
        }
    }
    bank.truncate(case.bank.len().max(MOST * RECORD_BYTES));
    case.bank = bank;
}

/// One byte of a free slot, where there is one; not of its id.
pub fn spoil(r: &mut Random, bank: &mut [u8]) {
    let free: Vec<usize> =
        bank.chunks_exact(RECORD_BYTES).enumerate().filter(|(_, slot)| **slot == FREE).map(|(at, _)| at).collect();
    if let Some(slot) = free.get(r.place(free.len().max(1))) {
        let at = r.pick(&[4, 5, 10, 11, 30, 45, 46]);
        bank[slot * RECORD_BYTES + at] = r.pick(&[1, 128, 255]);
    }
}

// ---- large banks

/// So many slots, each live or not by its place.
pub fn slots(many: usize, live: impl Fn(usize) -> bool) -> Case {
    let slot = |at: usize| match live(at) {
        true => Slot::Live(KernelModel { model_id: at as u32 + 1, ..good() }),
        false => Slot::Free,
    };
    let slots: Vec<Slot> = (0..many).map(slot).collect();
    on(&slots, over(vec![]).case(many as u32))
}

/// The largest banks: no slot live, all, the first alone, the last alone, all but the last, every second; one spoilt at either end; one too large,
/// and the same less a byte.
pub fn largest(visit: Visit) {
    let last = MOST - 1;
    visit(slots(MOST, |_| false));
    visit(slots(MOST, |_| true));
    visit(slots(MOST, |at| at == 0));
    visit(slots(MOST, |at| at == last));
    visit(slots(MOST, |at| at != last));
    visit(slots(MOST, |at| at % 2 == 1));
    for slot in [0, last] {
        let mut case = slots(MOST, |at| at % 3 == 1);
        case.bank[slot * RECORD_BYTES + 46] = 1;
        visit(case);
    }
    too_many(&mut |mut case| {
        visit(case.clone());
        case.bank.pop();
        visit(case);
    });
}

/// Few searches, since each is some hundred passes.
pub fn largest_searches(visit: Visit) {
    visit(slots(MOST, |at| at % 2 == 1));
    let mut r = Random::new(65_536);
    let setting: Setting = contest(&mut r, MOST);
    let mut case = setting.case(searches::id_to_ask_for(&mut r, &setting));
    scatter(&mut r, &mut case, &[10]);
    visit(case);
}

#[cfg(test)]
mod tests {
    use super::*;

    #[test]
    fn every_row_is_there_once() {
        assert_eq!(rows(&[0, 1], 2), [&[][..], &[0], &[1], &[0, 0], &[0, 1], &[1, 0], &[1, 1]]);
        assert_eq!(rows(&[0, 1, 2, 3], 3).len(), 1 + 4 + 16 + 64);
    }
}
