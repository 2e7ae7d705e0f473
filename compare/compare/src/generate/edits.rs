//! Cases for the edits of a live bank: rows of them, each step on what the one before left, and small banks in full.
use super::court::{court, good};
use super::live::{bank, largest, rows, spoil, Slot, FREE};
use super::random::Random;
use super::spaces::pairs;
use super::{base, edges, lists, Draw, Setting, Visit};
use crate::calls::{ADD, CALLS, COMPACT, REMOVE, REPLACE};
use crate::case::{Case, Listed, Room};
use crate::second::bytes::{bank_bytes, LONG_POLICY_BYTES, POLICY_BYTES, RECORD_BYTES, ROUNDED_POLICY_BYTES};
use crate::second::slots::Listing;
use oracle::kernel::KernelModel;

/// The catalogue's epoch in a policy.
const EPOCH: usize = 8;

pub fn set_epoch(policy: &mut [u8], epoch: u64) {
    policy[EPOCH..EPOCH + 8].copy_from_slice(&epoch.to_le_bytes());
}

pub fn each(visit: Visit) {
    small_banks(visit);
    lengths(visit);
    faults(visit);
    epochs(visit);
    records(visit);
}

fn model(model_id: u32) -> KernelModel {
    KernelModel { model_id, ..good() }
}

/// A record with every byte set, which a slot doesn't have.
fn offered(model_id: u32) -> Vec<u8> {
    let mut record = vec![0xee; RECORD_BYTES];
    record[..4].copy_from_slice(&model_id.to_le_bytes());
    record
}

/// The example's policy and request, with such a record offered.
fn asked(slots: &[Slot], id: u32) -> Case {
    Case { bank: bank(slots), record: offered(id), ..court().case(id) }
}

/// Every bank of up to three slots that are free, live with id 1 or 2, or spoilt, with every id to 3 offered and removed; epochs at the limit, with
/// room and without, by a policy of each length.
fn small_banks(visit: Visit) {
    let slots = [Slot::Free, Slot::Live(model(1)), Slot::Live(model(2)), Slot::Spoilt(RECORD_BYTES - 1)];
    for slots in rows(&slots, 3) {
        for ((id, epoch), (room, length)) in pairs(
            &pairs(&[0, 1, 2, 3], &[0, u64::MAX - 1, u64::MAX]),
            &pairs(&[Room::ShortBy(1), Room::Exact], &[POLICY_BYTES, ROUNDED_POLICY_BYTES, LONG_POLICY_BYTES]),
        ) {
            let mut case = Case { room, ..asked(&slots, id) };
            set_epoch(&mut case.policy, epoch);
            case.policy.resize(length, 1);
            visit(case);
        }
    }
}

/// Every length of the record, of the bank, of the policy and of the buffer.
fn lengths(visit: Visit) {
    let slots = [Slot::Live(model(1)), Slot::Free, Slot::Live(model(2))];
    for (id, length) in pairs(&[1, 3], &(0..=2 * RECORD_BYTES + 2).collect::<Vec<_>>()) {
        let mut case = asked(&slots, id);
        case.record.resize(length, 1);
        visit(case);
    }
    for (id, length) in pairs(&[1, 3], &(0..=3 * RECORD_BYTES + 1).collect::<Vec<_>>()) {
        let mut case = asked(&slots, id);
        case.bank.resize(length, 0);
        visit(case);
    }
    for (length, rounding) in pairs(&(0..=LONG_POLICY_BYTES + 3).collect::<Vec<_>>(), &[0, 1, 2, 255]) {
        let mut case = asked(&slots, 1);
        case.policy.resize(length, rounding);
        visit(case);
    }
    for (id, room) in pairs(&[0, 1, 3], &ROOMS) {
        visit(Case { room, ..asked(&slots, id) });
    }
}

const ROOMS: [Room; 6] =
    [Room::ShortBy(2), Room::ShortBy(1), Room::Exact, Room::LongerBy(1), Room::LongerBy(2), Room::LongerBy(40)];

/// Every fault with every other, so that the first in the order counts.
fn faults(visit: Visit) {
    let (one, two) = (Slot::Live(model(1)), Slot::Live(model(2)));
    let spoilt = bank(&[one, Slot::Spoilt(4), two]);
    let banks =
        [bank(&[Slot::Free, one, Slot::Free, two]), bank(&[two, one, one]), [&spoilt[..], &[0]].concat(), spoilt];
    let policies = [(29, 0), (30, 0), (31, 0), (31, 1), (31, 2), (32, 2), (34, 2), (35, 1), (35, 2), (36, 2)];
    let lent = pairs(&pairs(&[0, 46, 47, 48], &policies), &[0, 1, 2, 3]);
    for ((record, (policy, rounding)), bank) in lent {
        for ((room, id), epoch) in
            pairs(&pairs(&[Room::ShortBy(1), Room::Exact], &[0, 1, 3]), &[7, u64::MAX - 1, u64::MAX])
        {
            let mut case = Case { room, bank: banks[bank].clone(), ..asked(&[], id) };
            set_epoch(&mut case.policy, epoch);
            case.record.resize(record, 0);
            case.policy.resize(policy, rounding);
            visit(case);
        }
    }
}

/// Epochs in which a byte goes over into the next, and those around the largest.
fn epochs(visit: Visit) {
    let carries = (0..64).flat_map(|bit| [(1_u64 << bit) - 1, 1 << bit]);
    for epoch in carries.chain([u64::MAX - 2, u64::MAX - 1, u64::MAX]) {
        for id in [1, 3] {
            let mut case = asked(&[Slot::Live(model(1)), Slot::Free], id);
            set_epoch(&mut case.policy, epoch);
            visit(case);
        }
    }
}

/// A record is taken as it is, whatever its bytes: each alone in a record with an id; ids of every byte; the bytes that are there already.
fn records(visit: Visit) {
    let slots = [Slot::Live(model(1)), Slot::Free];
    for (at, byte) in pairs(&(0..RECORD_BYTES).collect::<Vec<_>>(), &[1, 255]) {
        for id in [1, 3] {
            let mut case = asked(&slots, id);
            case.record[4..].fill(0);
            case.record[at] = byte;
            case.id = u32::from_le_bytes(case.record[..4].try_into().expect("four bytes"));
            visit(case);
        }
    }
    for id in [1 << 8, 1 << 16, 1 << 24, 1 << 31, u32::MAX] {
        visit(asked(&[Slot::Free, Slot::Live(model(id)), Slot::Free, Slot::Live(model(1))], id));
        visit(asked(&slots, id));
    }
    visit(Case { record: bank_bytes(&[model(1)]), ..asked(&slots, 1) });
}

/// The largest banks, edited by the first id, the last, and one that is nowhere.
pub fn large(visit: Visit) {
    largest(&mut |case| {
        for id in [1, case.id, case.id + 1] {
            visit(Case { record: offered(id), id, ..case.clone() });
        }
    });
}

// ---- random rows

/// So many edits follow each other.
pub const STEPS: u64 = 16;

/// The policy and the bank that a row of edits is at, and records to offer.
struct Row {
    r: Random,
    setting: Setting,
    policy: Vec<u8>,
    bank: Vec<u8>,
}

/// A step of a random row, with every edit to ask: of the row with this number by `STEPS`, on what the steps before it left.
pub fn random(draw: Draw) -> Case {
    let mut row = Row::new(draw, draw.number / STEPS);
    (0..draw.number % STEPS).for_each(|_| row.go_on());
    row.step().1
}

/// The bank that a whole row of edits left, to be decided over.
pub fn standing(draw: Draw) -> Case {
    let mut row = Row::new(draw.beside(0x57a2d), draw.number);
    (0..STEPS).for_each(|_| row.go_on());
    let id = row.id(8);
    let place = lists::place(&mut row.r, (row.bank.len() / RECORD_BYTES) as u64);
    Case { listed: Listed::Explained(Listing::Live), place, ..row.case(id) }
}

impl Row {
    /// Over slots that are all free, or with records in some of them, whose ids may repeat. The epoch may have few edits left to it.
    fn new(draw: Draw, row: u64) -> Self {
        let draw = Draw { number: row, ..draw }.beside(0xed17);
        let mut r = draw.source(0);
        let many = if r.one_in(400) { 900 } else { r.pick(&[0, 1, 1, 2, 2, 3, 3, 4, 5, 6, 8, 22]) };
        let mut setting = base::setting(&mut r, many.max(1));
        draw.name(&mut setting);
        setting.policy.catalog_epoch = match r.below(8) {
            0 => u64::MAX - r.below(STEPS),
            1 => (1 << r.between(1, 63)) - r.below(STEPS).min(1),
            _ => setting.policy.catalog_epoch.min(u64::MAX >> 1),
        };
        let empty = r.one_in(3);
        let free = r.pick(&[2, 2, 3, 1 << 20]);
        let mut bank = bank_bytes(&setting.models[..many]);
        for slot in bank.chunks_exact_mut(RECORD_BYTES) {
            if empty || slot[..4] == [0; 4] || r.one_in(free) {
                slot.copy_from_slice(&FREE);
            }
        }
        let policy = draw.case(&setting, 1).policy;
        Row { r, setting, policy, bank }
    }

    /// An id that is live, or a low one, or any; now and then none. So many times in sixteen it is a live one.
    fn id(&mut self, often: u64) -> u32 {
        let live = Listing::Live.records(&self.bank);
        match self.r.below(16) {
            14 => 0,
            15 => self.r.draw() as u32,
            at if at < often && !live.is_empty() => live[self.r.place(live.len())].1.model_id,
            _ => self.r.between(1, (self.bank.len() / RECORD_BYTES) as u64 + 3) as u32,
        }
    }

    /// One of the setting's models, or any bytes, with an id. Nothing but the id is looked at.
    fn record(&mut self, id: u32) -> Vec<u8> {
        let any = edges::anything(&mut self.r, 1).models[0];
        let model = self.setting.models[self.r.place(self.setting.models.len())];
        let model = if self.r.one_in(4) { any } else { model };
        let live = self.bank.chunks_exact(RECORD_BYTES).find(|slot| slot[..4] == id.to_le_bytes());
        match live {
            // The bytes that are there.
            Some(slot) if self.r.one_in(8) => slot.to_vec(),
            _ => bank_bytes(&[KernelModel { model_id: id, ..model }]),
        }
    }

    /// The row's policy and bank, and this id, offered and removed.
    fn case(&mut self, id: u32) -> Case {
        let (policy, bank, record) = (self.policy.clone(), self.bank.clone(), self.record(id));
        Case { policy, bank, record, ..self.setting.case(id) }
    }

    /// The edit by which the row goes on, and its case, which may be faulty.
    fn step(&mut self) -> (usize, Case) {
        let edit = self.r.pick(&[ADD, ADD, ADD, ADD, REPLACE, REMOVE, REMOVE, COMPACT]);
        let id = self.id(if edit == ADD { 2 } else { 12 });
        let mut case = self.case(id);
        if self.r.one_in(8) {
            case.id = self.id(8);
        }
        case.room = self.r.pick(&[Room::Exact, Room::Exact, Room::Exact, Room::Exact, Room::LongerBy(5)]);
        self.damage(&mut case);
        (edit, case)
    }

    /// Now and then something is wrong, each for itself.
    fn damage(&mut self, case: &mut Case) {
        let r = &mut self.r;
        if r.one_in(16) {
            case.room = r.pick(&[Room::ShortBy(1), Room::ShortBy(2)]);
        }
        if r.one_in(12) {
            spoil(r, &mut case.bank);
        }
        for (part, seldom) in [(&mut case.record, 24), (&mut case.bank, 32), (&mut case.policy, 48)] {
            match r.below(2 * seldom) {
                0 => drop(part.pop()),
                1 => part.push(r.draw() as u8),
                _ => {}
            }
        }
        if r.one_in(64) {
            case.policy.resize(POLICY_BYTES + 1, 0);
            case.policy[POLICY_BYTES] = r.pick(&[0, 1, 2, 255]);
        }
    }

    /// What is refused changes nothing. What is damaged is damaged for its step alone.
    fn go_on(&mut self) {
        let (edit, case) = self.step();
        let done = CALLS[edit].owed_on(&case);
        if done.refusal.is_none() && case.policy.len() == self.policy.len() && case.bank.len() == self.bank.len() {
            (self.policy, self.bank) = (done.policy, done.bank);
        }
    }
}
