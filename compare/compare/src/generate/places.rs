//! Cases for `record_at`: every place of small banks, and places far off.
use super::large::MOST;
use super::lists::mixed;
use super::spaces::pairs;
use super::Visit;
use crate::case::{Case, Room};
use crate::second::bytes::RECORD_BYTES;

/// Places so far off that 47 times the place goes round 2^64 into the bank, or that name a record where the upper bits are dropped.
pub const FAR: [u64; 10] = [
    u16::MAX as u64,
    1 << 16,
    u32::MAX as u64,
    1 << 32,
    (1 << 32) + 1,
    u64::MAX / 47,
    u64::MAX / 47 + 1,
    1 << 63,
    u64::MAX - 1,
    u64::MAX,
];

pub fn each(visit: Visit) {
    lengths(visit);
    sizes(visit);
}

/// Every length of the bank up to three records and a byte, with every place in it and after it, and each room.
fn lengths(visit: Visit) {
    let rooms = [Room::ShortBy(usize::MAX), Room::ShortBy(1), Room::Exact, Room::LongerBy(1), Room::LongerBy(40)];
    for (bytes, room) in pairs(&(0..=3 * RECORD_BYTES + 1).collect::<Vec<_>>(), &rooms) {
        for place in (0..=4).chain(FAR) {
            let mut case = Case { place, room, ..mixed(4, 0).case(1) };
            case.bank.truncate(bytes);
            visit(case);
        }
    }
}

/// The first record, those around the last, and places far off.
fn sizes(visit: Visit) {
    for records in [0, 1, 2, 22, 900, 1_394, MOST, MOST + 1] {
        let last = records as u64;
        for place in [0, 1, last.saturating_sub(1), last, last + 1].into_iter().chain(FAR) {
            visit(Case { place, ..mixed(records, 0).case(1) });
        }
    }
}
