//! Cases for `explain` and `next_eligible`: lists with room and without, and lists that nobody's explanation is.
use super::court::{good, over, rejected, REASONS};
use super::large::MOST;
use super::random::Random;
use super::spaces::pairs;
use super::{random_case, small_size, Draw, Setting, Visit};
use crate::case::{Case, Listed, Room};
use crate::second::bytes::RECORD_BYTES;
use crate::second::explanation::EXPLANATION_BYTES;
use oracle::kernel::KernelModel;

/// The verdict's offset in a record, and the verdict of an eligible one.
const VERDICT: usize = 6;
const ELIGIBLE: u8 = 4;

pub fn each(visit: Visit) {
    rooms(visit);
    both_rooms(visit);
    verdicts(visit);
    patterns(visit);
    lengths(visit);
    far_places(visit);
    sizes(visit);
}

/// Records of every verdict, so many; the request stopped by nothing, risk, confidence or both.
pub fn mixed(records: usize, stop: usize) -> Setting {
    let models = (0..records).map(|at| if at % 10 == 0 { good() } else { rejected(at % REASONS) });
    let mut setting = over(models.collect());
    if stop & 1 == 1 {
        setting.policy.hard_risk_limit_bps = setting.request.risk_bps;
    }
    if stop & 2 == 2 {
        setting.policy.minimum_confidence_bps = setting.request.confidence_bps + 1;
    }
    setting
}

/// A list of so many bytes, whatever is needed.
fn list_of(bytes: usize, case: Case) -> Case {
    let need = case.bank.len() / RECORD_BYTES * EXPLANATION_BYTES;
    let list_room = if bytes < need { Room::ShortBy(need - bytes) } else { Room::LongerBy(bytes - need) };
    Case { list_room, ..case }
}

/// Every length of the list up to a few bytes more than is needed, also where the request is stopped and none is.
fn rooms(visit: Visit) {
    for (records, stop) in pairs(&[0, 1, 2], &[0, 1, 2, 3]) {
        for bytes in 0..=records * EXPLANATION_BYTES + 3 {
            visit(list_of(bytes, mixed(records, stop).case(1)));
        }
    }
}

/// Every length of the buffer with a list that is empty, too short, just fits, or is longer.
fn both_rooms(visit: Visit) {
    let rooms = [Room::ShortBy(usize::MAX), Room::ShortBy(1), Room::Exact, Room::LongerBy(5)];
    for (stop, list_room) in pairs(&[0, 1], &rooms) {
        for short in 0..=70 {
            let room = if short < 66 { Room::ShortBy(short) } else { Room::LongerBy(short - 65) };
            visit(Case { room, list_room, ..mixed(2, stop).case(1) });
        }
    }
}

/// A case whose list is these bytes.
pub fn of_bytes(list: Vec<u8>, place: u64) -> Case {
    Case { listed: Listed::Bytes(list), place, ..mixed(1, 0).case(1) }
}

/// Records whose other bytes are all `rest`.
pub fn with_verdicts(verdicts: &[u8], rest: u8) -> Vec<u8> {
    let mut list = vec![rest; verdicts.len() * EXPLANATION_BYTES];
    for (record, verdict) in list.chunks_exact_mut(EXPLANATION_BYTES).zip(verdicts) {
        record[VERDICT] = *verdict;
    }
    list
}

/// Every byte as a verdict, between bytes that are an eligible one's: only its own counts.
fn verdicts(visit: Visit) {
    for verdict in 0..=u8::MAX {
        for from in 0..=1 {
            visit(of_bytes(with_verdicts(&[verdict], ELIGIBLE), from));
        }
    }
}

/// Six records, each eligible or not, from every place on.
fn patterns(visit: Visit) {
    for pattern in 0..64_u32 {
        let verdicts: Vec<u8> = (0..6).map(|at| if pattern >> at & 1 == 1 { ELIGIBLE } else { 3 }).collect();
        for from in 0..=7 {
            visit(of_bytes(with_verdicts(&verdicts, 0), from));
        }
    }
}

/// Every length of a list up to three records: what is left of a record at its end is none.
fn lengths(visit: Visit) {
    for length in 0..=3 * EXPLANATION_BYTES {
        for from in 0..=3 {
            visit(of_bytes(vec![ELIGIBLE; length], from));
        }
    }
}

/// Places so far off that 72 times the place goes round 2^64, to the start of an eligible record where it does so.
pub const FAR: [u64; 10] = [
    u16::MAX as u64,
    1 << 32,
    (1 << 32) + 1,
    1 << 61,
    (1 << 61) + 1,
    u64::MAX / 72,
    u64::MAX / 72 + 1,
    1 << 63,
    u64::MAX - 1,
    u64::MAX,
];

fn far_places(visit: Visit) {
    for place in FAR {
        visit(of_bytes(with_verdicts(&[ELIGIBLE; 3], 0), place));
        visit(Case { place, ..mixed(22, 0).case(1) });
    }
}

/// The sizes that are asked of every call, with and without room, and places around their ends.
fn sizes(visit: Visit) {
    for records in [0, 1, 2, 22, 900, 1_394, MOST, MOST + 1] {
        for (stop, list_room) in pairs(&[0, 1], &[Room::Exact, Room::ShortBy(1), Room::LongerBy(7)]) {
            let place = records.saturating_sub(stop) as u64;
            visit(Case { list_room, place, ..mixed(records, stop).case(1) });
        }
    }
    visit(Case { place: 1, ..last_alone(MOST) });
    visit(Case { place: MOST as u64, ..last_alone(MOST) });
}

/// Only the last record is eligible.
fn last_alone(records: usize) -> Case {
    let mut models = vec![KernelModel { enabled: 0, ..good() }; records - 1];
    models.push(good());
    over(models).case(1)
}

/// The room of the list of a random case.
pub fn room(r: &mut Random) -> Room {
    match r.below(16) {
        0 => Room::ShortBy(1),
        1 => Room::ShortBy(r.between(1, 200) as usize),
        2 => Room::ShortBy(usize::MAX),
        3..=9 => Room::Exact,
        _ => Room::LongerBy(r.between(1, 90) as usize),
    }
}

/// A place in a list of so many records, its ends first.
pub fn place(r: &mut Random, records: u64) -> u64 {
    match r.below(8) {
        0..=1 => 0,
        2 => records.saturating_sub(1),
        3 => records + r.below(2),
        4 => r.pick(&FAR),
        _ => r.between(0, records),
    }
}

/// A small case with its own explanation, or with bytes for a list: verdicts of any kind, and the rest anything.
pub fn random(draw: Draw) -> Case {
    let mut case = random_case(draw.beside(0x11575), small_size);
    let mut r = draw.source(0x11576);
    if r.one_in(3) {
        return case;
    }
    let records = r.below(9);
    let verdicts: Vec<u8> = (0..records).map(|_| r.pick(&[0, 1, 1, 2, 3, 3, 3, 4, 5, 255])).collect();
    let mut list = with_verdicts(&verdicts, 0);
    for at in (0..list.len()).filter(|at| at % EXPLANATION_BYTES != VERDICT) {
        list[at] = r.pick(&[0, 0, 0, ELIGIBLE, ELIGIBLE, 255]);
    }
    let more = r.pick(&[0, 0, 1, VERDICT + 1, EXPLANATION_BYTES - 1]);
    list.extend(vec![ELIGIBLE; more]);
    case.listed = Listed::Bytes(list);
    case.place = place(&mut r, records);
    case
}
