//! Banks of every size that some rule names, up to 65,535 records and more.
use super::court::{good, over, rejected, REASONS};
use super::random::Random;
use super::{base, Visit};
use crate::case::{Case, Room};
use crate::second::bytes::RECORD_BYTES;
use oracle::kernel::KernelModel;

/// The largest bank that is decided.
pub const MOST: usize = 65_535;

pub fn each(visit: Visit) {
    for reason in 0..REASONS {
        visit(large_case(vec![rejected(reason); MOST]));
    }
    visit(large_case(vec![good(); MOST]));
    visit(falling(vec![good(); MOST]));
    visit(large_case(vec![good(); MOST + 1]));
    for length in [(MOST + 1) * RECORD_BYTES - 1, (MOST + 1) * RECORD_BYTES + 1, MOST * RECORD_BYTES + 1] {
        let mut case = large_case(vec![good(); MOST + 2]);
        case.bank.truncate(length);
        visit(case.clone());
        case.room = Room::ShortBy(1);
        visit(case);
    }
    let mut r = Random::new(65_535);
    for records in [0, 1, 2, 22, 900, 901, 1_394, 1_395] {
        (0..20).for_each(|_| visit(base::setting(&mut r, records).case(records as u32)));
    }
    for records in [MOST, MOST, MOST, MOST, MOST + 1] {
        visit(base::setting(&mut r, records).case(records as u32));
    }
}

/// The last id is looked for, so that the whole bank is passed over.
pub fn large_case(models: Vec<KernelModel>) -> Case {
    let last = models.len() as u32;
    over(models).case(last)
}

/// Ids that fall: each record is better than the one before, and the last one is chosen.
fn falling(models: Vec<KernelModel>) -> Case {
    let mut setting = over(models);
    setting.models.reverse();
    setting.case(1)
}
