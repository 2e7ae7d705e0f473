//! Document 01's explanation record, and the next eligible one of a list of them.
use super::deciding::{Explained, Verdict};
use super::price::Terms;

pub const EXPLANATION_BYTES: usize = 72;
/// The place of a next eligible record, or `NO_MORE`.
pub const NEXT_BYTES: usize = 8;
pub const NO_MORE: u64 = u64::MAX;

const VERDICT: usize = 6;
const ELIGIBLE: u8 = 4;

pub fn explanation_bytes(explained: &[Explained]) -> Vec<u8> {
    explained.iter().flat_map(record).collect()
}

/// What a verdict doesn't carry stays zero.
fn record(explained: &Explained) -> [u8; EXPLANATION_BYTES] {
    let mut bytes = [0; EXPLANATION_BYTES];
    put(&mut bytes, 0, &explained.id.to_le_bytes());
    put(&mut bytes, 4, &explained.place.to_le_bytes());
    match &explained.verdict {
        Verdict::Rejected(failed) => {
            bytes[7] = failed.gate;
            put_pair(&mut bytes, 1, failed.measured.into(), failed.limit.into());
        }
        Verdict::OverBudget { cost, budget } => put_pair(&mut bytes, 2, (*cost).into(), (*budget).into()),
        Verdict::NonPositive(terms) => put_terms(&mut bytes, 3, terms),
        Verdict::Eligible(terms) => put_terms(&mut bytes, ELIGIBLE, terms),
    }
    bytes
}

fn put(bytes: &mut [u8], at: usize, field: &[u8]) {
    bytes[at..at + field.len()].copy_from_slice(field);
}

/// The verdict, and the two numbers of 16 bytes that every verdict has.
fn put_pair(bytes: &mut [u8], verdict: u8, first: u128, second: u128) {
    bytes[VERDICT] = verdict;
    put(bytes, 8, &first.to_le_bytes());
    put(bytes, 24, &second.to_le_bytes());
}

fn put_terms(bytes: &mut [u8], verdict: u8, terms: &Terms) {
    put_pair(bytes, verdict, terms.quality, terms.risk);
    put(bytes, 40, &terms.cost.to_le_bytes());
    put(bytes, 48, &terms.latency.to_le_bytes());
    put(bytes, 64, &terms.utility.to_le_bytes());
}

/// The place of the first whole record with verdict 4 that stands at `from` or after it.
pub fn next_eligible(list: &[u8], from: u64) -> u64 {
    let mut records = list.chunks_exact(EXPLANATION_BYTES).zip(0..);
    let next = records.find(|(record, place)| *place >= from && record[VERDICT] == ELIGIBLE);
    next.map_or(NO_MORE, |(_, place)| place)
}

#[cfg(test)]
mod tests {
    use super::*;
    use crate::second::gates::Failed;

    /// The bytes at which a number other than 0 begins, with that number's lowest byte.
    fn marks(verdict: Verdict) -> Vec<(usize, u8)> {
        let bytes = record(&Explained { id: 1, place: 2, verdict });
        bytes.into_iter().enumerate().filter(|(_, byte)| *byte != 0).collect()
    }

    #[test]
    fn a_record_has_its_fields_at_the_documents_offsets() {
        let terms = Terms { quality: 5, risk: 6, cost: 7, latency: 8, utility: 9 };
        let rejected = Verdict::Rejected(Failed { gate: 8, measured: 5, limit: 6 });
        let over = Verdict::OverBudget { cost: 5, budget: 6 };
        assert_eq!(marks(rejected), [(0, 1), (4, 2), (6, 1), (7, 8), (8, 5), (24, 6)]);
        assert_eq!(marks(over), [(0, 1), (4, 2), (6, 2), (8, 5), (24, 6)]);
        let priced = [(8, 5), (24, 6), (40, 7), (48, 8), (64, 9)];
        let with = |verdict: u8| [&[(0, 1), (4, 2), (6, verdict)][..], &priced].concat();
        assert_eq!(marks(Verdict::NonPositive(terms)), with(3));
        assert_eq!(marks(Verdict::Eligible(terms)), with(4));
    }

    #[test]
    fn the_next_eligible_record_is_a_whole_one_at_or_after_the_place() {
        let list = [4; 3 * EXPLANATION_BYTES - 1];
        assert_eq!([0, 1, 2, 3, u64::MAX].map(|from| next_eligible(&list, from)), [0, 1, NO_MORE, NO_MORE, NO_MORE]);
    }
}
