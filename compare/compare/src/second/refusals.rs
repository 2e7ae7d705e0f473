//! Document 01's refusal numbers, the tests behind them, and the word in which the library hands one back.
use super::bytes::{rounding_of, LONG_POLICY_BYTES, POLICY_BYTES, RECORD_BYTES, REQUEST_BYTES, ROUNDED_POLICY_BYTES};
use super::slots::{is_spoilt, Listing};
use oracle::kernel::KernelInput;

pub const BANK_LENGTH: u8 = 1;
pub const TOO_MANY_RECORDS: u8 = 2;
pub const REQUEST_LIMIT: u8 = 3;
pub const NO_ROOM: u8 = 4;
pub const NOT_LISTED: u8 = 5;
pub const REJECTION: u8 = 6;
pub const NO_UTILITY: u8 = 7;
pub const BEYOND: u8 = 8;
pub const FIELD_LENGTH: u8 = 22;
pub const ROUNDING: u8 = 23;
pub const ZERO_ALLOWANCE: u8 = 25;
pub const SLOT_NOT_CLEAR: u8 = 34;

pub const MOST_RECORDS: usize = 65_535;
/// Of a risk, a confidence, a quality and a ceiling.
pub const MOST_BPS: u16 = 10_000;

/// A number with its values: which field, its value, and an id or a place. What a number doesn't carry is 0.
#[derive(Clone, Copy, Debug, PartialEq, Eq)]
pub struct Refusal {
    pub number: u8,
    pub field: u8,
    pub value: u16,
    pub id_or_place: u32,
}

impl Refusal {
    pub fn of(number: u8) -> Self {
        Refusal { number, field: 0, value: 0, id_or_place: 0 }
    }

    /// number + 2^8 field + 2^16 value + 2^32 (id or place)
    pub fn word(self) -> u64 {
        u64::from(self.number)
            | u64::from(self.field) << 8
            | u64::from(self.value) << 16
            | u64::from(self.id_or_place) << 32
    }
}

pub type Passed = Result<(), Refusal>;

fn unless(fault: bool, number: u8) -> Passed {
    if fault {
        Err(Refusal::of(number))
    } else {
        Ok(())
    }
}

/// 22: the boundary's own case, a request that isn't 70 bytes.
pub fn request_length(request: &[u8]) -> Passed {
    unless(request.len() != REQUEST_BYTES, FIELD_LENGTH)
}

/// 22, for a record that is offered in other than 47 bytes.
pub fn record_length(record: &[u8]) -> Passed {
    unless(record.len() != RECORD_BYTES, FIELD_LENGTH)
}

/// 22, for a policy that is neither 30 bytes nor 31 nor 35.
fn policy_length(policy: &[u8]) -> Passed {
    unless(![POLICY_BYTES, ROUNDED_POLICY_BYTES, LONG_POLICY_BYTES].contains(&policy.len()), FIELD_LENGTH)
}

/// 23, for a policy whose 31st byte says no way of rounding. An allowance of 0 is none, and any other is sound: no bytes that are lent are 25.
fn policy_rounding(policy: &[u8]) -> Passed {
    let told = policy.get(POLICY_BYTES);
    unless(told.is_some_and(|number| rounding_of(*number).is_none()), ROUNDING)
}

/// 22, then 23.
pub fn policy(policy: &[u8]) -> Passed {
    policy_length(policy)?;
    policy_rounding(policy)
}

/// 22 for the policy's length, 22 for the request's, then 23.
pub fn policy_and_request(policy: &[u8], request: &[u8]) -> Passed {
    policy_length(policy)?;
    request_length(request)?;
    policy_rounding(policy)
}

/// 22 for the policy's length, 22 for a row of requests that isn't 70 bytes for each of so many or has more of them than 32 bits count, then 23.
pub fn policy_and_requests(policy: &[u8], requests: &[u8], count: u64) -> Passed {
    policy_length(policy)?;
    unless(count > u64::from(u32::MAX), FIELD_LENGTH)?;
    unless(requests.len() as u64 != count * REQUEST_BYTES as u64, FIELD_LENGTH)?;
    policy_rounding(policy)
}

/// 1, then 2.
pub fn bank(bank: &[u8]) -> Passed {
    unless(!bank.len().is_multiple_of(RECORD_BYTES), BANK_LENGTH)?;
    unless(bank.len() / RECORD_BYTES > MOST_RECORDS, TOO_MANY_RECORDS)
}

/// 1, 2, and where the live records are meant 34: a slot with id 0 and another byte set.
pub fn listed(listing: Listing, lent: &[u8]) -> Passed {
    bank(lent)?;
    let spoilt = || lent.chunks_exact(RECORD_BYTES).any(is_spoilt);
    unless(listing == Listing::Live && spoilt(), SLOT_NOT_CLEAR)
}

/// 4.
pub fn room(have: usize, need: usize) -> Passed {
    unless(have < need, NO_ROOM)
}

/// 8: the bank has no record at the place.
pub fn place(bank: &[u8], place: u64) -> Passed {
    unless(place >= (bank.len() / RECORD_BYTES) as u64, BEYOND)
}

/// 3: the first of risk, confidence and minimum quality that is above 10,000, as field 1, 2 or 3. The place is 0 outside a batch.
pub fn request_limits(request: &KernelInput) -> Passed {
    let fields = [(1, request.risk_bps), (2, request.confidence_bps), (3, request.minimum_quality_bps)];
    match fields.into_iter().find(|(_, value)| *value > MOST_BPS) {
        Some((field, value)) => Err(Refusal { field, value, ..Refusal::of(REQUEST_LIMIT) }),
        None => Ok(()),
    }
}

#[cfg(test)]
mod tests {
    use super::*;

    #[test]
    fn a_word_has_each_value_in_its_place() {
        let refusal = Refusal { number: 14, field: 7, value: 10_001, id_or_place: 5 };
        assert_eq!(refusal.word(), 14 + (7 << 8) + (10_001 << 16) + (5 << 32));
    }

    #[test]
    fn a_policy_has_30_bytes_or_31_or_35_and_the_31st_is_0_or_1() {
        let of = |length: usize, byte: u8| policy(&vec![byte; length]).err();
        let wrong = [0, 29, 32, 33, 34, 36, 39, 70];
        assert_eq!(wrong.map(|length| of(length, 2)), [Some(Refusal::of(22)); 8], "22 before 23");
        assert_eq!([0, 1, 2, 255].map(|byte| of(30, byte)), [None; 4]);
        let unknown = Some(Refusal::of(23));
        for length in [31, 35] {
            assert_eq!([0, 1, 2, 255].map(|byte| of(length, byte)), [None, None, unknown, unknown]);
        }
        assert_eq!(policy(&[vec![9; 30], vec![1, 0, 0, 0, 0]].concat()), Ok(()), "an allowance of 0 is none");
        assert_eq!(policy(&[vec![9; 30], vec![0, 255, 255, 255, 255]].concat()), Ok(()));
        let both = |length: usize, request: usize| policy_and_request(&vec![2; length], &vec![0; request]).err();
        assert_eq!(
            [both(31, 69), both(31, 70), both(32, 70), both(30, 70), both(35, 69), both(35, 70), both(36, 70)]
                .map(|it| it.map_or(0, |it| it.number)),
            [22, 23, 22, 0, 22, 23, 22]
        );
    }

    #[test]
    fn the_length_comes_before_the_number_of_records() {
        assert_eq!(bank(&vec![0; 65_536 * 47 + 1]), Err(Refusal::of(1)));
        assert_eq!(bank(&vec![0; 65_536 * 47]), Err(Refusal::of(2)));
        assert_eq!(bank(&vec![0; 65_535 * 47]), Ok(()));
    }
}
