//! Forms, requests and single places.
use super::*;

/// The form has the fields of tags 4 and 5.
pub fn stored_once(n: usize) -> Case {
    let mut setting = alike(n, Ids::LowestThenDescending);
    setting.policy.rounding = Rounding::Once;
    about_last(setting)
}

/// The form has the field of tag 4 alone.
pub fn stored_once_in_31(n: usize) -> Case {
    shortened(stored_once(n), ROUNDED_POLICY_BYTES)
}

/// The policy in 31 bytes all the same.
pub fn stored_apart_in_31(n: usize) -> Case {
    shortened(second_by_id(n), ROUNDED_POLICY_BYTES)
}

fn requested(change: impl Fn(&mut KernelInput)) -> Case {
    let mut setting = alike(1, Ids::Ascending);
    change(&mut setting.request);
    about_last(setting)
}

pub fn request_sound(_: usize) -> Case {
    requested(|_| ())
}

pub fn request_risk(_: usize) -> Case {
    requested(|r| r.risk_bps = 10_001)
}

pub fn request_quality(_: usize) -> Case {
    requested(|r| r.minimum_quality_bps = 10_001)
}

pub fn place_last(n: usize) -> Case {
    Case { place: n as u64 - 1, ..second_by_id(n) }
}

pub fn place_beyond(n: usize) -> Case {
    Case { place: n as u64, ..second_by_id(n) }
}
