//! Kinds 8 and 9: validation, and trust with the bank that it leaves.
use super::{add, random, Entry};
use crate::calls::{TRUST, VALIDATE};
use crate::case::Case;
use crate::generate::catalogues::{self, sound, FAULTS};
use crate::generate::example::example;
use crate::generate::Setting;

pub fn entries(list: &mut Vec<Entry>) {
    for call in [VALIDATE, TRUST] {
        let mut both = |setting: &Setting| add(list, call, setting.case(1));
        both(&example());
        alone(&mut both);
        in_pairs(&mut both);
        limits(&mut both);
        orders(&mut both);
        lengths(list, call);
        random(list, call, 10, catalogues::random);
    }
}

/// Each fault in the second of three records, whose ids fall.
fn alone(visit: &mut dyn FnMut(&Setting)) {
    for fault in FAULTS {
        let mut setting = sound(&[30, 20, 10]);
        fault(&mut setting, 1);
        visit(&setting);
    }
}

/// Places in `FAULTS`.
const LIMIT: usize = 0;
const EMPTY: usize = 3;
const REPEAT: usize = 4;
const PROVIDER: usize = 5;
const QUALITY: usize = 6;
const CEILING: usize = 7;
const OFF: usize = 8;
const ZERO: usize = 10;
const FLAG: usize = 11;

/// Two faults, of which the first found counts: by record in validation, by number over the whole bank before the ordering.
fn in_pairs(visit: &mut dyn FnMut(&Setting)) {
    let faults = [
        [(LIMIT, 0), (EMPTY, 0)],
        [(LIMIT, 0), (FLAG, 1)],
        [(QUALITY, 0), (PROVIDER, 1)],
        [(QUALITY, 1), (PROVIDER, 0)],
        [(QUALITY, 1), (PROVIDER, 1)],
        [(CEILING, 1), (QUALITY, 1)],
        [(CEILING, 0), (REPEAT, 1)],
        [(CEILING, 2), (REPEAT, 0)],
        [(OFF, 0), (PROVIDER, 2)],
        [(FLAG, 0), (ZERO, 1)],
        [(ZERO, 0), (FLAG, 1)],
        [(FLAG, 2), (FLAG, 1)],
    ];
    for [(first, at), (second, beside)] in faults {
        let mut setting = sound(&[5, 9, 7]);
        FAULTS[first](&mut setting, at);
        FAULTS[second](&mut setting, beside);
        visit(&setting);
    }
}

/// Every limit just reached, so that nothing is refused; then each by one more.
fn limits(visit: &mut dyn FnMut(&Setting)) {
    for above in 0..=6 {
        let one = |field: u16| u16::from(above == field);
        let mut setting = sound(&[2, 1]);
        setting.policy.hard_risk_limit_bps = 10_000 + one(1);
        setting.policy.minimum_confidence_bps = 10_000 + one(2);
        setting.policy.risk_penalty_multiplier_bps = 50_000 + one(3);
        setting.models[1].provider_id = 63 + one(4);
        setting.models[1].quality_bps = 10_000 + one(5);
        setting.models[1].risk_ceiling_bps = 10_000 + one(6);
        visit(&setting);
    }
}

/// Orders by the whole id and not by its bytes; equal ids that keep their old order.
fn orders(visit: &mut dyn FnMut(&Setting)) {
    let orders: [&[u32]; 6] = [
        &[1],
        &[0x10000, 0x0201, 0x0102, u32::MAX, 1],
        &[8, 7, 6, 5, 4, 3, 2, 1],
        &[3, 1, 3, 2, 1, 3, 2, 1],
        &[2, 2, 1, 1],
        &[7, 7],
    ];
    for ids in orders {
        visit(&sound(ids));
    }
}

/// A bank whose length is wrong by a byte stays as it was.
fn lengths(list: &mut Vec<Entry>, call: usize) {
    let case = sound(&[2, 1]).case(1);
    add(list, call, Case { bank: case.bank[1..].to_vec(), ..case.clone() });
    add(list, call, Case { bank: [&case.bank[..], &[0]].concat(), ..case });
}
