//! Cases for `validate` and `trust`: each refusal alone and with each other one, values around each limit, and banks in any order.
use super::court::{court, good};
use super::large::MOST;
use super::random::Random;
use super::spaces::pairs;
use super::{base, damage, edges, Draw, Setting, Visit};
use crate::case::Case;
use crate::second::bytes::RECORD_BYTES;
use oracle::kernel::KernelModel;

pub fn each(visit: Visit) {
    alone_and_in_pairs(visit);
    policy_limits(visit);
    model_limits(visit);
    orders(visit);
    lengths(visit);
    sizes(visit);
}

/// Nothing to refuse, with these ids in this order. The latency tells a record's old place, so that equal ids can be told apart.
pub fn sound(ids: &[u32]) -> Setting {
    let numbered = ids.iter().zip(0..);
    let models = numbered.map(|(id, place)| KernelModel { model_id: *id, p95_latency_ms: place, ..good() });
    Setting { models: models.collect(), ..court() }
}

/// A fault of the policy, of all models, or of the one at a place.
pub type Fault = fn(&mut Setting, usize);

/// In the order in which validation finds them, then those of `trust`.
pub const FAULTS: [Fault; 13] = [
    |setting, _| setting.policy.hard_risk_limit_bps = 10_001,
    |setting, _| setting.policy.minimum_confidence_bps = 10_001,
    |setting, _| setting.policy.risk_penalty_multiplier_bps = 50_001,
    |setting, _| setting.models.clear(),
    repeat,
    |setting, at| change(setting, at, |model| model.provider_id = 64),
    |setting, at| change(setting, at, |model| model.quality_bps = 10_001),
    |setting, at| change(setting, at, |model| model.risk_ceiling_bps = 10_001),
    |setting, _| setting.models.iter_mut().for_each(|model| model.enabled = 0),
    |setting, at| change(setting, at, |model| model.enabled = 0),
    |setting, at| change(setting, at, |model| model.model_id = 0),
    |setting, at| change(setting, at, |model| model.enabled = 2),
    |setting, at| change(setting, at, |model| model.enabled = 255),
];

/// Places in `FAULTS`.
const REPEAT: usize = 4;
const ZERO: usize = 10;

fn change(setting: &mut Setting, at: usize, to: fn(&mut KernelModel)) {
    setting.models.get_mut(at).map(to);
}

/// The id of the next record, or of the first.
fn repeat(setting: &mut Setting, at: usize) {
    let next = if at + 1 < setting.models.len() { at + 1 } else { 0 };
    if let Some(id) = setting.models.get(next).map(|model| model.model_id) {
        setting.models[at].model_id = id;
    }
}

/// Two faults in every order and at every two places of three, the same one included; a fault alone is one made twice.
fn alone_and_in_pairs(visit: Visit) {
    visit(sound(&[10, 20, 30]).case(1));
    for ids in [[10, 20, 30], [30, 20, 10], [20, 30, 10]] {
        let faults = pairs(&FAULTS, &[0, 1, 2]);
        for ((first, at), (second, beside)) in pairs(&faults, &faults) {
            let mut setting = sound(&ids);
            first(&mut setting, at);
            second(&mut setting, beside);
            visit(setting.case(1));
        }
    }
}

/// The policy's three limits below, at and above; with a model that breaks one too, and with none.
fn policy_limits(visit: Visit) {
    let bps = [0, 9_999, 10_000, 10_001, 65_535];
    for (hard, (confidence, multiplier)) in pairs(&bps, &pairs(&bps, &[0, 49_999, 50_000, 50_001, 65_535])) {
        for records in 0..=2 {
            let mut setting = sound(&[1, 1][..records]);
            setting.policy.hard_risk_limit_bps = hard;
            setting.policy.minimum_confidence_bps = confidence;
            setting.policy.risk_penalty_multiplier_bps = multiplier;
            visit(setting.case(1));
        }
    }
}

/// One record with every field at its limits, alone and before a sound one.
fn model_limits(visit: Visit) {
    let bps = [0, 9_999, 10_000, 10_001, 65_535];
    let ids = pairs(&[0, 1, 256, u32::MAX], &[0, 1, 2, 128, 255]);
    for ((model_id, enabled), (provider_id, (quality_bps, risk_ceiling_bps))) in
        pairs(&ids, &pairs(&[0, 62, 63, 64, 65, 128, 65_535], &pairs(&bps, &bps)))
    {
        let mut setting = sound(&[2, 7]);
        let model = &mut setting.models[0];
        *model = KernelModel { model_id, enabled, provider_id, quality_bps, risk_ceiling_bps, ..*model };
        visit(setting.case(1));
        setting.models.truncate(1);
        visit(setting.case(1));
    }
}

/// Every order of up to five ids of three, and of six different ones; as it is, and with a fault that is found after ordering.
fn orders(visit: Visit) {
    let mut both = |mut setting: Setting| {
        visit(setting.case(1));
        setting.policy.hard_risk_limit_bps = 10_001;
        visit(setting.case(1));
    };
    for length in 0..=5 {
        for order in 0..3_usize.pow(length) {
            // Ids whose lowest bytes stand in another order than they do.
            let ids: Vec<u32> = (0..length).map(|at| [0x0102, 0x0201, 0x10000][order / 3_usize.pow(at) % 3]).collect();
            both(sound(&ids));
        }
    }
    for order in 0..720 {
        both(sound(&permutation(order)));
    }
}

/// The six ids in the order of this number.
fn permutation(mut number: usize) -> Vec<u32> {
    let mut left = vec![1, 255, 256, 65_536, 1 << 24, u32::MAX];
    let mut ids = Vec::new();
    while !left.is_empty() {
        ids.push(left.remove(number % left.len()));
        number /= left.len() + 1;
    }
    ids
}

/// Every length of the bank up to three records, with a sound policy, a bad one and one of a wrong length.
fn lengths(visit: Visit) {
    for bytes in 0..=3 * RECORD_BYTES {
        for policy in [29, 30, 31] {
            for fault in [FAULTS[0], FAULTS[9], FAULTS[10]] {
                let mut setting = sound(&[3, 2, 1]);
                fault(&mut setting, 0);
                let mut case = setting.case(1);
                case.bank.truncate(bytes);
                case.policy.resize(policy, 0);
                visit(case);
            }
        }
    }
}

/// Rising, falling and in any order, with each fault at the first place, in the middle and at the last.
fn sizes(visit: Visit) {
    let mut r = Random::new(900);
    for records in [1, 2, 22, 900, 1_394] {
        let rising: Vec<u32> = (1..=records as u32).collect();
        let falling: Vec<u32> = rising.iter().rev().copied().collect();
        let mixed: Vec<u32> = r.order(records).into_iter().map(|at| rising[at]).collect();
        for ids in [rising, falling, mixed] {
            visit(sound(&ids).case(1));
            for (fault, at) in pairs(&FAULTS, &[0, records / 2, records - 1]) {
                let mut setting = sound(&ids);
                fault(&mut setting, at);
                visit(setting.case(1));
            }
        }
    }
}

/// Banks of 65,535 records whose ids rise, but for an equal pair near the front: others take long. One more record is 2, and one more
/// byte 1.
pub fn largest(visit: Visit) {
    let rising: Vec<u32> = (1..=MOST as u32).collect();
    visit(sound(&rising).case(1));
    for (number, fault) in FAULTS.iter().enumerate() {
        let mut setting = sound(&rising);
        fault(&mut setting, [MOST - 1, 4_000, 0][usize::from(number == REPEAT) + 2 * usize::from(number == ZERO)]);
        visit(setting.case(1));
    }
    let more: Vec<u32> = (1..=MOST as u32 + 1).collect();
    let mut case = sound(&more).case(1);
    visit(case.clone());
    case.bank.truncate(MOST * RECORD_BYTES + 1);
    visit(case);
}

/// For `validate` alone: 65,535 different ids that fall. Ordering them takes two thousand million moves.
pub fn falling(visit: Visit) {
    let falling: Vec<u32> = (1..=MOST as u32).rev().collect();
    visit(sound(&falling).case(1));
}

/// For `trust` alone: of 65,535 records the last belongs to the front and the first to the end. Unordered, `validate` would hold each
/// one against each other.
pub fn turned(visit: Visit) {
    let mut ids: Vec<u32> = (1..=MOST as u32).collect();
    ids.swap(0, MOST - 1);
    visit(sound(&ids).case(1));
    ids[4_000] = 4_000;
    visit(sound(&ids).case(1));
}

/// A bank in any order with nothing to refuse; then a few faults, and now and then a wrong length.
pub fn random(draw: Draw) -> Case {
    let mut r = draw.source(0xca7a);
    let records = if r.one_in(400) { 900 } else { r.pick(&[0, 1, 1, 2, 2, 2, 3, 3, 3, 5, 5, 8, 22]) };
    let mut setting = base::setting(&mut r, records);
    draw.name(&mut setting);
    make_sound(&mut r, &mut setting);
    for _ in 0..r.pick(&[0, 0, 1, 1, 2, 2, 3]) {
        let at = r.place(records.max(1));
        match r.below(4) {
            0 => edges::change(&mut r, &mut setting),
            1 => raise(&mut r, &mut setting, at),
            _ => r.pick(&FAULTS)(&mut setting, at),
        }
    }
    let mut case = draw.case(&setting, 1);
    damage(&mut r, &mut case);
    case
}

pub fn make_sound(r: &mut Random, setting: &mut Setting) {
    let policy = &mut setting.policy;
    policy.hard_risk_limit_bps = r.pick(&[0, 9_000, 10_000]);
    policy.minimum_confidence_bps = r.pick(&[0, 2_000, 10_000]);
    policy.risk_penalty_multiplier_bps = r.pick(&[0, 10_000, 50_000]);
    // Neighbours, or anywhere, which seldom repeats.
    let spread = r.one_in(2);
    let order = r.order(setting.models.len());
    for (model, at) in setting.models.iter_mut().zip(order) {
        model.model_id = if spread { (r.draw() as u32).max(1) >> r.below(4) | 1 } else { at as u32 + 1 };
        model.provider_id %= 64;
        model.quality_bps %= 10_001;
        model.risk_ceiling_bps %= 10_001;
        model.enabled = u8::from(!r.one_in(3));
    }
}

/// One field just at its limit or just above.
fn raise(r: &mut Random, setting: &mut Setting, at: usize) {
    let above = r.below(2) as u16;
    let policy = &mut setting.policy;
    match (r.below(6), setting.models.get_mut(at)) {
        (0, _) => policy.hard_risk_limit_bps = 10_000 + above,
        (1, _) => policy.minimum_confidence_bps = 10_000 + above,
        (2, _) => policy.risk_penalty_multiplier_bps = 50_000 + above,
        (3, Some(model)) => model.provider_id = 63 + above,
        (4, Some(model)) => model.quality_bps = 10_000 + above,
        (_, Some(model)) => model.risk_ceiling_bps = 10_000 + above,
        _ => {}
    }
}
