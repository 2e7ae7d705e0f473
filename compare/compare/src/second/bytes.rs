//! Document 01's bytes: little-endian, signed numbers in two's complement, no gaps, fields in the order in which they stand below.
use super::deciding::{Counts, Decision};
use super::rules::{Rounding, Rules};
use oracle::kernel::{KernelInput, KernelModel};

/// A policy's six numbers.
pub const POLICY_BYTES: usize = 30;
/// The same with a byte after them that says how it rounds.
pub const ROUNDED_POLICY_BYTES: usize = 31;
/// The same with four bytes after that one, which say its allowance.
pub const LONG_POLICY_BYTES: usize = 35;
pub const REQUEST_BYTES: usize = 70;
pub const RECORD_BYTES: usize = 47;
pub const DECISION_BYTES: usize = 65;
/// A decision and its nine counts.
pub const TRACED_BYTES: usize = 83;
pub const UTILITY_BYTES: usize = 8;
pub const PLACE_BYTES: usize = 2;
pub const OFFSET_BYTES: usize = 8;
/// The place of an id that is nowhere.
pub const NOWHERE: u16 = u16::MAX;

/// The policy's six numbers, the body of tag 1, how it rounds, and its allowance. Its models stand beside it, in the bank.
#[derive(Clone, Copy, Debug, PartialEq, Eq)]
pub struct Policy {
    pub policy_epoch: u64,
    pub catalog_epoch: u64,
    pub hard_risk_limit_bps: u16,
    pub minimum_confidence_bps: u16,
    pub risk_penalty_multiplier_bps: u16,
    pub latency_penalty_microunits_per_ms: u64,
    pub rounding: Rounding,
    /// 0 is none.
    pub latency_allowance_ms: u32,
}

impl Policy {
    /// The same policy, were these the rules that it names.
    pub fn by(self, rules: Rules) -> Self {
        Policy { rounding: rules.rounding, latency_allowance_ms: rules.allowance, ..self }
    }
}

/// What is left to read. A field is read off the front.
struct Fields<'a>(&'a [u8]);

impl Fields<'_> {
    fn take<const N: usize>(&mut self) -> [u8; N] {
        let (field, rest) = self.0.split_at(N);
        self.0 = rest;
        field.try_into().expect("split at its length")
    }
    fn u8(&mut self) -> u8 {
        u8::from_le_bytes(self.take())
    }
    fn u16(&mut self) -> u16 {
        u16::from_le_bytes(self.take())
    }
    fn u32(&mut self) -> u32 {
        u32::from_le_bytes(self.take())
    }
    fn u64(&mut self) -> u64 {
        u64::from_le_bytes(self.take())
    }
    fn i64(&mut self) -> i64 {
        i64::from_le_bytes(self.take())
    }
}

/// The rounding of a number, where it has one.
pub fn rounding_of(number: u8) -> Option<Rounding> {
    [Rounding::Apart, Rounding::Once].into_iter().find(|rounding| *rounding as u8 == number)
}

/// 30 bytes are a policy that rounds apart and has no allowance; a 31st says how it rounds, and four more the allowance.
pub fn policy_of(bytes: &[u8]) -> Policy {
    let (numbers, rest) = bytes.split_at(POLICY_BYTES);
    let (rounding, allowance) = match rest {
        [] => (Some(Rounding::Apart), 0),
        [number] => (rounding_of(*number), 0),
        [number, allowance @ ..] => (rounding_of(*number), Fields(allowance).u32()),
    };
    let mut f = Fields(numbers);
    Policy {
        policy_epoch: f.u64(),
        catalog_epoch: f.u64(),
        hard_risk_limit_bps: f.u16(),
        minimum_confidence_bps: f.u16(),
        risk_penalty_multiplier_bps: f.u16(),
        latency_penalty_microunits_per_ms: f.u64(),
        rounding: rounding.expect("refused where there is none"),
        latency_allowance_ms: allowance,
    }
}

/// As few bytes as say the policy: 30 where it rounds apart and has no allowance, 31 where it rounds once and has none.
pub fn policy_bytes(p: &Policy) -> Vec<u8> {
    let mut bytes = long_policy_bytes(p);
    bytes.truncate(match (p.latency_allowance_ms, p.rounding) {
        (0, Rounding::Apart) => POLICY_BYTES,
        (0, Rounding::Once) => ROUNDED_POLICY_BYTES,
        _ => LONG_POLICY_BYTES,
    });
    bytes
}

/// The 35 bytes in which a policy is handed back.
pub fn long_policy_bytes(p: &Policy) -> Vec<u8> {
    [
        &p.policy_epoch.to_le_bytes()[..],
        &p.catalog_epoch.to_le_bytes(),
        &p.hard_risk_limit_bps.to_le_bytes(),
        &p.minimum_confidence_bps.to_le_bytes(),
        &p.risk_penalty_multiplier_bps.to_le_bytes(),
        &p.latency_penalty_microunits_per_ms.to_le_bytes(),
        &[p.rounding as u8],
        &p.latency_allowance_ms.to_le_bytes(),
    ]
    .concat()
}

pub fn request_of(bytes: &[u8]) -> KernelInput {
    assert_eq!(bytes.len(), REQUEST_BYTES);
    let mut f = Fields(bytes);
    KernelInput {
        request_sequence: f.u64(),
        requested_model_id: f.u32(),
        input_tokens: f.u32(),
        output_tokens: f.u32(),
        business_value_microunits: f.i64(),
        budget_limit_microunits: f.u64(),
        risk_bps: f.u16(),
        confidence_bps: f.u16(),
        minimum_quality_bps: f.u16(),
        max_p95_latency_ms: f.u32(),
        required_capabilities: f.u64(),
        allowed_provider_mask: f.u64(),
        required_region_mask: f.u64(),
    }
}

pub fn request_bytes(q: &KernelInput) -> Vec<u8> {
    [
        &q.request_sequence.to_le_bytes()[..],
        &q.requested_model_id.to_le_bytes(),
        &q.input_tokens.to_le_bytes(),
        &q.output_tokens.to_le_bytes(),
        &q.business_value_microunits.to_le_bytes(),
        &q.budget_limit_microunits.to_le_bytes(),
        &q.risk_bps.to_le_bytes(),
        &q.confidence_bps.to_le_bytes(),
        &q.minimum_quality_bps.to_le_bytes(),
        &q.max_p95_latency_ms.to_le_bytes(),
        &q.required_capabilities.to_le_bytes(),
        &q.allowed_provider_mask.to_le_bytes(),
        &q.required_region_mask.to_le_bytes(),
    ]
    .concat()
}

pub fn model_of(bytes: &[u8]) -> KernelModel {
    assert_eq!(bytes.len(), RECORD_BYTES);
    let mut f = Fields(bytes);
    KernelModel {
        model_id: f.u32(),
        provider_id: f.u16(),
        quality_bps: f.u16(),
        risk_ceiling_bps: f.u16(),
        enabled: f.u8(),
        p95_latency_ms: f.u32(),
        capabilities: f.u64(),
        region_mask: f.u64(),
        input_cost_microunits_per_million_tokens: f.u64(),
        output_cost_microunits_per_million_tokens: f.u64(),
    }
}

fn put_model(out: &mut Vec<u8>, m: &KernelModel) {
    out.extend(m.model_id.to_le_bytes());
    out.extend(m.provider_id.to_le_bytes());
    out.extend(m.quality_bps.to_le_bytes());
    out.extend(m.risk_ceiling_bps.to_le_bytes());
    out.extend(m.enabled.to_le_bytes());
    out.extend(m.p95_latency_ms.to_le_bytes());
    out.extend(m.capabilities.to_le_bytes());
    out.extend(m.region_mask.to_le_bytes());
    out.extend(m.input_cost_microunits_per_million_tokens.to_le_bytes());
    out.extend(m.output_cost_microunits_per_million_tokens.to_le_bytes());
}

pub fn models_of(bank: &[u8]) -> Vec<KernelModel> {
    assert_eq!(bank.len() % RECORD_BYTES, 0);
    bank.chunks_exact(RECORD_BYTES).map(model_of).collect()
}

/// Where the record at a place begins.
pub fn record_offset(place: u64) -> u64 {
    place * RECORD_BYTES as u64
}

pub fn bank_bytes(models: &[KernelModel]) -> Vec<u8> {
    let mut out = Vec::with_capacity(models.len() * RECORD_BYTES);
    models.iter().for_each(|m| put_model(&mut out, m));
    out
}

pub fn decision_bytes(d: &Decision) -> Vec<u8> {
    [
        &d.sequence.to_le_bytes()[..],
        &[d.action],
        &d.reason.to_le_bytes(),
        &d.model_id.to_le_bytes(),
        &d.place.to_le_bytes(),
        &d.cost.to_le_bytes(),
        &d.utility.to_le_bytes(),
        &d.other_id.to_le_bytes(),
        &d.other_utility.to_le_bytes(),
        &d.evaluated.to_le_bytes(),
        &d.eligible.to_le_bytes(),
        &d.policy_epoch.to_le_bytes(),
        &d.catalog_epoch.to_le_bytes(),
    ]
    .concat()
}

pub fn traced_bytes(d: &Decision, counts: &Counts) -> Vec<u8> {
    let counts = counts.iter().flat_map(|count| count.to_le_bytes());
    decision_bytes(d).into_iter().chain(counts).collect()
}

#[cfg(test)]
mod tests {
    use super::*;

    /// Each byte is its own offset, so a field shows where it was read.
    fn offsets(n: u8) -> Vec<u8> {
        (0..n).collect()
    }

    #[test]
    fn a_record_has_its_fields_at_the_documents_offsets() {
        let m = model_of(&offsets(47));
        let first = [
            m.model_id.to_le_bytes()[0],
            m.provider_id.to_le_bytes()[0],
            m.quality_bps.to_le_bytes()[0],
            m.risk_ceiling_bps.to_le_bytes()[0],
            m.enabled,
            m.p95_latency_ms.to_le_bytes()[0],
            m.capabilities.to_le_bytes()[0],
            m.region_mask.to_le_bytes()[0],
            m.input_cost_microunits_per_million_tokens.to_le_bytes()[0],
            m.output_cost_microunits_per_million_tokens.to_le_bytes()[0],
        ];
        assert_eq!(first, [0, 4, 6, 8, 10, 11, 15, 23, 31, 39]);
    }

    #[test]
    fn a_policy_of_30_bytes_rounds_apart_and_of_31_as_it_says() {
        let rounding = |bytes: &[u8]| policy_of(bytes).rounding;
        assert_eq!(rounding(&offsets(30)), Rounding::Apart);
        let said = [0, 1].map(|number| rounding(&[offsets(30), vec![number]].concat()));
        assert_eq!(said, [Rounding::Apart, Rounding::Once]);
        assert_eq!([2, 255].map(rounding_of), [None, None]);
    }

    #[test]
    fn of_35_bytes_the_last_four_are_the_allowance() {
        let read = |after: &[u8]| policy_of(&[&offsets(30), after].concat());
        let told = |after: &[u8]| (read(after).rounding, read(after).latency_allowance_ms);
        assert_eq!([&[][..], &[0], &[0, 0, 0, 0, 0]].map(told), [(Rounding::Apart, 0); 3]);
        assert_eq!([&[1][..], &[1, 0, 0, 0, 0]].map(told), [(Rounding::Once, 0); 2]);
        assert_eq!(told(&[0, 1, 2, 3, 4]), (Rounding::Apart, 0x0403_0201));
        assert_eq!(told(&[1, 255, 255, 255, 255]), (Rounding::Once, u32::MAX));
    }

    #[test]
    fn what_was_read_is_written_as_the_same_bytes() {
        assert_eq!(policy_bytes(&policy_of(&offsets(30))), offsets(30));
        let and = |after: &[u8]| [&offsets(30), after].concat();
        let long = |after: &[u8]| long_policy_bytes(&policy_of(&and(after)));
        assert_eq!([long(&[0]), long(&[1])], [and(&[0, 0, 0, 0, 0]), and(&[1, 0, 0, 0, 0])]);
        assert_eq!([long(&[0, 9, 8, 7, 6]), long(&[1, 0, 0, 0, 1])], [and(&[0, 9, 8, 7, 6]), and(&[1, 0, 0, 0, 1])]);
        let short = |after: &[u8]| policy_bytes(&policy_of(&and(after)));
        assert_eq!([short(&[0]), short(&[1])], [offsets(30), and(&[1])]);
        assert_eq!([short(&[0; 5]), short(&[1, 0, 0, 0, 0])], [offsets(30), and(&[1])]);
        assert_eq!([short(&[0, 0, 1, 0, 0]), short(&[1, 1, 0, 0, 0])], [and(&[0, 0, 1, 0, 0]), and(&[1, 1, 0, 0, 0])]);
        assert_eq!(request_bytes(&request_of(&offsets(70))), offsets(70));
        assert_eq!(bank_bytes(&models_of(&offsets(94))), offsets(94));
    }
}
