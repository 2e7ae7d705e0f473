//! Document 01's eight gates.
use oracle::kernel::{KernelInput, KernelModel};

const LAST_PROVIDER: u16 = 63;

/// A gate by its number, what it measured, and the limit that it measured against.
#[derive(Clone, Copy, Debug, PartialEq, Eq)]
pub struct Failed {
    pub gate: u8,
    pub measured: u64,
    pub limit: u64,
}

/// The first gate that a record fails.
pub fn first_failed(m: &KernelModel, q: &KernelInput) -> Option<Failed> {
    let slow = q.max_p95_latency_ms > 0 && m.p95_latency_ms > q.max_p95_latency_ms;
    let elsewhere = q.required_region_mask != 0 && q.required_region_mask & m.region_mask == 0;
    let gates: [(bool, u64, u64); 8] = [
        (m.enabled == 0, 0, 1),
        (m.quality_bps < q.minimum_quality_bps, m.quality_bps.into(), q.minimum_quality_bps.into()),
        (slow, m.p95_latency_ms.into(), q.max_p95_latency_ms.into()),
        (q.required_capabilities & !m.capabilities != 0, m.capabilities, q.required_capabilities),
        (m.provider_id > LAST_PROVIDER, m.provider_id.into(), LAST_PROVIDER.into()),
        (barred(m.provider_id, q.allowed_provider_mask), m.provider_id.into(), q.allowed_provider_mask),
        (elsewhere, m.region_mask, q.required_region_mask),
        // What is measured is the request's, and the limit the record's.
        (q.risk_bps > m.risk_ceiling_bps, q.risk_bps.into(), m.risk_ceiling_bps.into()),
    ];
    let (gate, (_, measured, limit)) = (1..).zip(gates).find(|(_, (fails, ..))| *fails)?;
    Some(Failed { gate, measured, limit })
}

/// A provider without a bit has failed the gate before.
fn barred(provider: u16, allowed: u64) -> bool {
    let bit = 1_u64.checked_shl(provider.into()).unwrap_or(0);
    allowed != u64::MAX && allowed & bit == 0
}

#[cfg(test)]
mod tests {
    use super::*;
    use crate::generate::example::{example, with_models, with_request};
    use crate::generate::Setting;

    fn gate_of_the_first(setting: &Setting) -> u8 {
        first_failed(&setting.models[0], &setting.request).map_or(0, |failed| failed.gate)
    }

    #[test]
    fn the_example_passes_and_each_gate_is_failed_by_a_step() {
        assert_eq!(gate_of_the_first(&example()), 0);
        assert_eq!(gate_of_the_first(&with_models(|models| models[0].enabled = 0)), 1);
        assert_eq!(gate_of_the_first(&with_request(|q| q.minimum_quality_bps = 9_001)), 2);
        assert_eq!(gate_of_the_first(&with_request(|q| q.max_p95_latency_ms = 99)), 3);
        assert_eq!(gate_of_the_first(&with_request(|q| q.required_capabilities = 5)), 4);
        assert_eq!(gate_of_the_first(&with_models(|models| models[0].provider_id = 64)), 5);
        assert_eq!(gate_of_the_first(&with_request(|q| q.allowed_provider_mask = !1)), 6);
        assert_eq!(gate_of_the_first(&with_request(|q| q.required_region_mask = 2)), 7);
        assert_eq!(gate_of_the_first(&with_request(|q| q.risk_bps = 8_001)), 8);
    }
}
