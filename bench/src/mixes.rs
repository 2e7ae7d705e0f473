//! The banks and requests of the rows. Each model is made to end in one known way; a mix says how often each way occurs.
use compare::generate::random::Random;
use compare::generate::Setting;
use compare::second::bytes::Policy;
use compare::second::rules::Rounding;
use oracle::kernel::{KernelInput, KernelModel};

/// How a model ends: at gate 1 to 8, over budget (9), with no positive utility (10), or eligible (11).
type Ending = u8;
const ELIGIBLE: Ending = 11;

#[derive(Clone, Copy)]
pub enum Mix {
    /// Half eligible, the others spread over all endings.
    Mixed,
    /// All but one in 25.
    MostlyEligible,
    /// Nine of ten are off or of too low a quality.
    Early,
    /// Every ending as often as every other.
    Spread,
    /// Every model is off.
    Off,
    /// As `Mixed`, with prices from 2^32 to 2^36: no product passes 64 bits.
    Dear,
    /// As `Mixed`, with a value whose product with the confidence is between 2^48 and 2^50: no product passes 64 bits.
    Valued,
    /// As `Mixed`, with a value and prices whose products pass 64 bits.
    Beyond,
}

impl Mix {
    pub const ALL: [Mix; 8] =
        [Mix::Mixed, Mix::MostlyEligible, Mix::Early, Mix::Spread, Mix::Off, Mix::Dear, Mix::Valued, Mix::Beyond];

    pub fn name(self) -> &'static str {
        match self {
            Mix::Mixed => "mixed",
            Mix::MostlyEligible => "mostly eligible",
            Mix::Early => "early gates",
            Mix::Spread => "all gates",
            Mix::Off => "all off",
            Mix::Dear => "high prices",
            Mix::Valued => "high values",
            Mix::Beyond => "beyond 64 bits",
        }
    }

    fn ending(self, r: &mut Random) -> Ending {
        let any = r.between(1, 11) as Ending;
        match self {
            Mix::Mixed | Mix::Dear | Mix::Valued | Mix::Beyond => r.pick(&[ELIGIBLE, any]),
            Mix::MostlyEligible if r.one_in(25) => any,
            Mix::MostlyEligible => ELIGIBLE,
            Mix::Early if r.one_in(10) => any,
            Mix::Early => r.pick(&[1, 2]),
            Mix::Spread => any,
            Mix::Off => 1,
        }
    }

    /// Prices and what they are paid from are multiplied by this.
    fn scale(self) -> u64 {
        match self {
            Mix::Dear => 1 << 13,
            Mix::Beyond => 1 << 43,
            _ => 1,
        }
    }

    /// The value is multiplied by this.
    fn value_scale(self) -> u64 {
        match self {
            Mix::Valued => 1 << 19,
            _ => self.scale(),
        }
    }

    /// A setting with so many models for each of so many requests; the models are the same in each.
    pub fn settings(self, records: usize, requests: usize) -> Vec<Setting> {
        let mut r = Random::new(0xbe_ac4);
        let models: Vec<KernelModel> = (0..records).map(|at| self.model(&mut r, 1 + at as u32)).collect();
        let setting =
            |r: &mut Random| Setting { policy: self.policy(), request: self.request(r), models: models.clone() };
        (0..requests).map(|_| setting(&mut r)).collect()
    }

    fn policy(self) -> Policy {
        Policy {
            policy_epoch: 7,
            catalog_epoch: 3,
            hard_risk_limit_bps: 9_000,
            minimum_confidence_bps: 2_000,
            risk_penalty_multiplier_bps: 10_000,
            latency_penalty_microunits_per_ms: 50 * self.scale(),
            rounding: Rounding::Apart,
            latency_allowance_ms: 0,
        }
    }

    fn request(self, r: &mut Random) -> KernelInput {
        KernelInput {
            request_sequence: r.wide(40),
            requested_model_id: r.between(1, 22) as u32,
            input_tokens: r.between(900, 1_100) as u32,
            output_tokens: r.between(900, 1_100) as u32,
            business_value_microunits: (r.between(95_000, 105_000) * self.value_scale()) as i64,
            budget_limit_microunits: 50_000 * self.scale(),
            risk_bps: r.between(1_000, 1_500) as u16,
            confidence_bps: r.between(8_500, 10_000) as u16,
            minimum_quality_bps: 5_000,
            max_p95_latency_ms: 900,
            required_capabilities: 3,
            allowed_provider_mask: 0x7f,
            required_region_mask: 6,
        }
    }

    fn model(self, r: &mut Random, id: u32) -> KernelModel {
        let ending = self.ending(r);
        let scale = self.scale();
        let mut m = KernelModel {
            model_id: id,
            provider_id: r.below(7) as u16,
            quality_bps: r.between(6_000, 9_900) as u16,
            risk_ceiling_bps: r.between(2_000, 8_000) as u16,
            enabled: 1,
            p95_latency_ms: r.between(20, 300) as u32,
            capabilities: r.pick(&[3, 7, 11]),
            region_mask: r.pick(&[2, 4, 6, 7]),
            input_cost_microunits_per_million_tokens: r.between(600_000, 8_000_000) * scale,
            output_cost_microunits_per_million_tokens: r.between(600_000, 8_000_000) * scale,
        };
        match ending {
            1 => m.enabled = 0,
            2 => m.quality_bps = r.between(1_000, 4_900) as u16,
            3 => m.p95_latency_ms = r.between(901, 2_000) as u32,
            4 => m.capabilities = r.pick(&[1, 2, 4]),
            5 => m.provider_id = r.between(64, 100) as u16,
            6 => m.provider_id = r.between(7, 63) as u16,
            7 => m.region_mask = r.pick(&[1, 8, 9]),
            8 => m.risk_ceiling_bps = r.below(1_000) as u16,
            9 => m.output_cost_microunits_per_million_tokens = r.between(60_000_000, 90_000_000) * scale,
            10 => {
                m.p95_latency_ms = 900;
                m.quality_bps = 5_100;
                m.output_cost_microunits_per_million_tokens = 35_000_000 * scale;
            }
            _ => {}
        }
        m
    }
}
