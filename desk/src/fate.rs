//! What became of a model, or of all models of a provider, in each request of a log.
//!
//! Decisions, verdicts and price boundaries are the library's; here they are only counted. A larger fall wins wherever a smaller one does
//! (the kernel is proved so), which is why falls may be sorted and the last of so many wins them all.
use crate::asked::{lever, Key};
use crate::fault::Trouble;
use crate::open::Desk;
use crate::refusal::in_words;
use volankizo::{Bank, CandidateVerdict, GateKind, KernelDecision, KernelInput, Lever, PPM};

/// Whose log it is: the places of one model, or of all of a provider's.
#[derive(Debug)]
pub struct Subject {
    pub places: Vec<usize>,
    bank: Bank,
}

/// What became of a subject in one request.
#[derive(Clone, Copy, Debug, PartialEq, Eq)]
pub enum Fate {
    /// The request was stopped before any model was looked at: nobody won, and nobody lost by price.
    Stopped,
    /// One of its models was chosen, by its place.
    Won(usize),
    Lost(Loss),
}

#[derive(Clone, Copy, Debug, PartialEq, Eq)]
pub struct Loss {
    /// The place of the chosen model; none where nothing was chosen.
    pub to: Option<usize>,
    /// Of a provider, why its model lost that came furthest.
    pub why: Why,
    /// The smallest fall of the subject's prices that would have won; none where no price does.
    pub fall: Option<Fall>,
}

/// A fall of both prices in millionths of today's, and the place of the model that wins by it.
#[derive(Clone, Copy, Debug, PartialEq, Eq, PartialOrd, Ord)]
pub struct Fall {
    pub ppm: u64,
    pub place: usize,
}

/// Why a model lost, in the order in which the kernel looks: who comes further is greater.
#[derive(Clone, Copy, Debug, PartialEq, Eq, PartialOrd, Ord)]
pub enum Why {
    Off,
    Quality,
    Latency,
    Capabilities,
    Provider,
    Regions,
    RiskCeiling,
    Budget,
    Utility,
    Outranked(Key),
}

impl Why {
    pub fn words(self) -> &'static str {
        match self {
            Why::Off => "switched off",
            Why::Quality => "quality below the one required",
            Why::Latency => "latency above the limit",
            Why::Capabilities => "capabilities lack some of those required",
            Why::Provider => "provider not allowed",
            Why::Regions => "regions have none of those required",
            Why::RiskCeiling => "risk of the request above its ceiling",
            Why::Budget => "over budget",
            Why::Utility => "utility not above 0",
            Why::Outranked(Key::Utility) => "outranked by utility",
            Why::Outranked(Key::Cost) => "outranked by cost, at the same utility",
            Why::Outranked(Key::Quality) => "outranked by quality, at the same utility and cost",
            Why::Outranked(Key::Id) => "outranked by id, at the same utility, cost and quality",
        }
    }

    pub fn of(desk: &Desk, place: usize, verdict: &CandidateVerdict, decision: &KernelDecision) -> Self {
        match verdict {
            CandidateVerdict::Rejected { gate, .. } => Why::of_gate(*gate),
            CandidateVerdict::OverBudget { .. } => Why::Budget,
            CandidateVerdict::NonPositiveUtility(_) => Why::Utility,
            CandidateVerdict::Eligible(terms) => Why::Outranked(desk.key_behind(place, terms, decision)),
        }
    }

    fn of_gate(gate: GateKind) -> Self {
        match gate {
            GateKind::Disabled => Why::Off,
            GateKind::Quality => Why::Quality,
            GateKind::Latency => Why::Latency,
            GateKind::Capability => Why::Capabilities,
            GateKind::ProviderUnrepresentable | GateKind::ProviderNotAllowed => Why::Provider,
            GateKind::Region => Why::Regions,
            GateKind::RiskCeiling => Why::RiskCeiling,
        }
    }
}

impl Subject {
    pub fn new(desk: &Desk, places: Vec<usize>) -> Self {
        let bank = places.iter().map(|place| desk.models.models[*place].model).collect();
        Subject { places, bank }
    }

    /// What became of it in a request with this decision.
    pub fn fate(&self, desk: &Desk, input: KernelInput, decision: &KernelDecision) -> Result<Fate, Trouble> {
        if decision.reason.stops_request() {
            return Ok(Fate::Stopped);
        }
        match desk.chosen(decision) {
            Some(place) if self.places.contains(&place) => Ok(Fate::Won(place)),
            to => self.loss(desk, input, decision, to).map(Fate::Lost),
        }
    }

    /// What becomes of a model doesn't hang on the others, so the library is asked about the subject's alone.
    fn loss(
        &self,
        desk: &Desk,
        input: KernelInput,
        decision: &KernelDecision,
        to: Option<usize>,
    ) -> Result<Loss, Trouble> {
        let told = desk.policy.policy.explain(&self.bank, input).map_err(|refusal| in_words(refusal, &desk.models))?;
        let (mut why, mut fall) = (Why::Off, None);
        for (place, entry) in self.places.iter().zip(&told.candidates) {
            why = why.max(Why::of(desk, *place, &entry.verdict, decision));
            // A gate is failed at every price.
            if !matches!(entry.verdict, CandidateVerdict::Rejected { .. }) {
                fall = nearer(fall, fall_to_win(desk, input, decision, *place)?);
            }
        }
        Ok(Loss { to, why, fall })
    }
}

fn nearer(one: Option<Fall>, other: Option<Fall>) -> Option<Fall> {
    one.into_iter().chain(other).min()
}

/// The smallest fall of a model's prices by which it alone would win.
fn fall_to_win(
    desk: &Desk,
    input: KernelInput,
    decision: &KernelDecision,
    place: usize,
) -> Result<Option<Fall>, Trouble> {
    let levers = desk.levers_to_win(input, decision, place)?;
    Ok(lever(&levers, Lever::PriceScalePpm).map(|price| Fall { ppm: PPM - price.boundary, place }))
}

/// The falls that would have won lost requests, the smallest first, and how many were lost.
#[derive(Clone, Debug, PartialEq, Eq)]
pub struct Falls {
    pub lost: usize,
    sorted: Vec<u64>,
}

/// A cut of prices for a share of the lost requests.
#[derive(Clone, Copy, Debug, PartialEq, Eq)]
pub struct Cut {
    /// How many requests the share is, rounded up.
    pub needed: usize,
    /// In millionths of today's; where no cut wins so many, none.
    pub ppm: Option<u64>,
}

impl Falls {
    pub fn of<'a>(losses: impl Iterator<Item = &'a Loss>) -> Self {
        let (mut lost, mut sorted) = (0, Vec::new());
        for loss in losses {
            lost += 1;
            sorted.extend(loss.fall.map(|fall| fall.ppm));
        }
        sorted.sort_unstable();
        Falls { lost, sorted }
    }

    /// The smallest cut that wins at least so many tenths of the lost requests.
    pub fn cut(&self, tenths: usize) -> Cut {
        let needed = (self.lost * tenths).div_ceil(10);
        let ppm = needed.checked_sub(1).and_then(|last| self.sorted.get(last)).copied();
        Cut { needed, ppm }
    }

    /// How many requests a cut wins.
    pub fn won_by(&self, ppm: u64) -> usize {
        self.sorted.partition_point(|fall| *fall <= ppm)
    }

    /// How many can be won at any price.
    pub fn most(&self) -> usize {
        self.sorted.len()
    }

    /// The smallest cut that wins all that can be won.
    pub fn last(&self) -> Option<u64> {
        self.sorted.last().copied()
    }
}
