//! The rows: a call on a bank, answered by the library and by the Rust. Before a row is timed, the library's answer to each of its
//! questions is held against the one that the comparison says is owed. Rows of live banks are in `live`.
use crate::clock::Side;
use crate::library::{self, Question};
use crate::live;
use crate::mixes::Mix;
use compare::calls::{Answer, CALLS, EXPLAIN, MARGIN, PRESCRIBE, TRUST, VALIDATE, WIN};
use compare::case::Case;
use compare::generate::random::Random;
use compare::generate::Setting;
use compare::second::bytes::{bank_bytes, policy_bytes};
use compare::second::rules::Rounding;
use oracle::counterfactual;
use oracle::kernel::{KernelModel, PolicySnapshot};
use std::hint::black_box;

/// A row's name, how many models one run of a side goes over in all, and its sides: ours, the Rust's, and where there is another counterpart that
/// one: the Rust's plain call, or of a call on live records our own on every record. What has no counterpart has fewer.
pub struct Row<'a> {
    pub call: &'static str,
    pub records: usize,
    pub mix: &'a str,
    pub models: f64,
    pub sides: [Option<Side<'a>>; SIDES],
}

pub const SIDES: usize = 3;

pub const OUT: usize = 183;

/// Whether the answers to a row's questions are held against those owed before it is visited. They need not be where the row is only
/// counted, under valgrind, which makes all of it some fifty times slower.
#[derive(Clone, Copy, PartialEq)]
pub enum Checked {
    Yes,
    No,
}

/// Visits every row whose call and number of models, as in "prescribe 900", begin so.
pub fn each(only: &str, checked: Checked, visit: &mut dyn FnMut(Row)) {
    let wanted = |call: &str, records: usize| format!("{call} {records}").starts_with(only);
    let some = [Mix::Mixed, Mix::MostlyEligible, Mix::Spread, Mix::Beyond];
    let priced = [Mix::Mixed, Mix::MostlyEligible, Mix::Dear, Mix::Beyond];
    type Asking = fn(Asked, &mut dyn FnMut(Row));
    let asking: [(&str, Asking, &[usize], &[Mix]); 6] = [
        ("prescribe", prescribe, &SIZES, &Mix::ALL),
        (ONCE, prescribe, &SIZES[..2], &priced),
        (FREE, prescribe, &SIZES[..2], &priced[..2]),
        ("margin", margin, &SIZES, &some),
        ("what would win", win, &SIZES, &some),
        ("explain", explain, &[UNIT], &some),
    ];
    for (call, row, sizes, mixes) in asking {
        for &records in sizes.iter().filter(|&&records| wanted(call, records)) {
            mixes.iter().for_each(|&mix| row(Asked::of(call, mix, records, checked), visit));
        }
    }
    live::each(&wanted, checked, visit);
    for (call, row) in [("validate", validate as fn(&str, &mut dyn FnMut(Row))), ("trust", trust)] {
        for order in ["in order", "shuffled", "reversed"] {
            if wanted(call, UNIT) {
                row(order, visit);
            }
        }
    }
}

/// `prescribe` under a policy that rounds once, beside the same models and requests under one that rounds apart. The Rust's sides round apart.
const ONCE: &str = "prescribe once";
/// The same under a policy with an allowance, which some of the models' latencies are above. The Rust's sides charge every millisecond.
const FREE: &str = "prescribe free";
const FREE_MS: u32 = 200;

/// A short list, the unit's, and the longest.
pub const SIZES: [usize; 3] = [22, UNIT, 65_535];
pub const UNIT: usize = 900;

/// The more models and passes, the fewer requests: a margin over the longest list takes the Rust up to half a second.
fn requests(call: &str, records: usize) -> usize {
    match (call.strip_prefix("live ").unwrap_or(call), records) {
        ("explain", _) => 4,
        (_, 22) | ("prescribe" | "utility" | ONCE | FREE, UNIT) => 16,
        ("prescribe", _) | (_, UNIT) => 2,
        _ => 1,
    }
}

/// The questions of a row in the form of each side. The Rust has the models that are listed; the settings have one for each slot.
pub struct Asked {
    call: &'static str,
    mix: &'static str,
    checked: Checked,
    pub settings: Vec<Setting>,
    pub snapshot: PolicySnapshot,
    cases: Vec<Case>,
    pub bank: Vec<u8>,
}

impl Asked {
    pub fn of(call: &'static str, mix: Mix, records: usize, checked: Checked) -> Self {
        let mut settings = mix.settings(records, requests(call, records));
        for policy in settings.iter_mut().map(|setting| &mut setting.policy) {
            match call {
                ONCE => policy.rounding = Rounding::Once,
                FREE => policy.latency_allowance_ms = FREE_MS,
                _ => {}
            }
        }
        let cases = settings.iter().map(|setting| Case { bank: Vec::new(), ..setting.case(0) }).collect();
        let (snapshot, bank) = (settings[0].snapshot(), bank_bytes(&settings[0].models));
        Asked { call, mix: mix.name(), checked, settings, snapshot, cases, bank }
    }

    /// The same over this bank, of which the Rust has these models.
    pub fn over(self, mix: &'static str, bank: Vec<u8>, models: Vec<KernelModel>) -> Self {
        let snapshot = self.settings[0].policy.with(models);
        Asked { mix, bank, snapshot, ..self }
    }

    pub fn records(&self) -> usize {
        self.settings[0].models.len()
    }

    pub fn row<'a>(&self, sides: [Option<Side<'a>>; SIDES]) -> Row<'a> {
        let (records, mix) = (self.records(), self.mix);
        Row { call: self.call, records, mix, models: (records * self.cases.len()) as f64, sides }
    }

    fn question(&self, at: usize) -> Question<'_> {
        Question { policy: &self.cases[at].policy, request: &self.cases[at].request, bank: &self.bank }
    }

    /// The library answers all questions.
    pub fn all(&self, mut answer: impl FnMut(Question) -> u64) {
        for at in 0..self.cases.len() {
            black_box(answer(black_box(self.question(at))));
        }
    }

    /// The Rust answers them.
    pub fn rust<T>(&self, answer: impl Fn(&PolicySnapshot, oracle::kernel::KernelInput) -> T) {
        for setting in &self.settings {
            black_box(answer(&self.snapshot, black_box(setting.request)));
        }
    }

    /// Ends the program where the library's answer isn't the one owed.
    pub fn check(&self, call: usize, id: u32, ours: impl Fn(Question) -> Answered) {
        if self.checked == Checked::No {
            return;
        }
        for (at, setting) in self.settings.iter().enumerate() {
            let case = Case { bank: self.bank.clone(), ..setting.case(id) };
            let owed = CALLS[call].owed(&CALLS[call].ask(&case));
            assert_eq!(owed.refusal, None, "{}: a row's questions are answered", CALLS[call].name);
            assert!(
                ours(self.question(at)) == Answered::of(&owed),
                "{} isn't answered as owed on:\n{case}",
                CALLS[call].name
            );
        }
    }
}

/// What a call hands back and writes.
#[derive(PartialEq)]
pub struct Answered {
    pub word: u64,
    pub out: Vec<u8>,
    pub list: Vec<u8>,
}

impl Answered {
    fn of(owed: &Answer) -> Self {
        Answered { word: owed.word(), out: owed.out.clone(), list: owed.list.clone() }
    }

    pub fn written(need: usize, call: impl FnOnce(&mut [u8]) -> u64) -> Self {
        let mut out = vec![0; need];
        Answered { word: call(&mut out), out, list: Vec::new() }
    }
}

fn prescribe(asked: Asked, visit: &mut dyn FnMut(Row)) {
    asked.check(PRESCRIBE, 0, |q| Answered::written(83, |out| library::prescribe(q, out)));
    let mut out = [0; 83];
    let ours = Box::new(|| asked.all(|q| library::prescribe(q, &mut out)));
    let traced = Box::new(|| asked.rust(|p, q| p.prescribe_with_trace(q)));
    let plain = Box::new(|| asked.rust(|p, q| p.prescribe(q)));
    visit(asked.row([Some(ours), Some(traced), Some(plain)]));
}

fn margin(asked: Asked, visit: &mut dyn FnMut(Row)) {
    asked.check(MARGIN, 0, |q| Answered::written(OUT, |out| library::decision_margin(q, out)));
    let mut out = [0; OUT];
    let ours = Box::new(|| asked.all(|q| library::decision_margin(q, &mut out)));
    let rust = Box::new(|| asked.rust(counterfactual::decision_margin));
    visit(asked.row([Some(ours), Some(rust), None]));
}

fn win(asked: Asked, visit: &mut dyn FnMut(Row)) {
    let id = runner_up(&asked);
    asked.check(WIN, id, |q| Answered::written(OUT, |out| library::what_would_win(q, id, out)));
    let mut out = [0; OUT];
    let ours = Box::new(|| asked.all(|q| library::what_would_win(q, id, &mut out)));
    let rust = Box::new(|| asked.rust(|p, q| counterfactual::what_would_win(p, q, id)));
    visit(asked.row([Some(ours), Some(rust), None]));
}

/// An eligible model in the middle of the bank, which wins by none of the requests.
pub fn runner_up(asked: &Asked) -> u32 {
    let explanation = asked.snapshot.explain(asked.settings[0].request);
    let chosen: Vec<u32> =
        asked.settings.iter().map(|s| asked.snapshot.prescribe(s.request).selected_model_id).collect();
    let eligible: Vec<u32> = explanation.eligible().map(|c| c.model_id).filter(|id| !chosen.contains(id)).collect();
    eligible[eligible.len() / 2]
}

fn explain(asked: Asked, visit: &mut dyn FnMut(Row)) {
    let buffers = || (vec![0; 72 * asked.records()], vec![0; 65]);
    asked.check(EXPLAIN, 0, |q| {
        let (mut list, mut out) = buffers();
        Answered { word: library::explain(q, &mut list, &mut out), out, list }
    });
    let (mut list, mut out) = buffers();
    let ours = Box::new(|| asked.all(|q| library::explain(q, &mut list, &mut out)));
    let rust = Box::new(|| asked.rust(|p, q| p.explain(q)));
    visit(asked.row([Some(ours), Some(rust), None]));
}

/// A bank that may serve, in ascending order of its ids, in descending order, or in any.
fn listed(order: &str) -> Setting {
    let mut setting = Mix::MostlyEligible.settings(UNIT, 1).remove(0);
    setting.models.iter_mut().for_each(|m| m.provider_id %= 64);
    let models: Vec<KernelModel> = setting.models.clone();
    match order {
        "reversed" => setting.models.reverse(),
        "shuffled" => setting.models = Random::new(1).order(UNIT).into_iter().map(|at| models[at]).collect(),
        _ => {}
    }
    setting
}

fn validate(order: &str, visit: &mut dyn FnMut(Row)) {
    let setting = listed(order);
    let (policy, bank, snapshot) = (policy_bytes(&setting.policy), bank_bytes(&setting.models), setting.snapshot());
    assert_eq!(library::validate(&policy, &bank), CALLS[VALIDATE].owed(&CALLS[VALIDATE].ask(&setting.case(0))).word());
    let ours = Box::new(|| {
        black_box(library::validate(black_box(&policy), &bank));
    });
    let rust = Box::new(|| drop(black_box(black_box(&snapshot).validate())));
    visit(Row {
        call: "validate",
        records: UNIT,
        mix: order,
        models: UNIT as f64,
        sides: [Some(ours), Some(rust), None],
    });
}

/// Both sides begin with a copy of the bank as it came, since both change it.
fn trust(order: &str, visit: &mut dyn FnMut(Row)) {
    let setting = listed(order);
    let (policy, bank) = (policy_bytes(&setting.policy), bank_bytes(&setting.models));
    let mut room = vec![0; bank.len() + 63];
    let lent = lent_copy(&bank, &mut room);
    let owed = CALLS[TRUST].owed(&CALLS[TRUST].ask(&setting.case(0)));
    assert!(library::trust(&policy, lent) == owed.word() && lent == owed.bank, "trust isn't answered as owed");
    let ours = Box::new(|| {
        lent.copy_from_slice(&bank);
        black_box(library::trust(&policy, lent));
    });
    let rust = Box::new(|| drop(black_box(trusted(black_box(&setting)))));
    visit(Row { call: "trust", records: UNIT, mix: order, models: UNIT as f64, sides: [Some(ours), Some(rust), None] });
}

/// A copy of a bank in a room that has 63 bytes more: at a multiple of 64, since a copy takes more or fewer instructions by where it begins.
pub fn lent_copy<'a>(bank: &[u8], room: &'a mut [u8]) -> &'a mut [u8] {
    let start = room.as_ptr().align_offset(64);
    let lent = &mut room[start..][..bank.len()];
    lent.copy_from_slice(bank);
    lent
}

fn trusted(setting: &Setting) -> Result<PolicySnapshot, oracle::kernel::TrustPolicyError> {
    let p = &setting.policy;
    PolicySnapshot::try_new_trusted(
        p.policy_epoch,
        p.catalog_epoch,
        p.hard_risk_limit_bps,
        p.minimum_confidence_bps,
        p.risk_penalty_multiplier_bps,
        p.latency_penalty_microunits_per_ms,
        setting.models.clone(),
    )
}
