//! What a run of cases reaches, in figures: a generator that misses a rule shows here.
use crate::calls::{
    Answer, Call, ADD, ASK, CALLS, COMPACT, EXPLAIN, LIVE_EXPLAIN, LIVE_MARGIN, LIVE_PRESCRIBE, LIVE_WIN, MARGIN, NEXT,
    PRESCRIBE, REMOVE, REPLACE, TRUST, UNIT, WIN, WORDS,
};
use crate::case::Case;
use crate::second::boundaries::passes_and_levers;
use crate::second::bytes::{
    models_of, policy_of, request_of, Policy, LONG_POLICY_BYTES, RECORD_BYTES, ROUNDED_POLICY_BYTES,
};
use crate::second::deciding::{decide, explain, Explained, Question, Verdict};
use crate::second::explanation::{EXPLANATION_BYTES, NO_MORE};
use crate::second::gates::Failed;
use crate::second::price::Terms;
use crate::second::printed::LENGTH_BYTES;
use crate::second::rules::Rounding;
use crate::second::slots::Slots;
use oracle::kernel::KernelModel;
use std::cmp::Reverse;
use std::collections::{BTreeMap, BTreeSet};
use std::fmt;

/// Larger banks are passed over where each record is looked at; they repeat what smaller ones show.
const LOOKED_AT: usize = 900 * RECORD_BYTES;

#[derive(Default)]
pub struct Figures {
    /// How often each call was asked, in the order of `CALLS`.
    pub asked: [u64; CALLS.len()],
    /// For each call and number, how often it was refused so.
    pub refused: BTreeMap<(usize, u8), u64>,
    /// How often a decision had this property.
    pub seen: BTreeMap<String, u64>,
    /// For each call after the decisions, how often its answer had this property.
    pub found: BTreeMap<(usize, String), u64>,
    /// The most passes of one search, for each call that searches.
    pub passes: BTreeMap<usize, u64>,
    decided: u64,
}

impl Figures {
    /// Notes what one call owes on one case.
    pub fn note(&mut self, call: usize, case: &Case, owed: &Answer) {
        self.asked[call] += 1;
        if let Some(refusal) = owed.refusal {
            *self.refused.entry((call, refusal.number)).or_default() += 1;
        }
        match (call, owed.refusal) {
            (TRUST, refusal) if !owed.bank.is_empty() && owed.bank != case.bank => {
                self.find(call, if refusal.is_none() { "bank reordered" } else { "bank reordered, though refused" });
            }
            (_, Some(_)) => {}
            (PRESCRIBE, None) => self.note_decision(case, &owed.out),
            (EXPLAIN | LIVE_EXPLAIN, None) => self.note_verdicts(call, &owed.list),
            (LIVE_PRESCRIBE, None) => self.note_live(case, &owed.out),
            (ADD | REPLACE | REMOVE | COMPACT, None) => self.note_edit(call, case, owed),
            (NEXT, None) if owed.out == NO_MORE.to_le_bytes() => self.find(call, "none"),
            (WIN | MARGIN | LIVE_WIN | LIVE_MARGIN, None) => self.note_search(call, &owed.out),
            (UNIT | ASK | WORDS, None) => self.note_text(call, &owed.out),
            _ => {}
        }
    }

    /// Each kind of line that is printed: its name with a lever's or a refusal's number, or a sentence without its numbers.
    fn note_text(&mut self, call: usize, answer: &[u8]) {
        let text = std::str::from_utf8(&answer[LENGTH_BYTES..]).expect("printed as text");
        let kinds: BTreeSet<String> = text.lines().map(kind_of_line).collect();
        kinds.iter().for_each(|kind| self.find(call, kind));
    }

    /// Each verdict with its gate that is in a list.
    fn note_verdicts(&mut self, call: usize, list: &[u8]) {
        let pairs: BTreeSet<(u8, u8)> = list.chunks_exact(EXPLANATION_BYTES).map(|it| (it[6], it[7])).collect();
        if pairs.is_empty() {
            self.find(call, "no record");
        }
        for (verdict, gate) in pairs {
            match gate {
                0 => self.find(call, &format!("some with verdict {verdict}")),
                _ => self.find(call, &format!("some with verdict {verdict}, gate {gate}")),
            }
        }
    }

    /// The levers of a search, and whether there was one: stopped, selected and switched off need none.
    fn note_search(&mut self, call: usize, answer: &[u8]) {
        let (passes, levers) = passes_and_levers(answer);
        let most = self.passes.entry(call).or_default();
        *most = passes.max(*most);
        match passes {
            1 => self.find(call, "1 pass, no search"),
            2 => self.find(call, "2 passes, switched off"),
            _ => self.find(call, SEARCHED),
        }
        self.find(call, &format!("with {} levers", levers.len()));
        for lever in levers {
            self.find(call, &format!("lever {}", LEVERS[usize::from(lever) - 1]));
        }
    }

    /// Where the free slots of a bank stand, and whether they would have been the reason.
    fn note_live(&mut self, case: &Case, decision: &[u8]) {
        let at = |offset: usize| u16::from_le_bytes([decision[offset], decision[offset + 1]]);
        let slots = Slots::of(&case.bank);
        self.find(
            LIVE_PRESCRIBE,
            match slots.live.len() {
                live if live == slots.many => "no slot free",
                0 => "every slot free",
                _ => "some slots free",
            },
        );
        let (reason, place) = (at(9), at(15));
        match decision[8] {
            3 if case.bank.len() <= LOOKED_AT && reason != reason_over_all(case) => {
                self.find(LIVE_PRESCRIBE, "another reason than over all slots");
            }
            1 | 2 if slots.lowest_free().is_some_and(|free| free < place) => {
                self.find(LIVE_PRESCRIBE, "chosen behind a free slot");
            }
            _ => {}
        }
    }

    /// What an edit met. Where nothing moves the epoch rises all the same.
    fn note_edit(&mut self, call: usize, case: &Case, owed: &Answer) {
        let slots = Slots::of(&case.bank);
        let told = u16::from_le_bytes([owed.out[0], owed.out[1]]);
        let last = slots.live.last().map(|(slot, _)| *slot);
        let listed = slots.live.iter().filter(|(_, model)| model.model_id == case.id).count();
        let what = match call {
            ADD if last.is_some_and(|last| told < last) => "between live records",
            ADD if slots.live.is_empty() => "to a bank with none",
            ADD => "after the last live record",
            REPLACE if owed.bank == case.bank => "by the bytes that are there",
            REPLACE => "by others",
            REMOVE if listed > 1 => "the first of several",
            REMOVE => "the only one",
            _ if owed.bank == case.bank => "nothing to move",
            _ => "gaps closed",
        };
        self.find(call, what);
        if case.policy.len() >= ROUNDED_POLICY_BYTES {
            self.find(call, &format!("policy of {} bytes", case.policy.len()));
        }
    }

    fn find(&mut self, call: usize, what: &str) {
        *self.found.entry((call, what.into())).or_default() += 1;
    }

    fn note_decision(&mut self, case: &Case, decision: &[u8]) {
        self.decided += 1;
        let at = |offset: usize| u16::from_le_bytes([decision[offset], decision[offset + 1]]);
        self.see(format!("action {}", decision[8]));
        self.see(format!("reason {:3}", at(9)));
        self.see(format!("eligible {}", ["0", "1", "2 and more"][usize::from(at(47).min(2))]));
        let counts: Vec<u16> = (0..9).map(|count| at(65 + 2 * count)).collect();
        for (name, _) in COUNTS.iter().zip(&counts).filter(|(_, count)| **count > 0) {
            self.see(format!("some rejected for {name}"));
        }
        if counts.iter().filter(|count| **count > 0).count() > 1 {
            self.see("rejections for several reasons".into());
        }
        if case.bank.len() <= LOOKED_AT {
            self.note_records(case);
        }
    }

    fn note_records(&mut self, case: &Case) {
        let (policy, request, models) = (policy_of(&case.policy), request_of(&case.request), models_of(&case.bank));
        let question = Question::over(policy, request, models);
        let explained = explain(&question);
        self.note_rounding(case, &question, &explained);
        self.note_allowance(case, &question, &explained);
        if let Some(key) = deciding_key(&question.models(), &explained) {
            self.see(format!("first before second by {key}"));
        }
        for (name, holds) in EXTREMES {
            if explained.iter().filter_map(|it| terms(&it.verdict)).any(|t| holds(&t)) {
                self.see(format!("some {name}"));
            }
        }
    }

    /// Whether it is rounded once, and whether rounding apart would tell another cost, or choose another model.
    fn note_rounding(&mut self, case: &Case, question: &Question, explained: &[Explained]) {
        if question.policy.rounding == Rounding::Apart {
            if case.policy.len() >= ROUNDED_POLICY_BYTES {
                self.see(ROUNDINGS[0].into());
            }
            return;
        }
        self.see(ROUNDINGS[1].into());
        let apart = Policy { rounding: Rounding::Apart, ..question.policy };
        self.note_departure(question, explained, apart, [ROUNDINGS[2], ROUNDINGS[3]]);
    }

    /// Whether some latency is free, where the allowance stands among the latencies, and whether without one some term, or the choice, would be
    /// another.
    fn note_allowance(&mut self, case: &Case, question: &Question, explained: &[Explained]) {
        let allowance = question.policy.latency_allowance_ms;
        if allowance == 0 {
            if case.policy.len() == LONG_POLICY_BYTES {
                self.see(ALLOWANCES[0].into());
            }
            return;
        }
        self.see(ALLOWANCES[1].into());
        let none = Policy { latency_allowance_ms: 0, ..question.policy };
        self.note_departure(question, explained, none, [ALLOWANCES[2], ALLOWANCES[3]]);
        if question.policy.rounding == Rounding::Once {
            self.see(ALLOWANCES[4].into());
        }
        for (name, holds) in LATENCIES {
            if question.records.iter().any(|(_, model)| holds(allowance, model.p95_latency_ms)) {
                self.see(name.into());
            }
        }
        let free_and_refused = |failed: &Failed| failed.gate == 3 && failed.measured <= u64::from(allowance);
        if explained.iter().any(|it| matches!(&it.verdict, Verdict::Rejected(failed) if free_and_refused(failed))) {
            self.see(ALLOWANCES[5].into());
        }
    }

    /// Whether by another policy something would be explained otherwise, or another model chosen.
    fn note_departure(&mut self, question: &Question, explained: &[Explained], policy: Policy, names: [&str; 2]) {
        let other = Question { policy, ..question.clone() };
        if explain(&other) != explained {
            self.see(names[0].into());
        }
        if decide(&other).0.model_id != decide(question).0.model_id {
            self.see(names[1].into());
        }
    }

    fn see(&mut self, what: String) {
        *self.seen.entry(what).or_default() += 1;
    }
}

/// The reason for which a case is rejected where every slot counts.
fn reason_over_all(case: &Case) -> u16 {
    let (policy, request, models) = (policy_of(&case.policy), request_of(&case.request), models_of(&case.bank));
    decide(&Question::over(policy, request, models)).0.reason
}

fn kind_of_line(line: &str) -> String {
    let words: Vec<&str> = line.split(' ').collect();
    match words[0] {
        "lever" | "refused" => format!("prints {} {}", words[0], words[1]),
        "decision" | "rejected" | "passes" => format!("prints {}", words[0]),
        _ => {
            let plain: String = line.chars().filter(|c| !c.is_ascii_digit()).take(60).collect();
            format!("says {plain}")
        }
    }
}

pub const SEARCHED: &str = "searched";

/// The levers by their numbers.
pub const LEVERS: [&str; 5] = ["1 quality", "2 latency", "3 price scale", "4 ceiling", "5 enabled"];

pub const COUNTS: [&str; 9] =
    ["disabled", "quality", "ceiling", "latency", "capability", "provider", "region", "budget", "utility"];

/// The keys of the ranking, in their order.
pub const KEYS: [&str; 5] = ["1 utility", "2 cost", "3 quality", "4 id", "5 place"];

/// How a policy rounds, where it says so, and what comes of it.
pub const ROUNDINGS: [&str; 4] = [
    "rounded apart, in so many words",
    "rounded once",
    "rounded once, and apart some cost differs",
    "rounded once, and apart the choice differs",
];

/// Whether a policy has an allowance, and what comes of it.
pub const ALLOWANCES: [&str; 6] = [
    "35 bytes without an allowance",
    "an allowance",
    "an allowance, and without some term differs",
    "an allowance, and without the choice differs",
    "an allowance, rounded once",
    "a latency that is free and above its limit",
];

pub type Beside = (&'static str, fn(u32, u32) -> bool);

/// Where an allowance stands beside some latency.
pub const LATENCIES: [Beside; 6] = [
    ("an allowance just reached", |allowance, latency| allowance == latency),
    ("an allowance 1 ms too short", |allowance, latency| latency > 0 && allowance == latency - 1),
    ("an allowance of 1 ms too many", |allowance, latency| latency < u32::MAX && allowance == latency + 1),
    ("an allowance of 2^32 - 1 ms", |allowance, _| allowance == u32::MAX),
    ("an allowance above some latency", |allowance, latency| allowance > latency),
    ("an allowance below some latency", |allowance, latency| allowance < latency),
];

pub type Extreme = (&'static str, fn(&Terms) -> bool);

/// Where 64 bits don't suffice, or a number is held at its limit.
pub const EXTREMES: [Extreme; 7] = [
    ("quality term of 2^64 or more", |t| t.quality >> 64 != 0),
    ("risk term of 2^64 or more", |t| t.risk >> 64 != 0),
    ("latency term of 2^64 or more", |t| t.latency >> 64 != 0),
    ("cost of 2^64 - 1", |t| t.cost == u64::MAX),
    ("utility of 2^63 - 1", |t| t.utility == i64::MAX),
    ("utility of 0", |t| t.utility == 0),
    ("utility of -2^63", |t| t.utility == i64::MIN),
];

fn terms(verdict: &Verdict) -> Option<Terms> {
    match verdict {
        Verdict::Eligible(terms) | Verdict::NonPositive(terms) => Some(*terms),
        _ => None,
    }
}

/// The key by which the best eligible record stands before the second: the first in which the two differ.
fn deciding_key(models: &[KernelModel], explained: &[Explained]) -> Option<&'static str> {
    let mut ranked: Vec<_> = explained
        .iter()
        .filter(|it| matches!(it.verdict, Verdict::Eligible(_)))
        .filter_map(|it| terms(&it.verdict).map(|t| (t, models[usize::from(it.place)])))
        .map(|(t, m)| (Reverse(t.utility), t.cost, Reverse(m.quality_bps), m.model_id))
        .collect();
    ranked.sort();
    let (first, second) = (ranked.first()?, ranked.get(1)?);
    let differ = [first.0 != second.0, first.1 != second.1, first.2 != second.2, first.3 != second.3, true];
    KEYS.into_iter().zip(differ).find_map(|(key, differs)| differs.then_some(key))
}

/// The figures of several runs side by side, a column for each.
pub struct Table<'a>(pub &'a [(&'a str, &'a Figures)]);

impl fmt::Display for Table<'_> {
    fn fmt(&self, f: &mut fmt::Formatter<'_>) -> fmt::Result {
        self.row(f, "", |(name, _)| name.to_string())?;
        for (call, Call { name, .. }) in CALLS.iter().enumerate() {
            self.row(f, &format!("{name}: cases"), |(_, figures)| figures.asked[call].to_string())?;
            for number in self.names(|figures| figures.refused.keys().filter(|k| k.0 == call).map(|k| k.1).collect()) {
                let part = |figures: &Figures| figures.refused.get(&(call, number)).copied();
                self.row(f, &format!("  refused {number}"), |(_, it)| share(part(it), it.asked[call]))?;
            }
            let found = |figures: &Figures| figures.found.keys().filter(|k| k.0 == call).map(|k| k.1.clone()).collect();
            for what in self.names(found) {
                let part = |figures: &Figures| figures.found.get(&(call, what.clone())).copied();
                self.row(f, &format!("  {what}"), |(_, it)| share(part(it), it.asked[call]))?;
            }
            if self.0.iter().any(|(_, figures)| figures.passes.contains_key(&call)) {
                let most = |figures: &Figures| figures.passes.get(&call).copied().unwrap_or(0);
                self.row(f, "  most passes", |(_, it)| most(it).to_string())?;
            }
        }
        self.row(f, "decisions looked at", |(_, figures)| figures.decided.to_string())?;
        for what in self.names(|figures| figures.seen.keys().cloned().collect()) {
            self.row(f, &format!("  {what}"), |(_, it)| share(it.seen.get(&what).copied(), it.decided))?;
        }
        Ok(())
    }
}

impl Table<'_> {
    fn row(&self, f: &mut fmt::Formatter<'_>, title: &str, cell: impl Fn(&(&str, &Figures)) -> String) -> fmt::Result {
        write!(f, "{title:42}")?;
        self.0.iter().try_for_each(|column| write!(f, "{:>20}", cell(column)))?;
        writeln!(f)
    }

    /// Every name that some column has, in order.
    fn names<T: Ord>(&self, of: impl Fn(&Figures) -> Vec<T>) -> BTreeSet<T> {
        self.0.iter().flat_map(|(_, figures)| of(figures)).collect()
    }
}

fn share(part: Option<u64>, whole: u64) -> String {
    let part = part.unwrap_or(0);
    format!("{part} ({:.1} %)", part as f64 * 100.0 / whole.max(1) as f64)
}
