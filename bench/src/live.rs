//! The rows of live banks: the calls on live records beside their siblings on every record of the same bank, where a free slot is a model that is
//! off, and the edits. The Rust, where it has such a call, is asked over the live models alone.
use crate::library::{self, live};
use crate::mixes::Mix;
use crate::rows::{lent_copy, runner_up, Answered, Asked, Checked, Row, OUT, SIZES, UNIT};
use compare::calls::{
    Answer, ADD, CALLS, COMPACT, LIVE_EXPLAIN, LIVE_FIND, LIVE_MARGIN, LIVE_PRESCRIBE, LIVE_UTILITY, LIVE_WIN, REMOVE,
    REPLACE,
};
use compare::case::Case;
use compare::generate::live::FREE;
use compare::second::bytes::{bank_bytes, policy_bytes, RECORD_BYTES};
use oracle::counterfactual;
use oracle::kernel::KernelModel;
use std::hint::black_box;

/// Which slots are free: one in so many, the first one among them.
const GAPS: [(&str, usize); 5] = [
    ("no slot free", usize::MAX),
    ("every 100th free", 100),
    ("every 10th free", 10),
    ("every 3rd free", 3),
    ("every 2nd free", 2),
];

fn is_free(slot: usize, one_in: usize) -> bool {
    one_in != usize::MAX && slot.is_multiple_of(one_in)
}

/// Visits every row that is wanted. `prescribe` has banks of every kind, the other calls some.
pub fn each(wanted: &dyn Fn(&str, usize) -> bool, checked: Checked, visit: &mut dyn FnMut(Row)) {
    for records in SIZES.into_iter().filter(|&records| wanted("live prescribe", records)) {
        GAPS.iter().for_each(|&gap| prescribe(asked("live prescribe", records, gap, checked), visit));
    }
    type Asking = fn(Asked, &mut dyn FnMut(Row));
    let asking: [(&str, Asking); 5] = [
        ("live margin", margin),
        ("live what would win", win),
        ("live explain", explain),
        ("live utility", utility),
        ("live find", find),
    ];
    for (call, row) in asking.into_iter().filter(|(call, _)| wanted(call, UNIT)) {
        [GAPS[0], GAPS[2], GAPS[4]].into_iter().for_each(|gap| row(asked(call, UNIT, gap, checked), visit));
    }
    let edits: [(&str, Asking); 3] =
        [("live add, remove", add_and_remove), ("live replace", replace), ("live compact", compact)];
    for (call, row) in edits.into_iter().filter(|(call, _)| wanted(call, UNIT)) {
        [GAPS[2], GAPS[4]].into_iter().for_each(|gap| row(asked(call, UNIT, gap, checked), visit));
    }
}

/// The mixed bank with such gaps.
fn asked(call: &'static str, records: usize, (name, one_in): (&'static str, usize), checked: Checked) -> Asked {
    let asked = Asked::of(call, Mix::Mixed, records, checked);
    let mut bank = asked.bank.clone();
    bank.chunks_exact_mut(RECORD_BYTES)
        .enumerate()
        .filter(|(slot, _)| is_free(*slot, one_in))
        .for_each(|(_, slot)| slot.copy_from_slice(&FREE));
    let models = asked.settings[0].models.iter().enumerate().filter(|(slot, _)| !is_free(*slot, one_in));
    let models: Vec<KernelModel> = models.map(|(_, model)| *model).collect();
    asked.over(name, bank, models)
}

fn prescribe(asked: Asked, visit: &mut dyn FnMut(Row)) {
    asked.check(LIVE_PRESCRIBE, 0, |q| Answered::written(83, |out| live::prescribe(q, out)));
    let (mut out, mut other) = ([0; 83], [0; 83]);
    let ours = Box::new(|| asked.all(|q| live::prescribe(q, &mut out)));
    let rust = Box::new(|| asked.rust(|p, q| p.prescribe_with_trace(q)));
    let plain = Box::new(|| asked.all(|q| library::prescribe(q, &mut other)));
    visit(asked.row([Some(ours), Some(rust), Some(plain)]));
}

fn margin(asked: Asked, visit: &mut dyn FnMut(Row)) {
    asked.check(LIVE_MARGIN, 0, |q| Answered::written(OUT, |out| live::decision_margin(q, out)));
    let (mut out, mut other) = ([0; OUT], [0; OUT]);
    let ours = Box::new(|| asked.all(|q| live::decision_margin(q, &mut out)));
    let rust = Box::new(|| asked.rust(counterfactual::decision_margin));
    let plain = Box::new(|| asked.all(|q| library::decision_margin(q, &mut other)));
    visit(asked.row([Some(ours), Some(rust), Some(plain)]));
}

fn win(asked: Asked, visit: &mut dyn FnMut(Row)) {
    let id = runner_up(&asked);
    asked.check(LIVE_WIN, id, |q| Answered::written(OUT, |out| live::what_would_win(q, id, out)));
    let (mut out, mut other) = ([0; OUT], [0; OUT]);
    let ours = Box::new(|| asked.all(|q| live::what_would_win(q, id, &mut out)));
    let rust = Box::new(|| asked.rust(|p, q| counterfactual::what_would_win(p, q, id)));
    let plain = Box::new(|| asked.all(|q| library::what_would_win(q, id, &mut other)));
    visit(asked.row([Some(ours), Some(rust), Some(plain)]));
}

fn explain(asked: Asked, visit: &mut dyn FnMut(Row)) {
    let live_bytes = 72 * asked.snapshot.models().len();
    let buffers = |bytes: usize| (vec![0; bytes], vec![0; 65]);
    asked.check(LIVE_EXPLAIN, 0, |q| {
        let (mut list, mut out) = buffers(live_bytes);
        Answered { word: live::explain(q, &mut list, &mut out), out, list }
    });
    let ((mut list, mut out), (mut all, mut other)) = (buffers(live_bytes), buffers(72 * asked.records()));
    let ours = Box::new(|| asked.all(|q| live::explain(q, &mut list, &mut out)));
    let rust = Box::new(|| asked.rust(|p, q| p.explain(q)));
    let plain = Box::new(|| asked.all(|q| library::explain(q, &mut all, &mut other)));
    visit(asked.row([Some(ours), Some(rust), Some(plain)]));
}

fn utility(asked: Asked, visit: &mut dyn FnMut(Row)) {
    let id = runner_up(&asked);
    asked.check(LIVE_UTILITY, id, |q| Answered::written(8, |out| live::utility_for_model(q, id, out)));
    let (mut out, mut other) = ([0; 8], [0; 8]);
    let ours = Box::new(|| asked.all(|q| live::utility_for_model(q, id, &mut out)));
    let rust = Box::new(|| asked.rust(|p, q| p.utility_for_model(q, id)));
    let plain = Box::new(|| asked.all(|q| library::utility_for_model(q, id, &mut other)));
    visit(asked.row([Some(ours), Some(rust), Some(plain)]));
}

/// The last live record. The Rust has no such call.
fn find(asked: Asked, visit: &mut dyn FnMut(Row)) {
    let id = asked.snapshot.models().last().expect("some slot is live").model_id;
    asked.check(LIVE_FIND, id, |q| Answered::written(2, |out| live::find(q.bank, id, out)));
    let (mut out, mut other) = ([0; 2], [0; 2]);
    let ours = Box::new(|| asked.all(|q| live::find(q.bank, id, &mut out)));
    let plain = Box::new(|| asked.all(|q| library::find(q.bank, id, &mut other)));
    visit(asked.row([Some(ours), None, Some(plain)]));
}

// ---- edits, of which the Rust has none

/// The policy and the bank that are edited, and the two bytes of the answer.
struct Edited {
    policy: Vec<u8>,
    bank: Vec<u8>,
    out: [u8; 2],
}

impl Edited {
    fn of(asked: &Asked) -> Self {
        Edited { policy: policy_bytes(&asked.settings[0].policy), bank: asked.bank.clone(), out: [0; 2] }
    }

    /// Ends the program where an edit doesn't leave what is owed.
    fn check(&mut self, call: usize, record: &[u8], id: u32, edit: impl FnOnce(&mut Self) -> u64) {
        let (policy, bank, record) = (self.policy.clone(), self.bank.clone(), record.to_vec());
        let case = Case { policy, bank, record, ..compare::generate::example::example().case(id) };
        let owed: Answer = CALLS[call].owed_on(&case);
        assert_eq!(owed.refusal, None, "{}: a row's edits are done", CALLS[call].name);
        let word = edit(self);
        let left = (word, &self.out[..], &self.policy, &self.bank);
        assert!(left == (0, &owed.out, &owed.policy, &owed.bank), "{} isn't done as owed", CALLS[call].name);
    }
}

/// One row's edits are as many as its requests: none is made from a request.
fn times(asked: &Asked, mut edit: impl FnMut()) {
    asked.all(|_| {
        edit();
        0
    });
}

/// A model of an id that isn't there is added and removed again, so that the bank is as it was.
fn add_and_remove(asked: Asked, visit: &mut dyn FnMut(Row)) {
    let model = KernelModel { model_id: u32::MAX, ..asked.settings[0].models[0] };
    let (record, id) = (bank_bytes(&[model]), model.model_id);
    let mut e = Edited::of(&asked);
    e.check(ADD, &record, id, |e| live::add(&mut e.policy, &mut e.bank, &record, &mut e.out));
    e.check(REMOVE, &record, id, |e| live::remove(&mut e.policy, &mut e.bank, id, &mut e.out));
    assert!(e.bank == asked.bank, "what was added is removed");
    let ours = Box::new(|| {
        times(&asked, || {
            black_box(live::add(&mut e.policy, &mut e.bank, &record, &mut e.out));
            black_box(live::remove(&mut e.policy, &mut e.bank, id, &mut e.out));
        })
    });
    visit(asked.row([Some(ours), None, None]));
}

/// The last live record, by the bytes that are there.
fn replace(asked: Asked, visit: &mut dyn FnMut(Row)) {
    let model = *asked.snapshot.models().last().expect("some slot is live");
    let record = bank_bytes(&[model]);
    let mut e = Edited::of(&asked);
    e.check(REPLACE, &record, model.model_id, |e| live::replace(&mut e.policy, &mut e.bank, &record, &mut e.out));
    let ours = Box::new(|| {
        times(&asked, || {
            black_box(live::replace(&mut e.policy, &mut e.bank, &record, &mut e.out));
        })
    });
    visit(asked.row([Some(ours), None, None]));
}

/// It begins with a copy of the bank as it came, since it changes it.
fn compact(asked: Asked, visit: &mut dyn FnMut(Row)) {
    let mut e = Edited::of(&asked);
    e.check(COMPACT, &[], 1, |e| live::compact(&mut e.policy, &mut e.bank, &mut e.out));
    let mut room = vec![0; asked.bank.len() + 63];
    let lent = lent_copy(&asked.bank, &mut room);
    let ours = Box::new(|| {
        times(&asked, || {
            lent.copy_from_slice(&asked.bank);
            black_box(live::compact(&mut e.policy, lent, &mut e.out));
        })
    });
    visit(asked.row([Some(ours), None, None]));
}
