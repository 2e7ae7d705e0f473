//! The Rust doesn't count its passes, but each one after the opening decision copies the catalogue once. Here those copies are counted
//! as they are allocated, and held against the passes that the second reading counts.
use compare::calls::{MARGIN, WIN};
use compare::case::Case;
use compare::generate::{Asked, Draw, Policies, DRAWS, SPACES};
use compare::second::bytes::{models_of, policy_of, request_of, RECORD_BYTES};
use compare::second::deciding::Question;
use compare::second::refusals::{bank, policy_and_request};
use compare::second::rules::Rules;
use compare::second::search;
use oracle::counterfactual;
use oracle::kernel::KernelModel;
use std::alloc::{GlobalAlloc, Layout, System};
use std::cell::Cell;
use std::mem::size_of;

struct Counting;

thread_local! {
    /// The size that is counted, and how often it was asked for.
    static COUNTED: Cell<(usize, u64)> = const { Cell::new((usize::MAX, 0)) };
}

unsafe impl GlobalAlloc for Counting {
    unsafe fn alloc(&self, layout: Layout) -> *mut u8 {
        COUNTED.with(|counted| {
            let (size, times) = counted.get();
            counted.set((size, times + u64::from(layout.size() == size)));
        });
        System.alloc(layout)
    }

    unsafe fn dealloc(&self, at: *mut u8, layout: Layout) {
        System.dealloc(at, layout)
    }
}

#[global_allocator]
static COUNTING: Counting = Counting;

/// How many lists of just so many models were made meanwhile. Nothing else that a search makes has such a size: a shared catalogue
/// has two counts before its models, and a list of levers has room for four or none.
fn copies_of<T>(models: usize, act: impl FnOnce() -> T) -> (T, u64) {
    COUNTED.set((models * size_of::<KernelModel>(), 0));
    let done = act();
    let (_, times) = COUNTED.replace((usize::MAX, 0));
    (done, times)
}

/// The searches of a case, where it is sound and small enough: how many there were.
fn check(case: &Case) -> u64 {
    let sound = policy_and_request(&case.policy, &case.request).is_ok() && bank(&case.bank).is_ok();
    if !sound || case.bank.is_empty() || case.bank.len() > 900 * RECORD_BYTES {
        return 0;
    }
    let (policy, request, models) = (policy_of(&case.policy), request_of(&case.request), models_of(&case.bank));
    let snapshot = policy.with(models.clone());
    let question = Question::over(policy.by(Rules::RUST), request, models);
    let records = question.records.len();
    let (won, copies) = copies_of(records, || counterfactual::what_would_win(&snapshot, request, case.id));
    let counted = search::what_would_win(&question, case.id);
    assert_eq!(won.map(|_| copies + 1), counted.map(|counted| counted.passes), "{case}");
    let (margin, copies) = copies_of(records, || counterfactual::decision_margin(&snapshot, request));
    let counted = search::decision_margin(&question);
    assert_eq!(margin.map(|_| copies + 1), counted.map(|counted| counted.passes), "{case}");
    2
}

fn searches(asked: &Asked) -> bool {
    matches!(asked, Asked::These(calls) if calls.contains(&WIN) && calls.contains(&MARGIN))
}

#[test]
fn the_passes_are_the_rusts_own() {
    let mut asked = 0;
    for space in SPACES.iter().filter(|space| searches(&space.asked)) {
        (space.each)(&mut |case| asked += check(&case));
    }
    for draws in DRAWS.iter().filter(|draws| searches(&draws.asked)) {
        for policies in Policies::EACH {
            asked += (0..20_000).map(|number| check(&(draws.case)(Draw::of(policies, 11, number)))).sum::<u64>();
        }
    }
    assert!(asked > 40_000, "{asked} searches");
}
