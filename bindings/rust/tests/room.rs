//! What a call allocates for an input that is too long to be answered: no more than for the longest that is. And for free slots nothing.
use std::alloc::{GlobalAlloc, Layout, System};
use std::cell::Cell;
use std::mem::size_of;
use volankizo::layout::{stored_form_bytes, EXPLANATION_BYTES, POLICY_BYTES, RECORD_BYTES, REQUEST_BYTES};
use volankizo::{
    live, models, read_stored, write_stored, CandidateExplanation, KernelInput, KernelModel, PolicySnapshot, Refusal,
    MAX_CATALOG_MODELS, MAX_STORED_MODELS,
};

/// The system's allocator; for each thread it notes the largest piece that was asked for.
struct Noting;

thread_local! {
    static LARGEST: Cell<usize> = const { Cell::new(0) };
}

fn note(bytes: usize) {
    let _ = LARGEST.try_with(|largest| largest.set(largest.get().max(bytes)));
}

// SAFETY: every request is handed on to the system's allocator as it came; noting it allocates nothing.
unsafe impl GlobalAlloc for Noting {
    unsafe fn alloc(&self, layout: Layout) -> *mut u8 {
        note(layout.size());
        unsafe { System.alloc(layout) }
    }

    unsafe fn alloc_zeroed(&self, layout: Layout) -> *mut u8 {
        note(layout.size());
        unsafe { System.alloc_zeroed(layout) }
    }

    unsafe fn dealloc(&self, memory: *mut u8, layout: Layout) {
        unsafe { System.dealloc(memory, layout) }
    }
}

#[global_allocator]
static ALLOCATOR: Noting = Noting;

/// What a call answers, and the largest piece that it asked for.
fn noted<T>(call: impl FnOnce() -> T) -> (T, usize) {
    LARGEST.set(0);
    let answer = call();
    (answer, LARGEST.get())
}

#[test]
fn a_bank_or_form_that_is_too_long() {
    let policy = PolicySnapshot::from_bytes(&[0; POLICY_BYTES]).unwrap();
    let request = KernelInput::from_bytes(&[0; REQUEST_BYTES]);
    for records in [MAX_CATALOG_MODELS + 1, 10 * MAX_CATALOG_MODELS] {
        let bank = vec![0; records * RECORD_BYTES];
        let (answer, largest) = noted(|| policy.explain(&bank, request));
        assert_eq!(answer, Err(Refusal::CatalogTooLarge));
        assert!(largest <= MAX_CATALOG_MODELS * EXPLANATION_BYTES, "explain: {largest}");
        let taken = vec![1; records * RECORD_BYTES];
        let (answer, largest) = noted(|| live::explain(&policy, &taken, request));
        assert_eq!(answer, Err(Refusal::CatalogTooLarge));
        assert!(largest <= MAX_CATALOG_MODELS * EXPLANATION_BYTES, "live::explain: {largest}");
        let (answer, largest) = noted(|| models(&bank));
        assert_eq!(answer, Err(Refusal::CatalogTooLarge));
        assert!(largest <= MAX_CATALOG_MODELS * size_of::<KernelModel>(), "models: {largest}");
        let (answer, largest) = noted(|| write_stored(&policy, &bank));
        assert_eq!(answer, Err(Refusal::CatalogTooLarge));
        assert!(largest <= stored_form_bytes(MAX_STORED_MODELS * RECORD_BYTES), "write_stored: {largest}");
        let (answer, largest) = noted(|| read_stored(&bank));
        assert_eq!(answer, Err(Refusal::WrongTag));
        assert!(largest <= MAX_STORED_MODELS * RECORD_BYTES, "read_stored: {largest}");
    }
}

/// Free slots take no room: the list has an entry for each live model.
#[test]
fn a_bank_with_free_slots() {
    let sound = PolicySnapshot { hard_risk_limit_bps: 1, ..PolicySnapshot::from_bytes(&[0; POLICY_BYTES]).unwrap() };
    let request = KernelInput::from_bytes(&[0; REQUEST_BYTES]);
    let mut bank = vec![0; MAX_CATALOG_MODELS * RECORD_BYTES];
    for live in 0..3 {
        let (answer, largest) = noted(|| live::explain(&sound, &bank, request));
        assert_eq!(answer.unwrap().candidates.len(), live);
        assert!(largest <= live * size_of::<CandidateExplanation>().max(EXPLANATION_BYTES), "{live} live: {largest}");
        bank[live * 1_000 * RECORD_BYTES] = 1;
    }
}
