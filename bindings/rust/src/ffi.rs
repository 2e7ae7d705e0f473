//! The library's functions as they are: bytes in, a word back. 0 says that the call answered, anything else is a refusal, which
//! [`Refusal::read`](crate::Refusal::read) reads. What each one takes, writes and refuses stands in `include/volankizo.h`.
//!
//! Everything unsafe of this crate is here, in [`batch`] and in [`live`], and one argument holds for all of it. For any bytes a function reads and writes
//! within the lengths that it is handed, and ends; that is proved of it. It keeps no address and has no state. What is left to its caller is that
//! each address and length belong together, and that what is written overlaps nothing else that is lent. A Rust slice is such an
//! address and length, also where it is empty (its address is then not null), and what is lent by `&mut` is lent once.
pub mod batch;
pub mod live;

extern "C" {
    fn volankizo_prescribe(
        policy: *const u8,
        policy_len: usize,
        request: *const u8,
        request_len: usize,
        bank: *const u8,
        bank_len: usize,
        out: *mut u8,
        out_len: usize,
    ) -> u64;
    fn volankizo_prescribe_checked(
        policy: *const u8,
        policy_len: usize,
        request: *const u8,
        request_len: usize,
        bank: *const u8,
        bank_len: usize,
        out: *mut u8,
        out_len: usize,
    ) -> u64;
    fn volankizo_utility_for_model(
        policy: *const u8,
        policy_len: usize,
        request: *const u8,
        request_len: usize,
        bank: *const u8,
        bank_len: usize,
        id: u32,
        out: *mut u8,
        out_len: usize,
    ) -> u64;
    fn volankizo_find(bank: *const u8, bank_len: usize, id: u32, out: *mut u8, out_len: usize) -> u64;
    fn volankizo_record_at(bank: *const u8, bank_len: usize, place: u64, out: *mut u8, out_len: usize) -> u64;
    fn volankizo_check_request(request: *const u8, request_len: usize) -> u64;
    fn volankizo_explain(
        policy: *const u8,
        policy_len: usize,
        request: *const u8,
        request_len: usize,
        bank: *const u8,
        bank_len: usize,
        list: *mut u8,
        list_len: usize,
        out: *mut u8,
        out_len: usize,
    ) -> u64;
    fn volankizo_next_eligible(list: *const u8, list_len: usize, from: u64, out: *mut u8, out_len: usize) -> u64;
    fn volankizo_validate(policy: *const u8, policy_len: usize, bank: *const u8, bank_len: usize) -> u64;
    fn volankizo_trust(policy: *const u8, policy_len: usize, bank: *mut u8, bank_len: usize) -> u64;
    fn volankizo_what_would_win(
        policy: *const u8,
        policy_len: usize,
        request: *const u8,
        request_len: usize,
        bank: *const u8,
        bank_len: usize,
        id: u32,
        out: *mut u8,
        out_len: usize,
    ) -> u64;
    fn volankizo_decision_margin(
        policy: *const u8,
        policy_len: usize,
        request: *const u8,
        request_len: usize,
        bank: *const u8,
        bank_len: usize,
        out: *mut u8,
        out_len: usize,
    ) -> u64;
    fn volankizo_write_stored(
        policy: *const u8,
        policy_len: usize,
        bank: *const u8,
        bank_len: usize,
        out: *mut u8,
        out_len: usize,
    ) -> u64;
    fn volankizo_read_stored(
        form: *const u8,
        form_len: usize,
        bank: *mut u8,
        bank_len: usize,
        out: *mut u8,
        out_len: usize,
    ) -> u64;
    fn volankizo_write_request(request: *const u8, request_len: usize, out: *mut u8, out_len: usize) -> u64;
    fn volankizo_read_request(form: *const u8, form_len: usize, out: *mut u8, out_len: usize) -> u64;
    fn volankizo_unit_text(input: *const u8, input_len: usize, out: *mut u8, out_len: usize) -> u64;
    fn volankizo_ask_text(input: *const u8, input_len: usize, id: u32, out: *mut u8, out_len: usize) -> u64;
    fn volankizo_ask_words(input: *const u8, input_len: usize, id: u32, out: *mut u8, out_len: usize) -> u64;
}

/// Decides: 83 bytes of `out`.
pub fn prescribe(policy: &[u8], request: &[u8], bank: &[u8], out: &mut [u8]) -> u64 {
    // SAFETY: every address is lent with its own length, and `out` alone is written, lent to this call only.
    unsafe {
        volankizo_prescribe(
            policy.as_ptr(),
            policy.len(),
            request.as_ptr(),
            request.len(),
            bank.as_ptr(),
            bank.len(),
            out.as_mut_ptr(),
            out.len(),
        )
    }
}

/// Decides after the request check: the same 83 bytes.
pub fn prescribe_checked(policy: &[u8], request: &[u8], bank: &[u8], out: &mut [u8]) -> u64 {
    // SAFETY: every address is lent with its own length, and `out` alone is written, lent to this call only.
    unsafe {
        volankizo_prescribe_checked(
            policy.as_ptr(),
            policy.len(),
            request.as_ptr(),
            request.len(),
            bank.as_ptr(),
            bank.len(),
            out.as_mut_ptr(),
            out.len(),
        )
    }
}

/// The utility of the first listed record with an id: 8 bytes of `out`.
pub fn utility_for_model(policy: &[u8], request: &[u8], bank: &[u8], id: u32, out: &mut [u8]) -> u64 {
    // SAFETY: every address is lent with its own length, and `out` alone is written, lent to this call only.
    unsafe {
        volankizo_utility_for_model(
            policy.as_ptr(),
            policy.len(),
            request.as_ptr(),
            request.len(),
            bank.as_ptr(),
            bank.len(),
            id,
            out.as_mut_ptr(),
            out.len(),
        )
    }
}

/// The place of the first listed record with an id, or 65,535: 2 bytes of `out`.
pub fn find(bank: &[u8], id: u32, out: &mut [u8]) -> u64 {
    // SAFETY: every address is lent with its own length, and `out` alone is written, lent to this call only.
    unsafe { volankizo_find(bank.as_ptr(), bank.len(), id, out.as_mut_ptr(), out.len()) }
}

/// Where the record at a place begins in the bank: 8 bytes of `out`.
pub fn record_at(bank: &[u8], place: u64, out: &mut [u8]) -> u64 {
    // SAFETY: every address is lent with its own length, and `out` alone is written, lent to this call only.
    unsafe { volankizo_record_at(bank.as_ptr(), bank.len(), place, out.as_mut_ptr(), out.len()) }
}

/// Whether a request would pass the checked call.
pub fn check_request(request: &[u8]) -> u64 {
    // SAFETY: every address is lent with its own length, and nothing is written.
    unsafe { volankizo_check_request(request.as_ptr(), request.len()) }
}

/// Decides, 65 bytes of `out`, and tells what became of every record, 72 bytes of `list` each.
pub fn explain(policy: &[u8], request: &[u8], bank: &[u8], list: &mut [u8], out: &mut [u8]) -> u64 {
    // SAFETY: every address is lent with its own length, and `list` and `out` alone are written, lent to this call only.
    unsafe {
        volankizo_explain(
            policy.as_ptr(),
            policy.len(),
            request.as_ptr(),
            request.len(),
            bank.as_ptr(),
            bank.len(),
            list.as_mut_ptr(),
            list.len(),
            out.as_mut_ptr(),
            out.len(),
        )
    }
}

/// The place of the next eligible entry of a list, or 2^64 - 1: 8 bytes of `out`.
pub fn next_eligible(list: &[u8], from: u64, out: &mut [u8]) -> u64 {
    // SAFETY: every address is lent with its own length, and `out` alone is written, lent to this call only.
    unsafe { volankizo_next_eligible(list.as_ptr(), list.len(), from, out.as_mut_ptr(), out.len()) }
}

/// Whether a policy with its bank may serve.
pub fn validate(policy: &[u8], bank: &[u8]) -> u64 {
    // SAFETY: every address is lent with its own length, and nothing is written.
    unsafe { volankizo_validate(policy.as_ptr(), policy.len(), bank.as_ptr(), bank.len()) }
}

/// Puts the bank in ascending id order and validates it.
pub fn trust(policy: &[u8], bank: &mut [u8]) -> u64 {
    // SAFETY: every address is lent with its own length, and `bank` alone is written, lent to this call only.
    unsafe { volankizo_trust(policy.as_ptr(), policy.len(), bank.as_mut_ptr(), bank.len()) }
}

/// By each lever alone, the smallest change after which a model is selected: 183 bytes of `out`.
pub fn what_would_win(policy: &[u8], request: &[u8], bank: &[u8], id: u32, out: &mut [u8]) -> u64 {
    // SAFETY: every address is lent with its own length, and `out` alone is written, lent to this call only.
    unsafe {
        volankizo_what_would_win(
            policy.as_ptr(),
            policy.len(),
            request.as_ptr(),
            request.len(),
            bank.as_ptr(),
            bank.len(),
            id,
            out.as_mut_ptr(),
            out.len(),
        )
    }
}

/// How far each lever of the selected model can move: the same 183 bytes of `out`.
pub fn decision_margin(policy: &[u8], request: &[u8], bank: &[u8], out: &mut [u8]) -> u64 {
    // SAFETY: every address is lent with its own length, and `out` alone is written, lent to this call only.
    unsafe {
        volankizo_decision_margin(
            policy.as_ptr(),
            policy.len(),
            request.as_ptr(),
            request.len(),
            bank.as_ptr(),
            bank.len(),
            out.as_mut_ptr(),
            out.len(),
        )
    }
}

/// Writes the stored form: 36 bytes of `out` more than the bank has, 4 more where the policy rounds once, 7 more where it has an allowance.
pub fn write_stored(policy: &[u8], bank: &[u8], out: &mut [u8]) -> u64 {
    // SAFETY: every address is lent with its own length, and `out` alone is written, lent to this call only.
    unsafe {
        volankizo_write_stored(policy.as_ptr(), policy.len(), bank.as_ptr(), bank.len(), out.as_mut_ptr(), out.len())
    }
}

/// Reads a stored form: the models to the start of `bank`, 43 bytes of `out`.
pub fn read_stored(form: &[u8], bank: &mut [u8], out: &mut [u8]) -> u64 {
    // SAFETY: every address is lent with its own length, and `bank` and `out` alone are written, lent to this call only.
    unsafe {
        volankizo_read_stored(form.as_ptr(), form.len(), bank.as_mut_ptr(), bank.len(), out.as_mut_ptr(), out.len())
    }
}

/// Writes the request form: 73 bytes of `out`.
pub fn write_request(request: &[u8], out: &mut [u8]) -> u64 {
    // SAFETY: every address is lent with its own length, and `out` alone is written, lent to this call only.
    unsafe { volankizo_write_request(request.as_ptr(), request.len(), out.as_mut_ptr(), out.len()) }
}

/// Reads a request form: 70 bytes of `out`.
pub fn read_request(form: &[u8], out: &mut [u8]) -> u64 {
    // SAFETY: every address is lent with its own length, and `out` alone is written, lent to this call only.
    unsafe { volankizo_read_request(form.as_ptr(), form.len(), out.as_mut_ptr(), out.len()) }
}

/// What `unit` prints for an input: its length in 8 bytes of `out`, then the text.
pub fn unit_text(input: &[u8], out: &mut [u8]) -> u64 {
    // SAFETY: every address is lent with its own length, and `out` alone is written, lent to this call only.
    unsafe { volankizo_unit_text(input.as_ptr(), input.len(), out.as_mut_ptr(), out.len()) }
}

/// What `ask ID` prints: as `unit_text`.
pub fn ask_text(input: &[u8], id: u32, out: &mut [u8]) -> u64 {
    // SAFETY: every address is lent with its own length, and `out` alone is written, lent to this call only.
    unsafe { volankizo_ask_text(input.as_ptr(), input.len(), id, out.as_mut_ptr(), out.len()) }
}

/// What `ask ID words` prints: as `unit_text`.
pub fn ask_words(input: &[u8], id: u32, out: &mut [u8]) -> u64 {
    // SAFETY: every address is lent with its own length, and `out` alone is written, lent to this call only.
    unsafe { volankizo_ask_words(input.as_ptr(), input.len(), id, out.as_mut_ptr(), out.len()) }
}
