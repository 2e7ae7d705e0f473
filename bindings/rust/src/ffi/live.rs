//! The functions `volankizo_live_..`, which edit a bank whose models are swapped, or run over its live records. What is unsafe of them is so for
//! the reasons given in [`ffi`](crate::ffi).

extern "C" {
    fn volankizo_live_prescribe(
        policy: *const u8,
        policy_len: usize,
        request: *const u8,
        request_len: usize,
        bank: *const u8,
        bank_len: usize,
        out: *mut u8,
        out_len: usize,
    ) -> u64;
    fn volankizo_live_prescribe_checked(
        policy: *const u8,
        policy_len: usize,
        request: *const u8,
        request_len: usize,
        bank: *const u8,
        bank_len: usize,
        out: *mut u8,
        out_len: usize,
    ) -> u64;
    fn volankizo_live_explain(
        policy: *const u8,
        policy_len: usize,
        request: *const u8,
        request_len: usize,
        bank: *const u8,
        bank_len: usize,
        list: *mut u8,
        list_len: usize,
        out: *mut u8,
        out_len: usize,
    ) -> u64;
    fn volankizo_live_find(bank: *const u8, bank_len: usize, id: u32, out: *mut u8, out_len: usize) -> u64;
    fn volankizo_live_utility_for_model(
        policy: *const u8,
        policy_len: usize,
        request: *const u8,
        request_len: usize,
        bank: *const u8,
        bank_len: usize,
        id: u32,
        out: *mut u8,
        out_len: usize,
    ) -> u64;
    fn volankizo_live_what_would_win(
        policy: *const u8,
        policy_len: usize,
        request: *const u8,
        request_len: usize,
        bank: *const u8,
        bank_len: usize,
        id: u32,
        out: *mut u8,
        out_len: usize,
    ) -> u64;
    fn volankizo_live_decision_margin(
        policy: *const u8,
        policy_len: usize,
        request: *const u8,
        request_len: usize,
        bank: *const u8,
        bank_len: usize,
        out: *mut u8,
        out_len: usize,
    ) -> u64;
    fn volankizo_live_add(
        policy: *mut u8,
        policy_len: usize,
        bank: *mut u8,
        bank_len: usize,
        record: *const u8,
        record_len: usize,
        out: *mut u8,
        out_len: usize,
    ) -> u64;
    fn volankizo_live_replace(
        policy: *mut u8,
        policy_len: usize,
        bank: *mut u8,
        bank_len: usize,
        record: *const u8,
        record_len: usize,
        out: *mut u8,
        out_len: usize,
    ) -> u64;
    fn volankizo_live_remove(
        policy: *mut u8,
        policy_len: usize,
        bank: *mut u8,
        bank_len: usize,
        id: u32,
        out: *mut u8,
        out_len: usize,
    ) -> u64;
    fn volankizo_live_compact(
        policy: *mut u8,
        policy_len: usize,
        bank: *mut u8,
        bank_len: usize,
        out: *mut u8,
        out_len: usize,
    ) -> u64;
}

/// Decides over the live records of a bank: 83 bytes of `out`.
pub fn prescribe(policy: &[u8], request: &[u8], bank: &[u8], out: &mut [u8]) -> u64 {
    // SAFETY: every address is lent with its own length, and `out` alone is written, lent to this call only.
    unsafe {
        volankizo_live_prescribe(
            policy.as_ptr(),
            policy.len(),
            request.as_ptr(),
            request.len(),
            bank.as_ptr(),
            bank.len(),
            out.as_mut_ptr(),
            out.len(),
        )
    }
}

/// The same after the request check.
pub fn prescribe_checked(policy: &[u8], request: &[u8], bank: &[u8], out: &mut [u8]) -> u64 {
    // SAFETY: every address is lent with its own length, and `out` alone is written, lent to this call only.
    unsafe {
        volankizo_live_prescribe_checked(
            policy.as_ptr(),
            policy.len(),
            request.as_ptr(),
            request.len(),
            bank.as_ptr(),
            bank.len(),
            out.as_mut_ptr(),
            out.len(),
        )
    }
}

/// Decides so, 65 bytes of `out`, and tells what became of every live record, 72 bytes of `list` each.
pub fn explain(policy: &[u8], request: &[u8], bank: &[u8], list: &mut [u8], out: &mut [u8]) -> u64 {
    // SAFETY: every address is lent with its own length, and `list` and `out` alone are written, lent to this call only.
    unsafe {
        volankizo_live_explain(
            policy.as_ptr(),
            policy.len(),
            request.as_ptr(),
            request.len(),
            bank.as_ptr(),
            bank.len(),
            list.as_mut_ptr(),
            list.len(),
            out.as_mut_ptr(),
            out.len(),
        )
    }
}

/// The slot of the first live record with an id, or 65,535: 2 bytes of `out`.
pub fn find(bank: &[u8], id: u32, out: &mut [u8]) -> u64 {
    // SAFETY: every address is lent with its own length, and `out` alone is written, lent to this call only.
    unsafe { volankizo_live_find(bank.as_ptr(), bank.len(), id, out.as_mut_ptr(), out.len()) }
}

/// The utility of the first live record with an id: 8 bytes of `out`.
pub fn utility_for_model(policy: &[u8], request: &[u8], bank: &[u8], id: u32, out: &mut [u8]) -> u64 {
    // SAFETY: every address is lent with its own length, and `out` alone is written, lent to this call only.
    unsafe {
        volankizo_live_utility_for_model(
            policy.as_ptr(),
            policy.len(),
            request.as_ptr(),
            request.len(),
            bank.as_ptr(),
            bank.len(),
            id,
            out.as_mut_ptr(),
            out.len(),
        )
    }
}

/// By each lever alone, the smallest change after which a live model is selected: 183 bytes of `out`.
pub fn what_would_win(policy: &[u8], request: &[u8], bank: &[u8], id: u32, out: &mut [u8]) -> u64 {
    // SAFETY: every address is lent with its own length, and `out` alone is written, lent to this call only.
    unsafe {
        volankizo_live_what_would_win(
            policy.as_ptr(),
            policy.len(),
            request.as_ptr(),
            request.len(),
            bank.as_ptr(),
            bank.len(),
            id,
            out.as_mut_ptr(),
            out.len(),
        )
    }
}

/// How far each lever of the selected live model can move: the same 183 bytes of `out`.
pub fn decision_margin(policy: &[u8], request: &[u8], bank: &[u8], out: &mut [u8]) -> u64 {
    // SAFETY: every address is lent with its own length, and `out` alone is written, lent to this call only.
    unsafe {
        volankizo_live_decision_margin(
            policy.as_ptr(),
            policy.len(),
            request.as_ptr(),
            request.len(),
            bank.as_ptr(),
            bank.len(),
            out.as_mut_ptr(),
            out.len(),
        )
    }
}

/// Adds a record in the lowest free slot, which it tells: 2 bytes of `out`. The policy's
/// catalogue epoch is raised, as by the three that follow.
pub fn add(policy: &mut [u8], bank: &mut [u8], record: &[u8], out: &mut [u8]) -> u64 {
    // SAFETY: every address is lent with its own length, and `policy`, `bank` and `out` alone are written, lent to this call only.
    unsafe {
        volankizo_live_add(
            policy.as_mut_ptr(),
            policy.len(),
            bank.as_mut_ptr(),
            bank.len(),
            record.as_ptr(),
            record.len(),
            out.as_mut_ptr(),
            out.len(),
        )
    }
}

/// Puts a record in place of the first live one with its id, and tells the slot.
pub fn replace(policy: &mut [u8], bank: &mut [u8], record: &[u8], out: &mut [u8]) -> u64 {
    // SAFETY: every address is lent with its own length, and `policy`, `bank` and `out` alone are written, lent to this call only.
    unsafe {
        volankizo_live_replace(
            policy.as_mut_ptr(),
            policy.len(),
            bank.as_mut_ptr(),
            bank.len(),
            record.as_ptr(),
            record.len(),
            out.as_mut_ptr(),
            out.len(),
        )
    }
}

/// Frees the slot of the first live record with an id, and tells it.
pub fn remove(policy: &mut [u8], bank: &mut [u8], id: u32, out: &mut [u8]) -> u64 {
    // SAFETY: every address is lent with its own length, and `policy`, `bank` and `out` alone are written, lent to this call only.
    unsafe {
        volankizo_live_remove(
            policy.as_mut_ptr(),
            policy.len(),
            bank.as_mut_ptr(),
            bank.len(),
            id,
            out.as_mut_ptr(),
            out.len(),
        )
    }
}

/// Closes the gaps between live records, and tells how many these are: 2 bytes of `out`.
pub fn compact(policy: &mut [u8], bank: &mut [u8], out: &mut [u8]) -> u64 {
    // SAFETY: every address is lent with its own length, and `policy`, `bank` and `out` alone are written, lent to this call only.
    unsafe {
        volankizo_live_compact(
            policy.as_mut_ptr(),
            policy.len(),
            bank.as_mut_ptr(),
            bank.len(),
            out.as_mut_ptr(),
            out.len(),
        )
    }
}
