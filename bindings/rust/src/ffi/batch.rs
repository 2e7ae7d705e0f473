//! The library's batches and its version, as they are. What [`ffi`](super) says of the unsafe code holds here too.
extern "C" {
    fn volankizo_version() -> u64;
    fn volankizo_prescribe_batch(
        policy: *const u8,
        policy_len: usize,
        requests: *const u8,
        requests_len: usize,
        count: u64,
        bank: *const u8,
        bank_len: usize,
        out: *mut u8,
        out_len: usize,
    ) -> u64;
    fn volankizo_prescribe_batch_checked(
        policy: *const u8,
        policy_len: usize,
        requests: *const u8,
        requests_len: usize,
        count: u64,
        bank: *const u8,
        bank_len: usize,
        out: *mut u8,
        out_len: usize,
    ) -> u64;
}

/// The library's version as one number: 1,000,000 times the major, 1,000 times the minor, and the patch.
pub fn version() -> u64 {
    // SAFETY: nothing is lent.
    unsafe { volankizo_version() }
}

/// Decides so many requests of 70 bytes each: 65 bytes of `out` for each.
pub fn prescribe_batch(policy: &[u8], requests: &[u8], count: u64, bank: &[u8], out: &mut [u8]) -> u64 {
    // SAFETY: every address is lent with its own length, and `out` alone is written, lent to this call only.
    unsafe {
        volankizo_prescribe_batch(
            policy.as_ptr(),
            policy.len(),
            requests.as_ptr(),
            requests.len(),
            count,
            bank.as_ptr(),
            bank.len(),
            out.as_mut_ptr(),
            out.len(),
        )
    }
}

/// The same once every request is checked.
pub fn prescribe_batch_checked(policy: &[u8], requests: &[u8], count: u64, bank: &[u8], out: &mut [u8]) -> u64 {
    // SAFETY: every address is lent with its own length, and `out` alone is written, lent to this call only.
    unsafe {
        volankizo_prescribe_batch_checked(
            policy.as_ptr(),
            policy.len(),
            requests.as_ptr(),
            requests.len(),
            count,
            bank.as_ptr(),
            bank.len(),
            out.as_mut_ptr(),
            out.len(),
        )
    }
}
