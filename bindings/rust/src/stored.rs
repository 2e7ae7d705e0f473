//! Policies with their banks, and requests, as fields of tag, length and body.
use crate::bank::Bank;
use crate::ffi;
use crate::layout::{
    stored_form_bytes, Fields, ALLOWANCE_FIELD_BYTES, RECORD_BYTES, REQUEST_BYTES, REQUEST_FORM_BYTES,
    ROUNDING_FIELD_BYTES, STORED_POLICY_BYTES,
};
use crate::records::{KernelInput, PolicySnapshot, Rounding, MAX_STORED_MODELS};
use crate::refusal::Refusal;

/// The longest bank that a stored form holds; with a longer one a call refuses before it looks at its buffer.
const MAX_STORED_BANK_BYTES: usize = MAX_STORED_MODELS * RECORD_BYTES;

/// The stored form of a policy with its bank: the fields of tags 1 and 2, of tag 4 where the policy rounds once, and of tag 5 where it has an allowance.
/// Refusals: 1, 2, 18.
pub fn write_stored(policy: &PolicySnapshot, bank: &[u8]) -> Result<Vec<u8>, Refusal> {
    let rounding = match policy.rounding {
        Rounding::Apart => 0,
        Rounding::Once => ROUNDING_FIELD_BYTES,
    };
    let allowance = match policy.latency_allowance_ms {
        0 => 0,
        _ => ALLOWANCE_FIELD_BYTES,
    };
    let mut out = vec![0; stored_form_bytes(bank.len().min(MAX_STORED_BANK_BYTES)) + rounding + allowance];
    Refusal::told(ffi::write_stored(&policy.to_bytes(), bank, &mut out))?;
    Ok(out)
}

/// The policy and the bank of a stored form. Neither is validated, and the order is kept. Refusals: at each field in its turn 21 where
/// no byte is left, 20 where the tag and length are cut, 21 for another tag, 22 for the length, 20 where the body is cut, 23 for another body of
/// tag 4 than 1, 25 for a body of tag 5 that is 0; then 21 for a byte after the last field. A byte 4 after the bank begins tag 4; without it the policy
/// rounds apart. A byte 5 there, or after tag 4, begins tag 5; without it the policy has no allowance.
pub fn read_stored(form: &[u8]) -> Result<(PolicySnapshot, Bank), Refusal> {
    let mut bank = vec![0; form.len().min(MAX_STORED_BANK_BYTES)];
    let (policy, bytes) = read_stored_into(form, &mut bank)?;
    bank.truncate(bytes);
    Ok((policy, Bank::from_bytes(bank)))
}

/// The same into a lent buffer: the policy, and how many bytes of the buffer the bank took. Those after it stay. Refusals, with the
/// buffer as it was: those of [`read_stored`], then 4.
pub fn read_stored_into(form: &[u8], bank: &mut [u8]) -> Result<(PolicySnapshot, usize), Refusal> {
    let mut out = [0; STORED_POLICY_BYTES];
    Refusal::told(ffi::read_stored(form, bank, &mut out))?;
    let mut fields = Fields(&out);
    Ok((PolicySnapshot::taken(&mut fields), fields.u64() as usize))
}

/// The request form: the field of tag 3. Never refused.
pub fn write_request(input: KernelInput) -> Result<[u8; REQUEST_FORM_BYTES], Refusal> {
    let mut out = [0; REQUEST_FORM_BYTES];
    Refusal::told(ffi::write_request(&input.to_bytes(), &mut out))?;
    Ok(out)
}

/// The request of a request form. Refusals: those of [`read_stored`], for its one field.
pub fn read_request(form: &[u8]) -> Result<KernelInput, Refusal> {
    let mut out = [0; REQUEST_BYTES];
    Refusal::told(ffi::read_request(form, &mut out))?;
    Ok(KernelInput::from_bytes(&out))
}
