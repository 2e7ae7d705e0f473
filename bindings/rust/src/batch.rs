//! A row of requests decided in one call, and which library it is that decides.
use crate::decision::KernelDecision;
use crate::ffi;
use crate::layout::{Fields, UNCOUNTED_BYTES};
use crate::records::{KernelInput, PolicySnapshot};
use crate::refusal::Refusal;

/// The linked library's version: major, minor and patch. This crate has the same one.
pub fn version() -> (u64, u64, u64) {
    let number = ffi::batch::version();
    (number / 1_000_000, number / 1_000 % 1_000, number % 1_000)
}

/// A batch of [`ffi::batch`].
type Batch = fn(&[u8], &[u8], u64, &[u8], &mut [u8]) -> u64;

impl PolicySnapshot {
    /// Decides every request, each as [`prescribe`](Self::prescribe) does. Refusals: 22 (2^32 requests or more), 1, 2.
    pub fn prescribe_batch(&self, bank: &[u8], inputs: &[KernelInput]) -> Result<Vec<KernelDecision>, Refusal> {
        decided(ffi::batch::prescribe_batch, self, bank, inputs)
    }

    /// The same once every request is checked. Refusals: 22, 1, 2, 3 with the place of the first bad request.
    pub fn prescribe_batch_checked(&self, bank: &[u8], inputs: &[KernelInput]) -> Result<Vec<KernelDecision>, Refusal> {
        decided(ffi::batch::prescribe_batch_checked, self, bank, inputs)
    }
}

fn decided(
    batch: Batch,
    policy: &PolicySnapshot,
    bank: &[u8],
    inputs: &[KernelInput],
) -> Result<Vec<KernelDecision>, Refusal> {
    let requests: Vec<u8> = inputs.iter().flat_map(KernelInput::to_bytes).collect();
    let mut out = vec![0; inputs.len() * UNCOUNTED_BYTES];
    Refusal::told(batch(&policy.to_bytes(), &requests, inputs.len() as u64, bank, &mut out))?;
    Ok(out.chunks_exact(UNCOUNTED_BYTES).map(|decision| KernelDecision::taken(&mut Fields(decision))).collect())
}
