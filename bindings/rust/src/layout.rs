//! Sizes in bytes, and packed little-endian numbers read and written one after the other.

/// A model in a bank.
pub const RECORD_BYTES: usize = 47;
/// A policy's six numbers, which alone are a policy that rounds apart and has no allowance.
pub const POLICY_BYTES: usize = 30;
/// A policy that also says how it rounds.
pub const ROUNDED_POLICY_BYTES: usize = 31;
/// A policy that says how it rounds, and its allowance.
pub const LONGEST_POLICY_BYTES: usize = 35;
/// A request.
pub const REQUEST_BYTES: usize = 70;
/// A decision with its nine counts.
pub const DECISION_BYTES: usize = 83;
/// A decision without them.
pub const UNCOUNTED_BYTES: usize = 65;
/// A utility.
pub const UTILITY_BYTES: usize = 8;
/// A place in a bank.
pub const PLACE_BYTES: usize = 2;
/// A place in an explanation's list.
pub const NEXT_BYTES: usize = 8;
/// Where a record begins in a bank.
pub const OFFSET_BYTES: usize = 8;
/// What an edit tells, the slot that it wrote, or a compaction, how many records are live.
pub const EDIT_BYTES: usize = 2;
/// An entry of an explanation.
pub const EXPLANATION_BYTES: usize = 72;
/// The answer of a boundary search.
pub const BOUNDARY_BYTES: usize = 183;
/// A field's tag and length, before its body.
pub const FIELD_HEADER_BYTES: usize = 3;
/// The field of a stored form that says that its policy rounds once.
pub const ROUNDING_FIELD_BYTES: usize = 4;
/// The field of a stored form that says its policy's allowance.
pub const ALLOWANCE_FIELD_BYTES: usize = 7;
/// What reading a stored form tells beside the bank: the policy in its longest form, and the bank's length.
pub const STORED_POLICY_BYTES: usize = 43;
/// A request form.
pub const REQUEST_FORM_BYTES: usize = 73;
/// Room that every text of `unit` fits in, with its length before it.
pub const UNIT_TEXT_BYTES: usize = 848;
/// The same for `ask ID`, in lines.
pub const ASK_TEXT_BYTES: usize = 678;
/// The same for `ask ID words`.
pub const ASK_WORDS_BYTES: usize = 1_208;

/// A stored form with a bank of so many bytes and a policy that rounds apart and has no allowance, held at `usize::MAX`; with one that rounds once it
/// has [`ROUNDING_FIELD_BYTES`] more, and with an allowance [`ALLOWANCE_FIELD_BYTES`] more.
pub const fn stored_form_bytes(bank_bytes: usize) -> usize {
    (FIELD_HEADER_BYTES + POLICY_BYTES + FIELD_HEADER_BYTES).saturating_add(bank_bytes)
}

/// Fields that are taken off the front of some bytes.
pub(crate) struct Fields<'a>(pub &'a [u8]);

impl Fields<'_> {
    fn next<const N: usize>(&mut self) -> [u8; N] {
        let Some((field, rest)) = self.0.split_first_chunk::<N>() else {
            broken("an answer that ends within a field");
        };
        self.0 = rest;
        *field
    }

    pub fn u8(&mut self) -> u8 {
        self.next::<1>()[0]
    }

    pub fn u16(&mut self) -> u16 {
        u16::from_le_bytes(self.next())
    }

    pub fn u32(&mut self) -> u32 {
        u32::from_le_bytes(self.next())
    }

    pub fn u64(&mut self) -> u64 {
        u64::from_le_bytes(self.next())
    }

    pub fn i64(&mut self) -> i64 {
        i64::from_le_bytes(self.next())
    }

    pub fn i128(&mut self) -> i128 {
        i128::from_le_bytes(self.next())
    }

    /// A number that has 16 bytes and fits in eight of them.
    pub fn wide_u64(&mut self) -> Option<u64> {
        u64::try_from(u128::from_le_bytes(self.next())).ok()
    }
}

/// Bytes that are filled field by field.
pub(crate) struct Packed<const N: usize> {
    bytes: [u8; N],
    at: usize,
}

impl<const N: usize> Packed<N> {
    pub fn new() -> Self {
        Packed { bytes: [0; N], at: 0 }
    }

    pub fn and<const M: usize>(mut self, field: [u8; M]) -> Self {
        self.bytes[self.at..self.at + M].copy_from_slice(&field);
        self.at += M;
        self
    }

    pub fn whole(self) -> [u8; N] {
        assert_eq!(self.at, N, "every byte is filled");
        self.bytes
    }
}

/// Where the archive is not the one that this crate was written for; no input leads here.
#[cold]
pub(crate) fn broken(what: &str) -> ! {
    panic!("libvolankizo.a does not fit this crate: it told {what}")
}
