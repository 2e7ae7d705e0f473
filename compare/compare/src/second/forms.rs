//! Document 01's stored form and request form, and the input of its program: fields of a one-byte tag, a two-byte length and a body; and the
//! fields by which document 02 lets a policy say that it rounds once, and its allowance.
use super::bytes::{policy_of, request_of};
use super::bytes::{Policy, LONG_POLICY_BYTES, POLICY_BYTES, RECORD_BYTES, REQUEST_BYTES, ROUNDED_POLICY_BYTES};
use super::refusals::{self, Refusal, FIELD_LENGTH};
use super::rules::{Rounding, Rules};
use oracle::kernel::KernelInput;

/// The tags.
pub const POLICY: u8 = 1;
pub const MODELS: u8 = 2;
pub const REQUEST: u8 = 3;
pub const ROUNDING: u8 = 4;
pub const ALLOWANCE: u8 = 5;

/// The fields of each form, in their order. The one that says how the policy rounds is there where it rounds once, the one after it where the policy
/// has an allowance.
pub const STORED_FORM: &[u8] = &[POLICY, MODELS, ROUNDING, ALLOWANCE];
pub const REQUEST_FORM: &[u8] = &[REQUEST];
pub const PROGRAM_INPUT: &[u8] = &[POLICY, MODELS, ROUNDING, ALLOWANCE, REQUEST];

pub const TOO_MANY_TO_STORE: u8 = 18;
pub const CUT: u8 = 20;
pub const WRONG_TAG: u8 = 21;

/// More would pass what a length of two bytes can say.
pub const MOST_STORED: usize = 1_394;

const HEADER: usize = 3;
/// The bytes of a stored form beside its models and the fields that not every policy has, of the two of these, and of a request form.
const STORED_BYTES: usize = 2 * HEADER + POLICY_BYTES;
const ROUNDING_FIELD_BYTES: usize = HEADER + 1;
const ALLOWANCE_FIELD_BYTES: usize = HEADER + 4;
pub const REQUEST_FORM_BYTES: usize = HEADER + REQUEST_BYTES;
/// What reading a stored form answers beside the models: the policy, and how many bytes of models there are.
pub const READ_BYTES: usize = LONG_POLICY_BYTES + 8;

fn put_field(out: &mut Vec<u8>, tag: u8, body: &[u8]) {
    out.push(tag);
    out.extend(u16::try_from(body.len()).expect("refused where it is longer").to_le_bytes());
    out.extend(body);
}

/// Whether the bytes of a policy, which may have any length, say that it rounds once.
fn rounds_once(policy: &[u8]) -> bool {
    let says = [ROUNDED_POLICY_BYTES, LONG_POLICY_BYTES].contains(&policy.len());
    says && policy[POLICY_BYTES] == Rounding::Once as u8
}

/// The allowance that they say, where it isn't none.
fn allowance(policy: &[u8]) -> Option<&[u8]> {
    let says = policy.len() == LONG_POLICY_BYTES;
    says.then(|| &policy[ROUNDED_POLICY_BYTES..]).filter(|bytes| bytes.iter().any(|byte| *byte != 0))
}

/// How many bytes the stored form of a policy with its bank has.
pub fn stored_bytes(policy: &[u8], bank: &[u8]) -> usize {
    let rounding = if rounds_once(policy) { ROUNDING_FIELD_BYTES } else { 0 };
    STORED_BYTES + bank.len() + rounding + allowance(policy).map_or(0, |_| ALLOWANCE_FIELD_BYTES)
}

/// A policy that rounds apart has no field that says so, nor has one without an allowance: each policy has one form.
pub fn stored_form(policy: &[u8], bank: &[u8]) -> Vec<u8> {
    let mut out = Vec::new();
    put_field(&mut out, POLICY, &policy[..POLICY_BYTES]);
    put_field(&mut out, MODELS, bank);
    if rounds_once(policy) {
        put_field(&mut out, ROUNDING, &[Rounding::Once as u8]);
    }
    if let Some(allowance) = allowance(policy) {
        put_field(&mut out, ALLOWANCE, allowance);
    }
    out
}

pub fn request_form(request: &[u8]) -> Vec<u8> {
    let mut out = Vec::new();
    put_field(&mut out, REQUEST, request);
    out
}

/// 18: whether so many models can be stored is asked before the room, and after 1 and 2.
pub fn storable(bank: &[u8]) -> Result<(), Refusal> {
    match bank.len() / RECORD_BYTES > MOST_STORED {
        true => Err(Refusal::of(TOO_MANY_TO_STORE)),
        false => Ok(()),
    }
}

/// Whether a body may be so long. Of models there are any number that the length can say.
fn fits(tag: u8, length: usize) -> bool {
    match tag {
        POLICY => length == POLICY_BYTES,
        REQUEST => length == REQUEST_BYTES,
        ROUNDING => length == 1,
        ALLOWANCE => length == 4,
        _ => length.is_multiple_of(RECORD_BYTES),
    }
}

/// What is left of a form. A field is read off the front, and judged whole before the next.
struct Left<'a>(&'a [u8]);

impl<'a> Left<'a> {
    /// The body of the field that is due. Nothing there is 21, a cut header 20, another tag 21, a wrong length 22, a cut body 20.
    fn field(&mut self, due: u8) -> Result<&'a [u8], Refusal> {
        let (tag, length) = match self.0 {
            [] => return Err(Refusal::of(WRONG_TAG)),
            [tag, low, high, ..] => (*tag, usize::from(*low) + 256 * usize::from(*high)),
            _ => return Err(Refusal::of(CUT)),
        };
        if tag != due {
            return Err(Refusal::of(WRONG_TAG));
        }
        if !fits(tag, length) {
            return Err(Refusal::of(FIELD_LENGTH));
        }
        let after = &self.0[HEADER..];
        if after.len() < length {
            return Err(Refusal::of(CUT));
        }
        let (body, left) = after.split_at(length);
        self.0 = left;
        Ok(body)
    }

    /// How the policy rounds: a byte 4 begins the field that says so, and any other says nothing. Another body than 1 is 23.
    fn rounding(&mut self) -> Result<Rounding, Refusal> {
        if self.0.first() != Some(&ROUNDING) {
            return Ok(Rounding::Apart);
        }
        match self.field(ROUNDING)? {
            [1] => Ok(Rounding::Once),
            _ => Err(Refusal::of(refusals::ROUNDING)),
        }
    }

    /// The allowance: a byte 5 begins the field that says one, and any other says that there is none. A body of 0 is 25.
    fn allowance(&mut self) -> Result<u32, Refusal> {
        if self.0.first() != Some(&ALLOWANCE) {
            return Ok(0);
        }
        let body = self.field(ALLOWANCE)?;
        match u32::from_le_bytes(body.try_into().expect("its length is tested")) {
            0 => Err(Refusal::of(refusals::ZERO_ALLOWANCE)),
            allowance => Ok(allowance),
        }
    }

    /// A byte after the last field is 21.
    fn end(self) -> Result<(), Refusal> {
        match self.0 {
            [] => Ok(()),
            _ => Err(Refusal::of(WRONG_TAG)),
        }
    }
}

/// The policy and the models' bytes at the front of a form.
fn policy_and_bank<'a>(left: &mut Left<'a>) -> Result<(Policy, &'a [u8]), Refusal> {
    let numbers = policy_of(left.field(POLICY)?);
    let bank = left.field(MODELS)?;
    let rules = Rules { rounding: left.rounding()?, allowance: left.allowance()? };
    Ok((numbers.by(rules), bank))
}

/// The policy and the models' bytes of a stored form.
pub fn stored_of(form: &[u8]) -> Result<(Policy, &[u8]), Refusal> {
    let mut left = Left(form);
    let stored = policy_and_bank(&mut left)?;
    left.end()?;
    Ok(stored)
}

/// The request's bytes of a request form.
pub fn request_in(form: &[u8]) -> Result<&[u8], Refusal> {
    let mut left = Left(form);
    let request = left.field(REQUEST)?;
    left.end()?;
    Ok(request)
}

/// What the program's input says.
pub struct Input<'a> {
    pub policy: Policy,
    pub bank: &'a [u8],
    pub request: KernelInput,
}

const TOO_MANY_FOR_THE_PROGRAM: u8 = 19;
const MOST_IN_THE_PROGRAM: usize = 900;

/// 20 to 23 and 25 over all fields, then 19.
pub fn input_of(input: &[u8]) -> Result<Input<'_>, Refusal> {
    let mut left = Left(input);
    let (policy, bank) = policy_and_bank(&mut left)?;
    let request = request_of(left.field(REQUEST)?);
    left.end()?;
    if bank.len() / RECORD_BYTES > MOST_IN_THE_PROGRAM {
        return Err(Refusal::of(TOO_MANY_FOR_THE_PROGRAM));
    }
    Ok(Input { policy, bank, request })
}

#[cfg(test)]
mod tests {
    use super::*;

    fn number(form: &[u8]) -> u8 {
        stored_of(form).map_or_else(|refusal| refusal.number, |_| 0)
    }

    #[test]
    fn each_fault_has_its_number_and_the_first_counts() {
        assert_eq!(number(&[]), 21);
        assert_eq!(number(&[1]), 20);
        assert_eq!(number(&[9, 0]), 20, "a cut header is told before its tag");
        assert_eq!(number(&[9, 0, 0]), 21);
        assert_eq!(number(&[1, 29, 0]), 22, "a wrong length is told before a cut body");
        assert_eq!(number(&[1, 30, 0]), 20);
        let policy = stored_form(&[7; 30], &[])[..33].to_vec();
        assert_eq!(number(&policy), 21, "no byte where a field is due");
        assert_eq!(number(&[&policy[..], &[1, 30, 0]].concat()), 21, "repeated");
        assert_eq!(number(&[&policy[..], &[2, 48, 0]].concat()), 22);
        assert_eq!(number(&[&policy[..], &[2, 47, 0]].concat()), 20);
        assert_eq!(number(&[&policy[..], &[2, 0, 0]].concat()), 0);
        assert_eq!(number(&[&policy[..], &[2, 0, 0, 0]].concat()), 21, "a byte after the last field");
    }

    /// A whole stored form of no models, with these bytes after it.
    fn and(after: &[u8]) -> Vec<u8> {
        [&stored_form(&[7; 30], &[]), after].concat()
    }

    #[test]
    fn each_fault_of_the_field_that_says_how_to_round_has_its_number() {
        let rounding = [4, 1, 0, 1];
        assert_eq!(number(&and(&rounding)), 0);
        assert_eq!(number(&and(&[4])), 20, "a byte 4 alone begins the field");
        assert_eq!(number(&and(&[4, 1])), 20);
        assert_eq!([1, 2, 3, 6, 9].map(|byte| number(&and(&[byte]))), [21; 5], "any other but 5 is one after the end");
        assert_eq!(number(&and(&[4, 1, 0])), 20, "a header without its body");
        assert_eq!(number(&and(&[4, 2, 0, 1])), 22, "another length before a cut body");
        assert_eq!(number(&and(&[4, 0, 0])), 22);
        assert_eq!(number(&and(&[4, 2, 0, 0, 0])), 22, "and before another body");
        assert_eq!(number(&and(&[&[4, 1, 1][..], &[1; 257]].concat())), 22);
        assert_eq!([0, 2, 255].map(|body| number(&and(&[4, 1, 0, body]))), [23; 3]);
        assert_eq!(number(&and(&[4, 1, 0, 0, 0])), 23, "another body before a byte after the end");
        assert_eq!(number(&and(&[rounding, rounding].concat())), 21, "twice");
        let form = and(&[]);
        assert_eq!(number(&[&form[..33], &rounding, &form[33..]].concat()), 21, "before the models");
        assert_eq!(number(&[&[1, 31, 0][..], &[7; 30], &[1], &form[33..]].concat()), 22, "31 bytes under tag 1");
    }

    #[test]
    fn each_fault_of_the_field_that_says_an_allowance_has_its_number() {
        let (rounding, allowance) = ([4, 1, 0, 1], [5, 4, 0, 200, 0, 0, 0]);
        assert_eq!(number(&and(&allowance)), 0);
        assert_eq!([&[5][..], &[5, 4], &[5, 4, 0], &[5, 4, 0, 0, 0, 0]].map(|cut| number(&and(cut))), [20; 4]);
        assert_eq!([0, 1, 3, 5, 30].map(|length| number(&and(&[5, length, 0, 0, 0]))), [22; 5], "22 before 20 and 25");
        assert_eq!(number(&and(&[&[5, 4, 1][..], &[1; 260]].concat())), 22);
        assert_eq!(number(&and(&[5, 4, 0, 0, 0, 0, 0])), 25);
        assert_eq!(number(&and(&[5, 4, 0, 0, 0, 0, 0, 0])), 25, "a body of 0 before a byte after the end");
        assert_eq!((3..7).map(|at| number(&and(&one_byte(at)))).collect::<Vec<_>>(), [0; 4], "any byte that isn't 0");
        assert_eq!(number(&and(&[allowance, allowance].concat())), 21, "twice");
        assert_eq!(number(&and(&[&rounding[..], &allowance].concat())), 0);
        assert_eq!(number(&and(&[&allowance[..], &rounding].concat())), 21, "before the one that says how to round");
        assert_eq!(number(&and(&[&[4, 1, 0, 2][..], &[5, 4, 0, 0, 0, 0, 0]].concat())), 23, "23 before 25");
        assert_eq!(number(&and(&[&rounding[..], &[5, 4, 0, 0, 0, 0, 0]].concat())), 25);
        let form = and(&[]);
        assert_eq!(number(&[&form[..33], &allowance, &form[33..]].concat()), 21, "before the models");
        assert_eq!(number(&[&[1, 35, 0][..], &[0; 35], &form[33..]].concat()), 22, "35 bytes under tag 1");
    }

    /// An allowance of which one byte alone is set.
    fn one_byte(at: usize) -> [u8; 7] {
        let mut field = [5, 4, 0, 0, 0, 0, 0];
        field[at] = 128;
        field
    }

    #[test]
    fn the_programs_input_has_the_allowance_after_the_rounding() {
        let number = |after: &[u8]| input_of(&and(after)).map_or_else(|refusal| refusal.number, |_| 0);
        let (rounding, request) = ([4, 1, 0, 1], request_form(&[6; 70]));
        let (allowance, none) = ([5, 4, 0, 200, 0, 0, 0], [5, 4, 0, 0, 0, 0, 0]);
        assert_eq!(number(&[&allowance[..], &request].concat()), 0);
        assert_eq!(number(&[&rounding[..], &allowance, &request].concat()), 0);
        assert_eq!(number(&[&none[..], &request].concat()), 25);
        assert_eq!(number(&none), 25, "judged whole before the next");
        assert_eq!(number(&[&[5, 3, 0][..], &request].concat()), 22);
        assert_eq!([&[5][..], &[5, 4], &[5, 4, 0], &allowance[..6]].map(number), [20; 4]);
        assert_eq!(number(&allowance), 21, "no request after it");
        assert_eq!(number(&[&allowance[..], &[9]].concat()), 20, "a cut header");
        assert_eq!(number(&[&allowance[..], &rounding, &request].concat()), 21);
        assert_eq!(number(&[&request[..], &allowance].concat()), 21);
        let read = |after: &[u8]| {
            let form = and(&[after, &request].concat());
            input_of(&form).map(|input| (input.policy.rounding, input.policy.latency_allowance_ms)).ok()
        };
        assert_eq!(read(&[]), Some((Rounding::Apart, 0)));
        assert_eq!(read(&allowance), Some((Rounding::Apart, 200)));
        assert_eq!(read(&[&rounding[..], &allowance].concat()), Some((Rounding::Once, 200)));
        assert_eq!(read(&[5, 4, 0, 1, 2, 3, 4]), Some((Rounding::Apart, 0x0403_0201)));
    }

    #[test]
    fn the_programs_input_has_the_field_before_the_request() {
        let number = |after: &[u8]| input_of(&and(after)).map_or_else(|refusal| refusal.number, |_| 0);
        let (rounding, request) = ([4, 1, 0, 1], request_form(&[6; 70]));
        assert_eq!(number(&request), 0);
        assert_eq!(number(&[&rounding[..], &request].concat()), 0);
        assert_eq!(number(&[&[4, 1, 0, 0][..], &request].concat()), 23);
        assert_eq!(number(&[&[4, 0, 0][..], &request].concat()), 22);
        assert_eq!([&[4][..], &[9], &[4, 1], &[4, 1, 0]].map(number), [20; 4], "fewer bytes than a field has");
        assert_eq!(number(&[9, 0, 0]), 21);
        assert_eq!(number(&rounding), 21, "no request after it");
        assert_eq!(number(&[4, 1, 0, 0]), 23, "judged whole before the next");
        assert_eq!(number(&[&rounding[..], &rounding, &request].concat()), 21);
        assert_eq!(number(&[&request[..], &rounding].concat()), 21);
        let read = |form: Vec<u8>| input_of(&form).map(|input| input.policy.rounding).ok();
        assert_eq!(read(and(&request)), Some(Rounding::Apart));
        assert_eq!(read(and(&[&rounding[..], &request].concat())), Some(Rounding::Once));
    }

    #[test]
    fn what_was_written_is_read_as_the_same() {
        let (policy, bank) = ([3; 30], [5; 94]);
        assert_eq!(stored_of(&stored_form(&policy, &bank)), Ok((policy_of(&policy), &bank[..])));
        assert_eq!(request_in(&request_form(&[6; 70])), Ok(&[6; 70][..]));
        let after: [(&[u8], usize); 6] = [
            (&[0], 130),
            (&[1], 134),
            (&[0, 0, 0, 0, 0], 130),
            (&[1, 0, 0, 0, 0], 134),
            (&[0, 0, 0, 0, 1], 137),
            (&[1, 200, 0, 0, 0], 141),
        ];
        for (after, bytes) in after {
            let policy = [&policy[..], after].concat();
            let form = stored_form(&policy, &bank);
            assert_eq!((form.len(), stored_bytes(&policy, &bank)), (bytes, bytes));
            assert_eq!(stored_of(&form), Ok((policy_of(&policy), &bank[..])));
        }
        let most = vec![0; 1_394 * 47];
        assert_eq!(stored_form(&policy, &most).len(), 65_554);
        assert_eq!((storable(&most), storable(&[most.clone(), vec![0; 47]].concat())), (Ok(()), Err(Refusal::of(18))));
    }
}
