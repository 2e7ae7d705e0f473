//! The forms that are made of a case, and what can be wrong with one.
use crate::case::Case;
use crate::second::bytes::{LONG_POLICY_BYTES, POLICY_BYTES, ROUNDED_POLICY_BYTES};
use crate::second::forms::{ALLOWANCE, MODELS, POLICY, REQUEST, ROUNDING};

/// One thing wrong with a form. A field is meant by its place; where there is none, nothing happens.
#[derive(Clone, Copy, Debug, PartialEq, Eq)]
pub enum Damage {
    /// The field has this tag.
    Tag(usize, u8),
    /// The field's length says so many bytes more or fewer than its body has.
    Length(usize, i32),
    /// The field's length is this.
    Says(usize, u16),
    /// The field's body has so many bytes more or fewer, and its length says so.
    Body(usize, i32),
    /// Every byte of the field's body is this.
    Filled(usize, u8),
    Without(usize),
    Twice(usize),
    Swapped(usize, usize),
    /// A field that says how to round, with this body, before the one at a place or after the last.
    Rounding(usize, u8),
    /// A field that says this allowance, before the one at a place or after the last.
    Allowance(usize, u32),
    /// A field of its own after the last, empty.
    Added(u8),
    /// The first bytes alone.
    Keep(usize),
    /// So many bytes less at the end.
    ShortBy(usize),
    /// The byte at a place is another.
    Byte(usize, u8),
    /// So many such bytes after the end.
    Tail(usize, u8),
}

#[derive(Clone)]
struct Field {
    tag: u8,
    length: u16,
    body: Vec<u8>,
}

/// The case's parts as a form with these tags, then damaged in this order, but first what is wrong with fields.
pub fn form_bytes(case: &Case, tags: &[u8], damages: &[Damage]) -> Vec<u8> {
    let mut fields: Vec<Field> = tags.iter().filter_map(|tag| field(case, *tag)).collect();
    damages.iter().for_each(|damage| damage.fields(&mut fields));
    let mut bytes = Vec::new();
    for Field { tag, length, body } in fields {
        bytes.push(tag);
        bytes.extend(length.to_le_bytes());
        bytes.extend(body);
    }
    damages.iter().for_each(|damage| damage.bytes(&mut bytes));
    bytes
}

/// A body that is too long for its length is there all the same.
fn field(case: &Case, tag: u8) -> Option<Field> {
    let (numbers, rounding, allowance) = parted(&case.policy);
    let body = match tag {
        POLICY => numbers.to_vec(),
        MODELS => case.bank.clone(),
        REQUEST => case.request.clone(),
        ROUNDING => vec![rounding?],
        ALLOWANCE => allowance?.to_vec(),
        _ => unreachable!("no form has such a tag"),
    };
    Some(Field::of(tag, body))
}

/// The numbers of a policy, what its field that says how to round holds, and what the one that says its allowance: a policy of 31 bytes has the first,
/// and one of 35 both, unless they would hold 0. A policy of any other length is taken for numbers alone.
fn parted(policy: &[u8]) -> (&[u8], Option<u8>, Option<&[u8]>) {
    if ![ROUNDED_POLICY_BYTES, LONG_POLICY_BYTES].contains(&policy.len()) {
        return (policy, None, None);
    }
    let (numbers, after) = policy.split_at(POLICY_BYTES);
    let (rounding, allowance) = after.split_at(1);
    let says = allowance.iter().any(|byte| *byte != 0);
    (numbers, Some(rounding[0]).filter(|rounding| *rounding != 0), says.then_some(allowance))
}

/// The field before the one at a place, or after the last.
fn put(fields: &mut Vec<Field>, at: usize, field: Field) {
    fields.insert(at.min(fields.len()), field);
}

impl Damage {
    fn fields(self, fields: &mut Vec<Field>) {
        let (Damage::Tag(at, _)
        | Damage::Length(at, _)
        | Damage::Says(at, _)
        | Damage::Body(at, _)
        | Damage::Filled(at, _)
        | Damage::Without(at)
        | Damage::Twice(at)
        | Damage::Swapped(at, _)) = self
        else {
            match self {
                Damage::Added(tag) => fields.push(Field::of(tag, Vec::new())),
                Damage::Rounding(at, body) => put(fields, at, Field::of(ROUNDING, vec![body])),
                Damage::Allowance(at, body) => put(fields, at, Field::of(ALLOWANCE, body.to_le_bytes().to_vec())),
                _ => {}
            }
            return;
        };
        let Some(field) = fields.get_mut(at) else {
            return;
        };
        match self {
            Damage::Tag(_, tag) => field.tag = tag,
            Damage::Length(_, more) => field.length = (i32::from(field.length) + more) as u16,
            Damage::Says(_, length) => field.length = length,
            Damage::Body(_, more) => field.stretch(more),
            Damage::Filled(_, byte) => field.body.fill(byte),
            Damage::Without(_) => drop(fields.remove(at)),
            Damage::Twice(_) => fields.insert(at, fields[at].clone()),
            Damage::Swapped(_, other) if other < fields.len() => fields.swap(at, other),
            _ => {}
        }
    }

    fn bytes(self, bytes: &mut Vec<u8>) {
        match self {
            Damage::Keep(first) => bytes.truncate(first),
            Damage::ShortBy(less) => bytes.truncate(bytes.len().saturating_sub(less)),
            Damage::Byte(at, to) if at < bytes.len() => bytes[at] = to,
            Damage::Tail(more, byte) => bytes.extend(vec![byte; more]),
            _ => {}
        }
    }
}

impl Field {
    fn of(tag: u8, body: Vec<u8>) -> Self {
        Field { tag, length: body.len() as u16, body }
    }

    fn stretch(&mut self, more: i32) {
        let length = (self.body.len() as i64 + i64::from(more)).max(0) as usize;
        self.body.resize(length, 0);
        self.length = length as u16;
    }
}
