//! The exported functions of the static library, as include/volankizo.h declares them.
use std::hint::black_box;

type Bytes = *const u8;
type Lent = *mut u8;

extern "C" {
    fn volankizo_version() -> u64;
    fn volankizo_prescribe(p: Bytes, pn: usize, q: Bytes, qn: usize, b: Bytes, bn: usize, o: Lent, on: usize) -> u64;
    fn volankizo_prescribe_checked(
        p: Bytes,
        pn: usize,
        q: Bytes,
        qn: usize,
        b: Bytes,
        bn: usize,
        o: Lent,
        on: usize,
    ) -> u64;
    fn volankizo_prescribe_batch(
        p: Bytes,
        pn: usize,
        q: Bytes,
        qn: usize,
        count: u64,
        b: Bytes,
        bn: usize,
        o: Lent,
        on: usize,
    ) -> u64;
    fn volankizo_prescribe_batch_checked(
        p: Bytes,
        pn: usize,
        q: Bytes,
        qn: usize,
        count: u64,
        b: Bytes,
        bn: usize,
        o: Lent,
        on: usize,
    ) -> u64;
    fn volankizo_utility_for_model(
        p: Bytes,
        pn: usize,
        q: Bytes,
        qn: usize,
        b: Bytes,
        bn: usize,
        id: u32,
        o: Lent,
        on: usize,
    ) -> u64;
    fn volankizo_find(b: Bytes, bn: usize, id: u32, o: Lent, on: usize) -> u64;
    fn volankizo_check_request(q: Bytes, qn: usize) -> u64;
    fn volankizo_next_eligible(l: Bytes, ln: usize, from: u64, o: Lent, on: usize) -> u64;
    fn volankizo_explain(
        p: Bytes,
        pn: usize,
        q: Bytes,
        qn: usize,
        b: Bytes,
        bn: usize,
        l: Lent,
        ln: usize,
        o: Lent,
        on: usize,
    ) -> u64;
    fn volankizo_validate(p: Bytes, pn: usize, b: Bytes, bn: usize) -> u64;
    fn volankizo_trust(p: Bytes, pn: usize, b: Lent, bn: usize) -> u64;
    fn volankizo_what_would_win(
        p: Bytes,
        pn: usize,
        q: Bytes,
        qn: usize,
        b: Bytes,
        bn: usize,
        id: u32,
        o: Lent,
        on: usize,
    ) -> u64;
    fn volankizo_decision_margin(
        p: Bytes,
        pn: usize,
        q: Bytes,
        qn: usize,
        b: Bytes,
        bn: usize,
        o: Lent,
        on: usize,
    ) -> u64;
    fn volankizo_record_at(b: Bytes, bn: usize, place: u64, o: Lent, on: usize) -> u64;
    fn volankizo_write_stored(p: Bytes, pn: usize, b: Bytes, bn: usize, o: Lent, on: usize) -> u64;
    fn volankizo_read_stored(f: Bytes, fl: usize, b: Lent, bn: usize, o: Lent, on: usize) -> u64;
    fn volankizo_write_request(q: Bytes, qn: usize, o: Lent, on: usize) -> u64;
    fn volankizo_read_request(f: Bytes, fl: usize, o: Lent, on: usize) -> u64;
    fn volankizo_unit_text(i: Bytes, il: usize, o: Lent, on: usize) -> u64;
    fn volankizo_ask_text(i: Bytes, il: usize, id: u32, o: Lent, on: usize) -> u64;
    fn volankizo_ask_words(i: Bytes, il: usize, id: u32, o: Lent, on: usize) -> u64;
    fn volankizo_live_prescribe(
        p: Bytes,
        pn: usize,
        q: Bytes,
        qn: usize,
        b: Bytes,
        bn: usize,
        o: Lent,
        on: usize,
    ) -> u64;
    fn volankizo_live_prescribe_checked(
        p: Bytes,
        pn: usize,
        q: Bytes,
        qn: usize,
        b: Bytes,
        bn: usize,
        o: Lent,
        on: usize,
    ) -> u64;
    fn volankizo_live_explain(
        p: Bytes,
        pn: usize,
        q: Bytes,
        qn: usize,
        b: Bytes,
        bn: usize,
        l: Lent,
        ln: usize,
        o: Lent,
        on: usize,
    ) -> u64;
    fn volankizo_live_find(b: Bytes, bn: usize, id: u32, o: Lent, on: usize) -> u64;
    fn volankizo_live_utility_for_model(
        p: Bytes,
        pn: usize,
        q: Bytes,
        qn: usize,
        b: Bytes,
        bn: usize,
        id: u32,
        o: Lent,
        on: usize,
    ) -> u64;
    fn volankizo_live_what_would_win(
        p: Bytes,
        pn: usize,
        q: Bytes,
        qn: usize,
        b: Bytes,
        bn: usize,
        id: u32,
        o: Lent,
        on: usize,
    ) -> u64;
    fn volankizo_live_decision_margin(
        p: Bytes,
        pn: usize,
        q: Bytes,
        qn: usize,
        b: Bytes,
        bn: usize,
        o: Lent,
        on: usize,
    ) -> u64;
    fn volankizo_live_add(p: Lent, pn: usize, b: Lent, bn: usize, r: Bytes, rn: usize, o: Lent, on: usize) -> u64;
    fn volankizo_live_replace(p: Lent, pn: usize, b: Lent, bn: usize, r: Bytes, rn: usize, o: Lent, on: usize) -> u64;
    fn volankizo_live_remove(p: Lent, pn: usize, b: Lent, bn: usize, id: u32, o: Lent, on: usize) -> u64;
    fn volankizo_live_compact(p: Lent, pn: usize, b: Lent, bn: usize, o: Lent, on: usize) -> u64;
}

/// What is lent to every call that reads a policy, a request and a bank.
#[derive(Clone, Copy)]
pub struct Question<'a> {
    pub policy: &'a [u8],
    pub request: &'a [u8],
    pub bank: &'a [u8],
}

// Each slice is alive for the whole call, what is written overlaps nothing else, and no address is kept: all that the calls ask.

pub fn prescribe(q: Question, out: &mut [u8]) -> u64 {
    let (p, r, b, o) = (q.policy, q.request, q.bank, black_box(out));
    unsafe {
        volankizo_prescribe(p.as_ptr(), p.len(), r.as_ptr(), r.len(), b.as_ptr(), b.len(), o.as_mut_ptr(), o.len())
    }
}

pub fn explain(q: Question, list: &mut [u8], out: &mut [u8]) -> u64 {
    let (p, r, b, l, o) = (q.policy, q.request, q.bank, black_box(list), black_box(out));
    let (l, ln, o, on) = (l.as_mut_ptr(), l.len(), o.as_mut_ptr(), o.len());
    unsafe { volankizo_explain(p.as_ptr(), p.len(), r.as_ptr(), r.len(), b.as_ptr(), b.len(), l, ln, o, on) }
}

pub fn validate(policy: &[u8], bank: &[u8]) -> u64 {
    unsafe { volankizo_validate(policy.as_ptr(), policy.len(), bank.as_ptr(), bank.len()) }
}

pub fn trust(policy: &[u8], bank: &mut [u8]) -> u64 {
    let bank = black_box(bank);
    unsafe { volankizo_trust(policy.as_ptr(), policy.len(), bank.as_mut_ptr(), bank.len()) }
}

pub fn what_would_win(q: Question, id: u32, out: &mut [u8]) -> u64 {
    let (p, r, b, o) = (q.policy, q.request, q.bank, black_box(out));
    let (o, on) = (o.as_mut_ptr(), o.len());
    unsafe { volankizo_what_would_win(p.as_ptr(), p.len(), r.as_ptr(), r.len(), b.as_ptr(), b.len(), id, o, on) }
}

pub fn decision_margin(q: Question, out: &mut [u8]) -> u64 {
    let (p, r, b, o) = (q.policy, q.request, q.bank, black_box(out));
    let (o, on) = (o.as_mut_ptr(), o.len());
    unsafe { volankizo_decision_margin(p.as_ptr(), p.len(), r.as_ptr(), r.len(), b.as_ptr(), b.len(), o, on) }
}

pub fn utility_for_model(q: Question, id: u32, out: &mut [u8]) -> u64 {
    let (p, r, b, o) = (q.policy, q.request, q.bank, black_box(out));
    let (o, on) = (o.as_mut_ptr(), o.len());
    unsafe { volankizo_utility_for_model(p.as_ptr(), p.len(), r.as_ptr(), r.len(), b.as_ptr(), b.len(), id, o, on) }
}

pub fn find(bank: &[u8], id: u32, out: &mut [u8]) -> u64 {
    let o = black_box(out);
    unsafe { volankizo_find(bank.as_ptr(), bank.len(), id, o.as_mut_ptr(), o.len()) }
}

/// The calls on live records, as their siblings above.
pub mod live {
    use super::*;

    pub fn prescribe(q: Question, out: &mut [u8]) -> u64 {
        let (p, r, b, o) = (q.policy, q.request, q.bank, black_box(out));
        let (o, on) = (o.as_mut_ptr(), o.len());
        unsafe { volankizo_live_prescribe(p.as_ptr(), p.len(), r.as_ptr(), r.len(), b.as_ptr(), b.len(), o, on) }
    }

    pub fn explain(q: Question, list: &mut [u8], out: &mut [u8]) -> u64 {
        let (p, r, b, l, o) = (q.policy, q.request, q.bank, black_box(list), black_box(out));
        let (l, ln, o, on) = (l.as_mut_ptr(), l.len(), o.as_mut_ptr(), o.len());
        unsafe { volankizo_live_explain(p.as_ptr(), p.len(), r.as_ptr(), r.len(), b.as_ptr(), b.len(), l, ln, o, on) }
    }

    pub fn find(bank: &[u8], id: u32, out: &mut [u8]) -> u64 {
        let o = black_box(out);
        unsafe { volankizo_live_find(bank.as_ptr(), bank.len(), id, o.as_mut_ptr(), o.len()) }
    }

    pub fn utility_for_model(q: Question, id: u32, out: &mut [u8]) -> u64 {
        let (p, r, b, o) = (q.policy, q.request, q.bank, black_box(out));
        let (b, bn, o, on) = (b.as_ptr(), b.len(), o.as_mut_ptr(), o.len());
        unsafe { volankizo_live_utility_for_model(p.as_ptr(), p.len(), r.as_ptr(), r.len(), b, bn, id, o, on) }
    }

    pub fn what_would_win(q: Question, id: u32, out: &mut [u8]) -> u64 {
        let (p, r, b, o) = (q.policy, q.request, q.bank, black_box(out));
        let (b, bn, o, on) = (b.as_ptr(), b.len(), o.as_mut_ptr(), o.len());
        unsafe { volankizo_live_what_would_win(p.as_ptr(), p.len(), r.as_ptr(), r.len(), b, bn, id, o, on) }
    }

    pub fn decision_margin(q: Question, out: &mut [u8]) -> u64 {
        let (p, r, b, o) = (q.policy, q.request, q.bank, black_box(out));
        let (b, bn, o, on) = (b.as_ptr(), b.len(), o.as_mut_ptr(), o.len());
        unsafe { volankizo_live_decision_margin(p.as_ptr(), p.len(), r.as_ptr(), r.len(), b, bn, o, on) }
    }

    pub fn add(policy: &mut [u8], bank: &mut [u8], record: &[u8], out: &mut [u8]) -> u64 {
        let (p, b, o) = (black_box(policy), black_box(bank), black_box(out));
        let (p, pn, b, bn) = (p.as_mut_ptr(), p.len(), b.as_mut_ptr(), b.len());
        unsafe { volankizo_live_add(p, pn, b, bn, record.as_ptr(), record.len(), o.as_mut_ptr(), o.len()) }
    }

    pub fn replace(policy: &mut [u8], bank: &mut [u8], record: &[u8], out: &mut [u8]) -> u64 {
        let (p, b, o) = (black_box(policy), black_box(bank), black_box(out));
        let (p, pn, b, bn) = (p.as_mut_ptr(), p.len(), b.as_mut_ptr(), b.len());
        unsafe { volankizo_live_replace(p, pn, b, bn, record.as_ptr(), record.len(), o.as_mut_ptr(), o.len()) }
    }

    pub fn remove(policy: &mut [u8], bank: &mut [u8], id: u32, out: &mut [u8]) -> u64 {
        let (p, b, o) = (black_box(policy), black_box(bank), black_box(out));
        unsafe { volankizo_live_remove(p.as_mut_ptr(), p.len(), b.as_mut_ptr(), b.len(), id, o.as_mut_ptr(), o.len()) }
    }

    pub fn compact(policy: &mut [u8], bank: &mut [u8], out: &mut [u8]) -> u64 {
        let (p, b, o) = (black_box(policy), black_box(bank), black_box(out));
        unsafe { volankizo_live_compact(p.as_mut_ptr(), p.len(), b.as_mut_ptr(), b.len(), o.as_mut_ptr(), o.len()) }
    }
}

macro_rules! addresses {
    ($($name:ident)*) => {
        /// The name and the address of each function.
        pub const ADDRESSES: &[(&str, fn() -> usize)] = &[$((stringify!($name), || $name as *const () as usize)),*];
    };
}

addresses! {
    volankizo_version
    volankizo_prescribe
    volankizo_prescribe_checked
    volankizo_prescribe_batch
    volankizo_prescribe_batch_checked
    volankizo_utility_for_model
    volankizo_find
    volankizo_check_request
    volankizo_explain
    volankizo_next_eligible
    volankizo_validate
    volankizo_trust
    volankizo_what_would_win
    volankizo_decision_margin
    volankizo_record_at
    volankizo_write_stored
    volankizo_read_stored
    volankizo_write_request
    volankizo_read_request
    volankizo_unit_text
    volankizo_ask_text
    volankizo_ask_words
    volankizo_live_prescribe
    volankizo_live_prescribe_checked
    volankizo_live_explain
    volankizo_live_find
    volankizo_live_utility_for_model
    volankizo_live_what_would_win
    volankizo_live_decision_margin
    volankizo_live_add
    volankizo_live_replace
    volankizo_live_remove
    volankizo_live_compact
}
