//! The fixed list: cases with the answers that are owed, made by the Rust and the second reading alone, replayed where no Rust is at
//! hand. Making it anew gives the same bytes.
//!
//! One entry after the other to the end of the file, numbers little-endian:
//!
//! | Bytes | What |
//! |---|---|
//! | 1 | who says what is owed: 1 the Rust, 2 the second reading alone, 3 both: the Rust decides, the second reading prints it |
//! | 1 | the call: 1 to 32, in the order of `CALLS` |
//! | 8 | the id, the place or the count that it takes, else 0 |
//! | 2 each | five lengths: of the policy, the request, the bytes, the space and the buffer; 0 for what the call doesn't take |
//! | as they say | the policy; the request, the row of them, or the record that is offered; the bytes, which are the bank, the list or the form that is read |
//! | 8 | the word that is owed: the refusal's, or 0 |
//! | as they say | after the call: the policy; the space, which is the list or the bank that is filled, or the bank that is changed; the buffer |
//!
//! Every byte of the space and of the buffer is `FILL` before the call, but for a bank that is changed in its place, by 9 and 27 to 30: it is a copy.
mod allowances;
mod batches;
mod catalogues;
mod decisions;
mod forms;
mod lists;
mod live;
mod printed;
mod roundings;
mod searches;

use crate::calls::next_eligible::list_to_read;
use crate::calls::prescribe_batch::{count, row};
use crate::calls::{Answer, By, Handed, ADD, CALLS, COMPACT, TRUST};
use crate::case::{Ask, Case, Room};
use crate::generate::{Draw, Policies};
use crate::second::bytes::{POLICY_BYTES, RECORD_BYTES, REQUEST_BYTES};

/// The seed of the list's random cases. Another one makes another list.
pub const SEED: u64 = 20_261_115;

pub struct Entry {
    pub call: usize,
    pub case: Case,
}

/// The whole list, in its order.
pub fn entries() -> Vec<Entry> {
    let mut list = Vec::new();
    decisions::entries(&mut list);
    lists::entries(&mut list);
    catalogues::entries(&mut list);
    searches::entries(&mut list);
    forms::entries(&mut list);
    printed::entries(&mut list);
    roundings::entries(&mut list);
    live::entries(&mut list);
    batches::entries(&mut list);
    allowances::entries(&mut list);
    list
}

fn add(list: &mut Vec<Entry>, call: usize, case: Case) {
    list.push(Entry { call, case });
}

/// The bytes of the largest bank of a random entry, and of the largest space and buffer that the program which replays the list has.
const MOST_BANK: usize = 8 * RECORD_BYTES + 1;
pub const MOST_ROOM: usize = 1_024;
/// The bytes of the longest list that it reads.
pub const MOST_BYTES: usize = 786_432;

/// What fills a space and a buffer before the call.
const FILL: u8 = 165;

/// Whether a policy that rounds apart and the request have their lengths; cases that have not are refused alike, and are few in the list.
fn whole(case: &Case) -> bool {
    case.policy.len() == POLICY_BYTES && case.request.len() == REQUEST_BYTES
}

fn fits(call: usize, case: &Case) -> bool {
    let ask = CALLS[call].ask(case);
    case.bank.len() <= MOST_BANK && ask.room <= MOST_ROOM && ask.list_room <= MOST_ROOM
}

/// The first so many random cases that fit an entry.
fn random(list: &mut Vec<Entry>, call: usize, number: usize, case: fn(Draw) -> Case) {
    let draw = |number: u64| Draw { seed: SEED + call as u64, number, policies: Policies::Apart };
    let cases = (0..).map(|at| case(draw(at))).filter(|case| whole(case) && fits(call, case));
    cases.take(number).for_each(|case| add(list, call, Case { room: Room::Exact, ..case }));
}

impl Entry {
    pub fn owed(&self) -> Answer {
        CALLS[self.call].owed_on(&self.case)
    }

    /// Adds the entry to the file's bytes.
    pub fn write(&self, out: &mut Vec<u8>) {
        let ask = CALLS[self.call].ask(&self.case);
        let owed = CALLS[self.call].owed(&ask);
        let bytes = self.bytes(&ask);
        let space = match self.call {
            TRUST | ADD..=COMPACT => after(bytes.clone(), &owed.bank),
            _ => after(self.lent(Handed::List, ask.list_room), &owed.list),
        };
        let buffer = after(self.lent(Handed::Out, ask.room), &owed.out);
        let offered = self.part(Handed::Record, ask.record);
        let (policy, request) = (self.part(Handed::Policy, ask.policy), self.part(Handed::Request, ask.request));
        let requests = if self.takes(Handed::Requests) { row(&ask) } else { Vec::new() };
        let request = [request, offered, &requests].concat();
        out.extend([who(owed.by), self.call as u8 + 1]);
        out.extend(self.number(&ask).to_le_bytes());
        for part in [policy, &request, &bytes, &space, &buffer] {
            out.extend(u16::try_from(part.len()).expect("two bytes say its length").to_le_bytes());
        }
        let changed = after(policy.to_vec(), &owed.policy);
        for part in [policy, &request, &bytes, &owed.word().to_le_bytes(), &changed, &space, &buffer] {
            out.extend(part);
        }
    }

    fn takes(&self, handed: Handed) -> bool {
        CALLS[self.call].takes.contains(&handed)
    }

    fn part<'a>(&self, handed: Handed, part: &'a [u8]) -> &'a [u8] {
        if self.takes(handed) {
            part
        } else {
            &[]
        }
    }

    fn lent(&self, handed: Handed, room: usize) -> Vec<u8> {
        vec![FILL; if self.takes(handed) { room } else { 0 }]
    }

    fn number(&self, ask: &Ask) -> u64 {
        match self {
            _ if self.takes(Handed::Id) => u64::from(self.case.id),
            _ if self.takes(Handed::Place) => self.case.place,
            _ if self.takes(Handed::Count) => count(ask),
            _ => 0,
        }
    }

    /// What is read beside the policy and the request.
    fn bytes(&self, ask: &Ask) -> Vec<u8> {
        match self {
            _ if self.takes(Handed::Form) => ask.form.clone(),
            _ if self.takes(Handed::Listed) => list_to_read(ask),
            _ => self.part(Handed::Bank, ask.bank).to_vec(),
        }
    }
}

fn who(by: By) -> u8 {
    match by {
        By::Rust => 1,
        By::Second => 2,
        By::Printed => 3,
    }
}

/// What is lent, with these bytes written to its start.
fn after(mut lent: Vec<u8>, bytes: &[u8]) -> Vec<u8> {
    lent[..bytes.len()].copy_from_slice(bytes);
    lent
}

#[cfg(test)]
mod tests {
    use super::*;
    use crate::calls::{ASK, MARGIN, PRESCRIBE, UNIT, WIN, WORDS};
    use crate::generate::example::{example, rows};

    /// Numbers of these widths, lowest byte first.
    fn packed(numbers: &[u64], widths: &[usize]) -> Vec<u8> {
        numbers.iter().zip(widths).flat_map(|(n, w)| n.to_le_bytes()[..*w].to_vec()).collect()
    }

    /// Document 01's printed decision, 65 bytes.
    fn printed() -> Vec<u8> {
        let numbers = [42, 2, 2, 2, 1, 300, 6_200, 1, 5_200, 2, 2, 7, 3];
        packed(&numbers, &[8, 1, 2, 4, 2, 8, 8, 4, 8, 2, 2, 8, 8])
    }

    #[test]
    fn the_example_is_decided_as_document_01_prints_it() {
        let owed = CALLS[PRESCRIBE].owed_on(&example().case(1));
        assert_eq!(owed, Answer::of([printed(), vec![0; 18]].concat()));
    }

    /// The answer with these levers, as document 01 prints them, and the passes.
    fn bounded(model: u64, passes: u64, levers: &[[u64; 5]]) -> Answer {
        let mut out = printed();
        out.extend(packed(&[model, 0, levers.len() as u64, passes], &[4, 1, 1, 8]));
        levers.iter().for_each(|lever| out.extend(packed(lever, &[1, 8, 8, 1, 8])));
        out.resize(183, 0);
        Answer::of(out)
    }

    #[test]
    fn the_examples_boundaries_are_document_01s() {
        let case = example().case(1);
        assert_eq!(CALLS[WIN].owed_on(&case), bounded(1, 26, &[[3, 1_000_000, 443_333, 1, 798]]));
        let levers =
            [[1, 8_000, 7_000, 0, 0], [2, 50, 150, 0, 0], [3, 1_000_000, 4_330_000, 1, 1_299], [4, 8_000, 1_000, 0, 0]];
        assert_eq!(CALLS[MARGIN].owed_on(&case), bounded(2, 95, &levers));
    }

    /// What a call prints for the example, asked about a model.
    fn text_of(call: usize, id: u32) -> String {
        String::from_utf8(CALLS[call].owed_on(&example().case(id)).out[8..].to_vec()).expect("text")
    }

    #[test]
    fn the_example_is_printed_as_document_01_has_it() {
        let lines = "decision 42 2 2 2 1 300 6200 1 5200 2 2 7 3\nrejected 0 0 0 0 0 0 0 0 0\nlever 1 8000 7000 -\n\
                     lever 2 50 150 -\nlever 3 1000000 4330000 1299\nlever 4 8000 1000 -\n";
        assert_eq!(text_of(UNIT, 1), lines);
        let lines = "decision 42 2 2 2 1 300 6200 1 5200 2 2 7 3\nlever 3 1000000 443333 798\npasses 26\n";
        assert_eq!(text_of(ASK, 1), lines);
        let chosen = "Chosen: model 2, at a cost of 300 microunits, with a utility of 6200 microunits.\n";
        let words = "Model 1 is outranked by model 2: its utility of 5200 microunits is below 6200.\n\
                     Price alone: it must fall by 55.7 percent or more; exactly, by 55.6667 percent, to 44.3333 percent of today's, \
                     where the request costs 798 microunits.\n";
        assert_eq!(text_of(WORDS, 1), [chosen, words].concat());
        let already = "Model 2 is chosen already.\nPrice alone: not searched, since the model is chosen already.\n";
        assert_eq!(text_of(WORDS, 2), [chosen, already].concat());
        assert_eq!(text_of(WORDS, 3), "refused 5\nModel 3 is not listed.\n");
    }

    #[test]
    fn the_worked_rows_have_their_reasons() {
        let decisions = rows().map(|setting| CALLS[PRESCRIBE].owed_on(&setting.case(1)).out);
        assert_eq!(
            decisions.each_ref().map(|bytes| u16::from_le_bytes([bytes[9], bytes[10]])),
            [2, 100, 110, 101, 109, 1, 102, 102, 106, 109]
        );
        assert_eq!(decisions[5][17], 2, "one token each way at price 1");
    }

    fn written() -> Vec<u8> {
        let mut bytes = Vec::new();
        entries().iter().for_each(|entry| entry.write(&mut bytes));
        bytes
    }

    #[test]
    fn the_list_is_the_same_each_time_and_small() {
        assert_eq!(written(), written());
        assert!(written().len() <= MOST_BYTES);
        for Entry { call, case } in entries() {
            let ask = CALLS[call].ask(&case);
            assert!(ask.list_room <= MOST_ROOM || !CALLS[call].takes.contains(&Handed::List));
            assert!(ask.room <= MOST_ROOM);
        }
    }

    /// The list's own bytes, read as the table above says.
    #[test]
    fn the_list_has_every_call_and_every_teller() {
        let bytes = written();
        let (mut at, mut calls, mut tellers) = (0, [0; CALLS.len() + 1], [0; 4]);
        while at < bytes.len() {
            tellers[usize::from(bytes[at])] += 1;
            calls[usize::from(bytes[at + 1])] += 1;
            let lengths = bytes[at + 10..at + 20].chunks(2).map(|two| usize::from(two[0]) + 256 * usize::from(two[1]));
            let policy = lengths.clone().next().expect("the first of five");
            at += 28 + policy + lengths.sum::<usize>();
        }
        assert_eq!(at, bytes.len());
        assert!(tellers[0] == 0 && tellers[1..].iter().all(|times| *times > 80), "{tellers:?}");
        assert!(calls[0] == 0 && calls[1..].iter().all(|times| *times > 5), "{calls:?}");
    }
}
