//! Cases put to the library, and what it hands back and leaves in memory held against what it owes.
use crate::calls::{Answer, Handed, CALLS};
use crate::case::{hex, Ask, Case};
use crate::library::{answer_bytes, Library, Memory, TOGETHER};
use crate::second::bytes::RECORD_BYTES;
use std::fmt;
use std::rc::Rc;

/// A case with its name, which says how to find it again.
pub struct Named {
    pub case: Case,
    pub name: String,
}

/// One call on one case, and what is owed for it: the word, and every byte that the call could reach.
pub struct Owing {
    /// A place in `CALLS`.
    pub call: usize,
    pub named: Rc<Named>,
    question: Vec<u8>,
    word: u64,
    after: Memory,
}

impl Owing {
    /// What is owed goes to the front of each thing lent and leaves the rest.
    pub fn new(call: usize, named: &Rc<Named>, ask: &Ask, owed: &Answer) -> Self {
        let mut after = Memory::new(&CALLS[call], ask);
        let question = after.question(&CALLS[call], ask);
        after.write(Handed::Out, &owed.out);
        after.write(Handed::List, &owed.list);
        after.write(Handed::Policy, &owed.policy);
        after.write(Handed::Bank, &owed.bank);
        Owing { call, named: named.clone(), question, word: owed.word(), after }
    }

    /// The call asked alone.
    fn differs(&self, library: &mut Library) -> Option<Difference> {
        let (given, ended) = library.ask(&[(&self.question, &self.after)]);
        match given.into_iter().next() {
            Some((word, bytes)) if word == self.word && bytes == self.after.bytes => None,
            Some((word, bytes)) => Some(self.difference(Ok((word, bytes)))),
            None => Some(self.difference(Err(ended.expect_err("no answer")))),
        }
    }

    fn difference(&self, given: Result<(u64, Vec<u8>), String>) -> Difference {
        let given = given.map(|(word, bytes)| (word, self.after.with(bytes)));
        Difference { owed: (self.word, self.after.clone()), given }
    }
}

/// Calls that wait to be asked together.
#[derive(Default)]
pub struct Batch {
    waiting: Vec<Owing>,
    bytes: usize,
}

impl Batch {
    /// One more, and the first difference among those that waited, once there are enough.
    pub fn put(&mut self, library: &mut Library, owing: Owing) -> Option<(Owing, Difference)> {
        let more = answer_bytes(&owing.after);
        if self.bytes + more > TOGETHER {
            let found = self.settle(library);
            if found.is_some() {
                return found;
            }
        }
        self.waiting.push(owing);
        self.bytes += more;
        None
    }

    /// Asks all that wait.
    pub fn settle(&mut self, library: &mut Library) -> Option<(Owing, Difference)> {
        let waiting = std::mem::take(self).waiting;
        if waiting.is_empty() {
            return None;
        }
        let questions: Vec<_> = waiting.iter().map(|owing| (&owing.question[..], &owing.after)).collect();
        let (given, ended) = library.ask(&questions);
        let answered = given.len();
        let owed = waiting.iter().zip(given);
        let wrong =
            owed.into_iter().position(|(owing, (word, bytes))| (word, &bytes) != (owing.word, &owing.after.bytes));
        match (wrong, ended) {
            (Some(at), _) => difference_at(library, waiting, at),
            (None, Err(why)) => ended_among(library, waiting, answered, &why),
            (None, Ok(())) => None,
        }
    }
}

/// A wrong answer, asked for once more alone.
fn difference_at(library: &mut Library, waiting: Vec<Owing>, at: usize) -> Option<(Owing, Difference)> {
    let owing = waiting.into_iter().nth(at)?;
    let alone = owing.differs(library);
    let difference = alone.unwrap_or_else(|| owing.difference(Err("wrong among others, and not alone".into())));
    Some((owing, difference))
}

/// The program ended on some question from this one on: the first that ends it alone.
fn ended_among(library: &mut Library, waiting: Vec<Owing>, from: usize, why: &str) -> Option<(Owing, Difference)> {
    let mut unclear = None;
    for owing in waiting.into_iter().skip(from) {
        match owing.differs(library) {
            Some(difference) => return Some((owing, difference)),
            None => unclear = unclear.or(Some(owing)),
        }
    }
    unclear.map(|owing| {
        let difference = owing.difference(Err(format!("{why}, with this question or one after it, and on none alone")));
        (owing, difference)
    })
}

/// What came back for a case asked alone, where it isn't what is owed.
pub fn differs(library: &mut Library, call: usize, case: &Case) -> Option<Difference> {
    let named = Rc::new(Named { case: case.clone(), name: String::new() });
    let ask = CALLS[call].ask(&named.case);
    Owing::new(call, &named, &ask, &CALLS[call].owed(&ask)).differs(library)
}

pub struct Difference {
    owed: (u64, Memory),
    given: Result<(u64, Memory), String>,
}

impl fmt::Display for Difference {
    fn fmt(&self, f: &mut fmt::Formatter<'_>) -> fmt::Result {
        let (word, owed) = &self.owed;
        writeln!(f, "owed   {} out {}", told(*word), hex(owed.part(Handed::Out)))?;
        match &self.given {
            Err(ended) => write!(f, "given  {ended}"),
            Ok((word, given)) => {
                write!(f, "given  {} out {}", told(*word), hex(given.part(Handed::Out)))?;
                let changes = changes(owed, given);
                match changes.is_empty() {
                    true => Ok(()),
                    false => write!(f, "\nbytes  {}", changes.join(", ")),
                }
            }
        }
    }
}

/// A list or a bank in disorder may differ in every byte.
const MOST_SHOWN: usize = 200;

/// The bytes that differ, by where they stand.
fn changes(owed: &Memory, given: &Memory) -> Vec<String> {
    let pairs = owed.bytes.iter().zip(&given.bytes).enumerate().filter(|(_, (owed, given))| owed != given);
    let mut shown: Vec<String> = pairs
        .clone()
        .take(MOST_SHOWN)
        .map(|(at, (o, g))| format!("{} is {g:02x}, not {o:02x}", owed.place(at)))
        .collect();
    match pairs.count() - shown.len() {
        0 => {}
        more => shown.push(format!("and {more} more")),
    }
    shown
}

fn told(word: u64) -> String {
    let (number, field, value, id_or_place) = (word & 0xff, word >> 8 & 0xff, word >> 16 & 0xffff, word >> 32);
    match word {
        0 => "answered".to_string(),
        _ => format!("refused {number} (field {field}, value {value}, id or place {id_or_place})"),
    }
}

/// A large bank may take minutes to reduce; the difference is shown either way.
const MOST_TRIES: usize = 2_000;

/// The case with as many records left out as can be while it still differs.
pub fn reduced(case: &Case, mut differs: impl FnMut(&Case) -> bool) -> Case {
    let mut small = case.clone();
    let mut step = (case.bank.len() / RECORD_BYTES).div_ceil(2);
    let mut tries = 0;
    while step > 0 {
        let mut at = 0;
        while at + RECORD_BYTES <= small.bank.len() && tries < MOST_TRIES {
            tries += 1;
            let mut trial = small.clone();
            trial.bank.drain(at..small.bank.len().min(at + step * RECORD_BYTES));
            if differs(&trial) {
                small = trial;
            } else {
                at += step * RECORD_BYTES;
            }
        }
        step /= 2;
    }
    small
}
