//! The library, asked through the program that calls it (`answer/answer.c`): the archive is for x86-64 alone, and a fault in it must
//! not end the comparison.
use crate::calls::next_eligible::list_to_read;
use crate::calls::prescribe_batch::{count, row};
use crate::calls::{Call, Handed};
use crate::case::Ask;
use std::io::{self, BufReader, Read, Write};
use std::ops::Range;
use std::process::{Child, ChildStdin, ChildStdout, Command, Stdio};

const NAME: usize = 32;
const MOST_ARGUMENTS: usize = 12;
/// A question without its memory.
const HEADER: usize = NAME + MOST_ARGUMENTS * 16 + 8;

/// Bytes that nobody may write, before everything lent and so on either side of what may be written.
const GUARD: usize = 24;

/// The order in which things stand in memory, as far as a call takes them: what may be written first, then what is read, so that a step
/// past the end of a bank, a list or a form that is read is a fault.
const ORDER: [Handed; 9] = [
    Handed::Out,
    Handed::List,
    Handed::Policy,
    Handed::Request,
    Handed::Requests,
    Handed::Bank,
    Handed::Listed,
    Handed::Form,
    Handed::Record,
];

/// What the program is lent in one piece, each part after a guard. Nothing follows the last.
#[derive(Clone, PartialEq)]
pub struct Memory {
    pub bytes: Vec<u8>,
    lent: Vec<(Handed, Range<usize>)>,
}

impl Memory {
    pub fn new(call: &Call, ask: &Ask) -> Self {
        let mut memory = Memory { bytes: Vec::new(), lent: Vec::new() };
        for handed in ORDER.into_iter().filter(|handed| call.takes.contains(handed)) {
            memory.fill(GUARD);
            let start = memory.bytes.len();
            match handed {
                Handed::Out => memory.fill(ask.room),
                Handed::List => memory.fill(ask.list_room),
                Handed::Policy => memory.bytes.extend(ask.policy),
                Handed::Request => memory.bytes.extend(ask.request),
                Handed::Requests => memory.bytes.extend(row(ask)),
                Handed::Bank => memory.bytes.extend(ask.bank),
                Handed::Record => memory.bytes.extend(ask.record),
                Handed::Listed => memory.bytes.extend(list_to_read(ask)),
                Handed::Form => memory.bytes.extend(&ask.form),
                Handed::Id | Handed::Place | Handed::Count => unreachable!("a number stands nowhere"),
            }
            memory.lent.push((handed, start..memory.bytes.len()));
        }
        memory
    }

    /// A pattern, so that bytes that stay as they were can be told from bytes written.
    fn fill(&mut self, bytes: usize) {
        let start = self.bytes.len();
        self.bytes.extend((start..start + bytes).map(|at| (at * 29 + 165) as u8));
    }

    fn range(&self, handed: Handed) -> Option<Range<usize>> {
        self.lent.iter().find(|(lent, _)| *lent == handed).map(|(_, range)| range.clone())
    }

    /// The bytes of one thing, none where it isn't lent.
    pub fn part(&self, handed: Handed) -> &[u8] {
        self.range(handed).map_or(&[], |range| &self.bytes[range])
    }

    /// The same things lent, with other bytes.
    pub fn with(&self, bytes: Vec<u8>) -> Self {
        Memory { bytes, lent: self.lent.clone() }
    }

    /// Writes to the start of one thing.
    pub fn write(&mut self, handed: Handed, bytes: &[u8]) {
        if bytes.is_empty() {
            return;
        }
        let start = self.range(handed).expect("only what is lent is written").start;
        self.bytes[start..start + bytes.len()].copy_from_slice(bytes);
    }

    /// Where a byte stands: its offset from the start of the last thing lent before it. Below 0 and past the end it is a guard's.
    pub fn place(&self, at: usize) -> String {
        let near = self.lent.iter().rev().find(|(_, range)| range.start <= at).or(self.lent.first());
        near.map_or(at.to_string(), |(handed, range)| format!("{handed:?} {}", at as i64 - range.start as i64))
    }

    /// What one thing handed over is to the program: pairs of "is an offset into the memory" and a number.
    fn arguments(&self, handed: Handed, ask: &Ask) -> Vec<(u64, u64)> {
        match handed {
            // A u32 is the lower half of its register: what the upper half holds must not matter.
            Handed::Id => vec![(0, u64::from(ask.id) | 0xa5a5_a5a5 << 32)],
            Handed::Place => vec![(0, ask.place)],
            Handed::Count => vec![(0, count(ask))],
            _ => {
                let range = self.range(handed).expect("lent, since it is taken");
                vec![(1, range.start as u64), (0, range.len() as u64)]
            }
        }
    }

    /// What the program is sent for a call.
    pub fn question(&self, call: &Call, ask: &Ask) -> Vec<u8> {
        let mut question = Vec::with_capacity(HEADER + self.bytes.len());
        question.extend(call.name.as_bytes());
        question.resize(NAME, 0);
        let mut arguments: Vec<(u64, u64)> =
            call.takes.iter().flat_map(|handed| self.arguments(*handed, ask)).collect();
        assert!(call.name.len() < NAME && arguments.len() <= MOST_ARGUMENTS);
        arguments.resize(MOST_ARGUMENTS, (0, 0));
        for (is_offset, number) in arguments {
            question.extend(is_offset.to_le_bytes());
            question.extend(number.to_le_bytes());
        }
        question.extend((self.bytes.len() as u64).to_le_bytes());
        question.extend(&self.bytes);
        question
    }
}

/// The program; it is started again after it ended on a question.
pub struct Library {
    command: Vec<String>,
    running: Option<Running>,
}

struct Running {
    child: Child,
    questions: ChildStdin,
    answers: ChildStdout,
}

/// The word that came back, and the memory after the call.
pub type Given = (u64, Vec<u8>);

/// The most bytes of answers to questions that are sent together: less than a pipe holds, so that the program never waits for us to read
/// while we wait for it to read.
pub const TOGETHER: usize = 40_000;

/// The bytes of an answer.
pub fn answer_bytes(memory: &Memory) -> usize {
    8 + memory.bytes.len()
}

impl Library {
    pub fn start(command: Vec<String>) -> Result<Self, String> {
        let running = Some(run(&command)?);
        Ok(Library { command, running })
    }

    /// Sends the questions together, with the memory of each. What came back, one after the other; and how the program ended, where it
    /// did so before the last answer. It may then have ended on any question that has no answer.
    pub fn ask(&mut self, questions: &[(&[u8], &Memory)]) -> (Vec<Given>, Result<(), String>) {
        let mut running = match self.running.take().map_or_else(|| run(&self.command), Ok) {
            Ok(running) => running,
            Err(why) => return (Vec::new(), Err(why)),
        };
        let mut given = Vec::new();
        match put_and_take(&mut running, questions, &mut given) {
            Ok(()) => {
                self.running = Some(running);
                (given, Ok(()))
            }
            Err(error) => (given, Err(ended(running, &error))),
        }
    }
}

fn run(command: &[String]) -> Result<Running, String> {
    let mut child = Command::new(&command[0])
        .args(&command[1..])
        .stdin(Stdio::piped())
        .stdout(Stdio::piped())
        .spawn()
        .map_err(|error| format!("{}: {error}", command[0]))?;
    let (questions, answers) = (child.stdin.take().expect("piped"), child.stdout.take().expect("piped"));
    Ok(Running { child, questions, answers })
}

/// Without input it ends by itself, if it hasn't yet.
fn ended(mut running: Running, error: &io::Error) -> String {
    drop((running.questions, running.answers));
    let status = running.child.wait().map_or_else(|error| error.to_string(), |status| status.to_string());
    format!("the program that calls the library ended: {status} ({error})")
}

fn put_and_take(running: &mut Running, questions: &[(&[u8], &Memory)], given: &mut Vec<Given>) -> io::Result<()> {
    let sent: Vec<&[u8]> = questions.iter().map(|(question, _)| *question).collect();
    running.questions.write_all(&sent.concat())?;
    let mut answers = BufReader::with_capacity(TOGETHER, &mut running.answers);
    for (_, memory) in questions {
        let mut word = [0; 8];
        answers.read_exact(&mut word)?;
        let mut after = vec![0; memory.bytes.len()];
        answers.read_exact(&mut after)?;
        given.push((u64::from_le_bytes(word), after));
    }
    Ok(())
}
