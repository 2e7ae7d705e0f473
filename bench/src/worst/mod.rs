//! For each exported call the input that is believed to take longest, beside rivals that were tried and lost, and how many instructions each takes.
//! docs/WORST-CASES.md says why.
pub mod drawn;
mod inputs;
mod listed;
mod report;
mod rows;

use crate::clock::{now, Side};
use crate::counts::bench_counted;
use crate::lent::{address, call_at, Lent, ARGUMENTS, VERSION};
use compare::calls::{self, Call, Handed};
use compare::case::Case;
use std::hint::black_box;

use listed::WORST;
pub use report::{print, Totals};

type Make = fn(usize) -> Case;

/// A call, the most records that it takes, and its inputs, the one believed to be the worst first.
pub struct Worst {
    call: usize,
    most: usize,
    inputs: &'static [(&'static str, Make)],
}

/// The unit's number of models, and two parts of it by which the law is found.
const UNIT: usize = 900;
/// Records with which an answer is held against what is owed.
const FEW: usize = 22;
const PARTS: [usize; 2] = [225, 450];
/// Of a call that takes no more time for more records.
const ANY: usize = 1;

impl Worst {
    fn call(&self) -> &'static Call {
        call_at(self.call)
    }

    /// The sizes at which one of its inputs is counted. Where the largest takes minutes, it is left out: `whole` has it for the first input.
    fn sizes(&self, input: usize, whole: bool) -> Vec<usize> {
        let mut sizes: Vec<usize> = match self.most {
            ANY => vec![ANY],
            _ => PARTS.into_iter().chain([UNIT]).collect(),
        };
        if self.most > UNIT && (!self.is_long() || (whole && input == 0)) {
            sizes.push(self.most);
        }
        sizes
    }

    /// It grows with the square of its records, or decides many times over them.
    fn is_long(&self) -> bool {
        [calls::VALIDATE, calls::TRUST, calls::BATCH, calls::BATCH_CHECKED].contains(&self.call)
    }
}

type Exported = extern "C" fn(usize, usize, usize, usize, usize, usize, usize, usize, usize, usize) -> u64;

// A function of one instruction, its return: what the driver itself takes is found by it.
std::arch::global_asm!(
    ".pushsection .text.bench_nothing,\"ax\",@progbits",
    ".globl bench_nothing",
    "bench_nothing: ret",
    ".popsection"
);

extern "C" {
    fn bench_nothing();
}

fn invoke(function: usize, a: &[usize; ARGUMENTS]) -> u64 {
    // Every argument of an exported function is a number or an address, and a caller that hands over more than it takes does no harm.
    let function: Exported = unsafe { std::mem::transmute(function) };
    function(a[0], a[1], a[2], a[3], a[4], a[5], a[6], a[7], a[8], a[9])
}

fn run(function: usize, arguments: &[usize; ARGUMENTS]) {
    let mut side: Side = Box::new(|| {
        black_box(invoke(black_box(function), black_box(arguments)));
    });
    bench_counted(&mut side);
}

/// Runs a function on a case as a call takes it.
fn run_on(function: usize, call: &Call, case: &Case) {
    let mut lent = Lent::of(call, case);
    run(function, &lent.arguments(call));
}

/// Under callgrind: a run of nothing first, then each input of each call at its sizes. A line for each.
pub fn count(only: &str, whole: bool) {
    run(bench_nothing as *const () as usize, &[0; ARGUMENTS]);
    println!("-\tnothing\t0");
    for worst in WORST.iter().filter(|w| w.call().name.starts_with(only)) {
        for (at, (name, make)) in worst.inputs.iter().enumerate() {
            for size in worst.sizes(at, whole) {
                run_on(address(worst.call()), worst.call(), &make(size));
                println!("{}\t{name}\t{size}", worst.call().name);
            }
        }
    }
}

/// The header's three numbers as one.
fn header_version() -> u64 {
    let part = |name: &str| -> u64 {
        let start = format!("#define VOLANKIZO_VERSION_{name} ");
        let line = include_str!("../../../include/volankizo.h").lines().find_map(|line| line.strip_prefix(&start));
        line.and_then(|number| number.trim().parse().ok()).expect("the header tells its version")
    };
    1_000_000 * part("MAJOR") + 1_000 * part("MINOR") + part("PATCH")
}

/// Ends the program where the library doesn't answer an input as the comparison says that it owes, with few records; or with the unit's in another way
/// than with few.
pub fn check() {
    for worst in &WORST {
        let call = worst.call();
        for (name, make) in worst.inputs {
            let (few, many) = (make(FEW.min(worst.most)), make(UNIT.min(worst.most)));
            let mut lent = Lent::of(call, &few);
            let word = invoke(address(call), &lent.arguments(call));
            let with_many = invoke(address(call), &Lent::of(call, &many).arguments(call));
            assert_eq!(word % 256, with_many % 256, "{}: {name}: another refusal with more records", call.name);
            let case = few;
            if worst.call == VERSION {
                assert_eq!(word, header_version(), "the library's version is the header's");
                continue;
            }
            let owed = if call.takes.contains(&Handed::Requests) {
                rows::owed(worst.call, &case)
            } else {
                call.owed_on(&case)
            };
            let starts = |bytes: &[u8], owed: &[u8]| bytes[..owed.len()] == *owed;
            assert!(word == owed.word() && starts(lent.out(), &owed.out), "{}: {name}: not as owed", call.name);
            assert!(
                starts(lent.bank(), &owed.bank) && starts(lent.policy(), &owed.policy),
                "{}: {name}: not as owed",
                call.name
            );
            let read_alone = call.takes.contains(&Handed::Listed);
            assert!(read_alone || starts(lent.list(), &owed.list), "{}: {name}: not as owed", call.name);
        }
    }
}

/// How long the worst input of each call takes with the unit's records and with the most, in thousandths of a second: a line for each call.
pub fn times(only: &str) {
    println!("| Call | 900, ms | Most, ms |");
    println!("|---|---|---|");
    for worst in WORST.iter().filter(|w| w.call().name.starts_with(only) && w.most != ANY) {
        let took = |size: usize| {
            let mut lent = Lent::of(worst.call(), &(worst.inputs[0].1)(size));
            let (arguments, start) = (lent.arguments(worst.call()), now());
            black_box(invoke(address(worst.call()), &arguments));
            (now() - start) / 1e6
        };
        println!("| `volankizo_{}` | {:.3} | {:.3} |", worst.call().name, took(UNIT.min(worst.most)), took(worst.most));
    }
}

/// The passes that an answer of a search tells, by call and number of records.
pub fn passes() {
    for (call, records) in
        [(calls::WIN, UNIT), (calls::MARGIN, UNIT), (calls::LIVE_WIN, UNIT), (calls::LIVE_MARGIN, UNIT)]
    {
        let worst = WORST.iter().find(|w| w.call == call).expect("every call is listed");
        for (name, make) in worst.inputs {
            let mut lent = Lent::of(worst.call(), &make(records));
            let word = invoke(address(worst.call()), &lent.arguments(worst.call()));
            let out = lent.out();
            let passes = u64::from_le_bytes(out[71..79].try_into().expect("eight bytes"));
            println!("{}\t{name}\tword {word}\tlevers {}\tpasses {passes}", worst.call().name, out[70]);
        }
    }
}
