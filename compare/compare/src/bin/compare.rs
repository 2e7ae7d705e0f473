//! `compare [--short] [--seed N] [--count N] [--from N] -- PROGRAM [WORD..]`: every call on the cases of the small spaces and on random ones,
//! so many decisions as `count` says and the other sets by their share of it, all rounding apart; then half as many of each set, rounding either
//! way, and as many with an allowance. The library against the Rust and the second reading. PROGRAM calls the library (`answer/answer.c`), with the emulator before it where one
//! is needed. Ends with 1 at the first difference.
use compare::calls::{
    Disagreement, CALLS, CHECKED, EXPLAIN, LIVE_CHECKED, LIVE_EXPLAIN, LIVE_MARGIN, LIVE_PRESCRIBE, LIVE_WIN, MARGIN,
    PRESCRIBE, WIN,
};
use compare::case::Case;
use compare::figures::{Figures, Table, SEARCHED};
use compare::generate::{Asked, Draw, Policies, Space, DRAWS, SPACES};
use compare::library::Library;
use compare::second::bytes::{models_of, policy_of, request_of, RECORD_BYTES, REQUEST_BYTES};
use compare::second::refusals;
use compare::versus::{differs, reduced, Batch, Difference, Named, Owing};
use std::env;
use std::process::exit;
use std::rc::Rc;
use std::time::{Duration, Instant};

const SEED: u64 = 1;
const COUNT: u64 = 1_000_000;
/// The count of a short run, which leaves the longest spaces out.
const SHORT: u64 = 100_000;
const USAGE: &str = "usage: compare [--short] [--seed N] [--count N] [--from N] -- PROGRAM [WORD..]";

struct Wanted {
    short: bool,
    seed: u64,
    count: u64,
    /// The number of the first random case, to ask one again.
    from: u64,
    program: Vec<String>,
}

/// The library, what waits to be asked of it, and how far the run is.
struct Run {
    library: Library,
    batch: Batch,
    calls: u64,
    started: Instant,
    shown: Instant,
}

fn main() {
    let wanted = wanted().unwrap_or_else(|why| {
        eprintln!("compare: {why}\n{USAGE}");
        exit(2)
    });
    let library = Library::start(wanted.program.clone()).unwrap_or_else(|why| {
        eprintln!("compare: {why}");
        exit(2)
    });
    let (started, short) = (Instant::now(), if wanted.short { ", a short run" } else { "" });
    let mut run = Run { library, batch: Batch::default(), calls: 0, started, shown: started };
    let decisions = Policies::EACH.map(|policies| format!("{} {policies}", DRAWS[0].count(policies, wanted.count)));
    println!("seed {}, random decisions: {}, from number {}{short}", wanted.seed, decisions.join(", "), wanted.from);
    let small = small_spaces(&mut run, wanted.short);
    let [apart, both, allowing] = Policies::EACH.map(|policies| random_cases(&mut run, &wanted, policies));
    let random = [("random, apart", &apart), ("random, either way", &both), ("random, allowing", &allowing)];
    print!("{}", Table(&[&[("small spaces", &small)], &random[..]].concat()));
    run.close(&[small, apart, both, allowing]);
}

fn wanted() -> Result<Wanted, String> {
    let mut wanted = Wanted { short: false, seed: SEED, count: 0, from: 0, program: Vec::new() };
    let mut count = None;
    let mut arguments = env::args().skip(1);
    while let Some(name) = arguments.next() {
        match name.as_str() {
            "--" => wanted.program = arguments.by_ref().collect(),
            "--short" => wanted.short = true,
            "--seed" => wanted.seed = number(&name, arguments.next())?,
            "--count" => count = Some(number(&name, arguments.next())?),
            "--from" => wanted.from = number(&name, arguments.next())?,
            _ => return Err(format!("{name} is not known")),
        }
    }
    wanted.count = count.unwrap_or(if wanted.short { SHORT } else { COUNT });
    if wanted.program.is_empty() {
        return Err("no program that calls the library".into());
    }
    // A run of no cases would end well and say nothing.
    if wanted.count == 0 {
        return Err("--count 0 compares nothing".into());
    }
    Ok(wanted)
}

/// The number that stands after a name.
fn number(name: &str, word: Option<String>) -> Result<u64, String> {
    let word = word.filter(|word| word != "--").ok_or(format!("{name} needs a number"))?;
    word.parse().map_err(|_| format!("{name} {word}: not a number"))
}

fn small_spaces(run: &mut Run, short: bool) -> Figures {
    let mut figures = Figures::default();
    let wanted = |space: &&Space| !(short && space.long);
    for space in SPACES.iter().filter(wanted) {
        let mut cases = 0;
        (space.each)(&mut |case| {
            let name = format!("case {cases} of the small spaces, {}", space.name);
            run.ask(&mut figures, &space.asked, case, name);
            cases += 1;
        });
        run.settle();
        run.show(&format!("small spaces, {}: {cases} cases", space.name));
    }
    figures
}

fn random_cases(run: &mut Run, wanted: &Wanted, policies: Policies) -> Figures {
    let mut figures = Figures::default();
    for draws in &DRAWS {
        let (set, count) = (format!("{}, {policies}", draws.name), draws.count(policies, wanted.count));
        for number in wanted.from..wanted.from + count {
            let name = format!("{set}, case {number} of seed {}", wanted.seed);
            run.ask(&mut figures, &draws.asked, (draws.case)(Draw::of(policies, wanted.seed, number)), name);
            if run.shown.elapsed() > PAUSE {
                run.show(&format!("{set}: {} of {count} cases", number + 1 - wanted.from));
            }
        }
        run.settle();
        run.show(&format!("{set}: {count} of {count} cases"));
    }
    figures
}

/// How long it may be until the next line.
const PAUSE: Duration = Duration::from_secs(20);

impl Run {
    /// Asks the calls of a set, notes what is owed, and ends the run at a difference.
    fn ask(&mut self, figures: &mut Figures, asked: &Asked, case: Case, name: String) {
        let named = Rc::new(Named { case, name });
        for (at, call) in CALLS.iter().enumerate().filter(|(at, _)| asked.asks(*at, &named.case)) {
            let ask = call.ask(&named.case);
            let owed = call.judged(&ask).unwrap_or_else(|apart| end_apart(at, &named, &apart));
            figures.note(at, &named.case, &owed);
            self.calls += 1;
            let found = self.batch.put(&mut self.library, Owing::new(at, &named, &ask, &owed));
            self.end_at(found);
        }
    }

    /// Asks what still waits.
    fn settle(&mut self) {
        let found = self.batch.settle(&mut self.library);
        self.end_at(found);
    }

    fn end_at(&mut self, found: Option<(Owing, Difference)>) {
        if let Some((owing, difference)) = found {
            show(&mut self.library, &owing, &difference);
            exit(1);
        }
    }

    fn show(&mut self, what: &str) {
        println!("{what}; {} calls so far, {} s, 0 differences", self.calls, self.started.elapsed().as_secs());
        self.shown = Instant::now();
    }

    /// The last line: how often each call was asked.
    fn close(&self, sets: &[Figures]) {
        let asked = |call: usize| -> u64 { sets.iter().map(|set| set.asked[call]).sum() };
        let of_each: Vec<String> =
            CALLS.iter().enumerate().map(|(at, call)| format!("{} {}", call.name, asked(at))).collect();
        let searches = |call: usize| sets.iter().filter_map(move |set| set.found.get(&(call, SEARCHED.into())));
        let searched: u64 = [WIN, MARGIN, LIVE_WIN, LIVE_MARGIN].into_iter().flat_map(searches).sum();
        let decisions = [PRESCRIBE, CHECKED, EXPLAIN, LIVE_PRESCRIBE, LIVE_CHECKED, LIVE_EXPLAIN];
        let decisions: u64 = decisions.into_iter().map(asked).sum();
        println!("{}", of_each.join(", "));
        println!(
            "{} calls, {decisions} of them decisions and {searched} boundary searches of more than 2 passes, in {} s: 0 differences",
            self.calls,
            self.started.elapsed().as_secs()
        );
    }
}

/// The library's answer isn't the one owed.
fn show(library: &mut Library, owing: &Owing, difference: &Difference) {
    let (call, Named { case, name }) = (owing.call, &*owing.named);
    println!("DIFFERENCE in {}, {name}\n{case}\n{difference}", CALLS[call].name);
    let small = reduced(case, |trial| differs(library, call, trial).is_some());
    if small.bank.len() < case.bank.len() {
        let difference = differs(library, call, &small).expect("reduced while it differs");
        println!("the same call on fewer records:\n{small}\n{difference}");
    }
    show_fields(&small);
}

/// The Rust and the second reading part, so that nobody can say what is owed.
fn end_apart(call: usize, named: &Named, apart: &Disagreement) -> ! {
    let (call, Named { case, name }) = (&CALLS[call], named);
    println!("DIFFERENCE between the Rust and the second reading in {}, {name}\n{case}\n{apart}", call.name);
    let parted = |case: &Case| call.judged(&call.ask(case)).err();
    let small = reduced(case, |trial| parted(trial).is_some());
    if small.bank.len() < case.bank.len() {
        let apart = parted(&small).expect("reduced while they part");
        println!("the same call on fewer records:\n{small}\n{apart}");
    }
    show_fields(&small);
    exit(1)
}

/// The inputs read as fields, where their lengths allow it and they aren't too many to look at.
fn show_fields(case: &Case) {
    if refusals::policy(&case.policy).is_ok() {
        println!("{:?}", policy_of(&case.policy));
    }
    if case.request.len() == REQUEST_BYTES {
        println!("{:?}", request_of(&case.request));
    }
    if case.bank.len().is_multiple_of(RECORD_BYTES) && case.bank.len() <= 8 * RECORD_BYTES {
        models_of(&case.bank).iter().for_each(|model| println!("{model:?}"));
    }
}
