//! Tables of long lists, against the library asked about the whole list, and how a table is ordered and written.
mod common;
use common::{random_list, random_request, Dice, Folder};
use desk::table::{lines, Line, Wins};
use volankizo::{decision_margin, what_would_win, CandidateVerdict, Lever, Requirement};

/// The chosen model and the one asked about have the levers that the whole list has, whoever else is in it.
#[test]
fn levers_of_a_pair_are_those_of_the_list() {
    let (mut dice, mut chosen, mut levers) = (Dice::new(11), 0, 0);
    for _ in 0..80 {
        let (count, input) = (1 + dice.below(40) as usize, random_request(&mut dice));
        let desk = random_list(count, &mut dice);
        let told = desk.explain(input).expect("an explanation");
        for (place, named) in desk.models.models.iter().enumerate() {
            let whole = what_would_win(&desk.policy.policy, &desk.bank, input, named.model.model_id).expect("levers");
            let pair = desk.levers_to_win(input, &told.decision, place).expect("levers");
            assert_eq!(pair, whole.levers, "{input:?}, place {place} of {count}");
            levers += pair.len();
        }
        chosen += usize::from(desk.chosen(&told.decision).is_some());
    }
    // The requests are of all kinds, or the comparison would say little.
    assert!((15..55).contains(&chosen) && levers > 200, "{chosen} requests were served, {levers} levers found");
}

fn setting(levers: &[Requirement], wanted: Lever, none: Wins) -> Wins {
    levers.iter().find(|found| found.lever == wanted).map_or(none, |found| Wins::At(found.boundary))
}

/// Every 37th line of a list of 900, asked of the library one by one, and the chosen one.
#[test]
fn a_list_of_900() {
    let mut dice = Dice::new(2026);
    let desk = random_list(900, &mut dice);
    let input = desk.requests.requests[0].input;
    let told = desk.explain(input).expect("an explanation");
    let table = lines(&desk, input, &told).expect("a table");
    assert_eq!(table.len(), 900);
    let chosen = desk.chosen(&told.decision).expect("a choice");
    for place in (0..900).step_by(37).filter(|place| *place != chosen) {
        let id = desk.models.models[place].model.model_id;
        let whole = what_would_win(&desk.policy.policy, &desk.bank, input, id).expect("levers").levers;
        is_told(&table[place], &told.candidates[place].verdict, &whole, Wins::Never);
    }
    let margin = decision_margin(&desk.policy.policy, &desk.bank, input).expect("a margin").levers;
    is_told(&table[chosen], &told.candidates[chosen].verdict, &margin, Wins::Always);
    assert_eq!((table[chosen].verdict, table.iter().filter(|line| line.verdict == "chosen").count()), ("chosen", 1));
}

fn is_told(line: &Line, verdict: &CandidateVerdict, levers: &[Requirement], none: Wins) {
    let (cost, utility) = match verdict {
        CandidateVerdict::Rejected { .. } => (None, None),
        CandidateVerdict::OverBudget { cost_microunits, .. } => (Some(*cost_microunits), None),
        CandidateVerdict::NonPositiveUtility(terms) | CandidateVerdict::Eligible(terms) => {
            (Some(terms.cost_microunits), Some(terms.utility))
        }
    };
    assert_eq!((line.cost, line.utility), (cost, utility), "{line:?}");
    assert_eq!(line.price, setting(levers, Lever::PriceScalePpm, none), "{line:?}");
    assert_eq!(line.quality, setting(levers, Lever::QualityBps, none), "{line:?}");
    assert_eq!(line.latency, setting(levers, Lever::P95LatencyMs, none), "{line:?}");
}

/// At the settings that a table tells the model is the choice, and one step further it isn't.
#[test]
fn settings_are_exact() {
    let tried: usize = (5..11).map(settings_tried).sum();
    assert!(tried > 120, "{tried} settings were tried");
}

/// How many settings a list by these dice has, each of which is tried.
fn settings_tried(seed: u64) -> usize {
    let mut dice = Dice::new(seed);
    let desk = random_list(80, &mut dice);
    let input = desk.requests.requests[0].input;
    let told = desk.explain(input).expect("an explanation");
    let mut tried = 0;
    for line in lines(&desk, input, &told).expect("a table") {
        let chosen_with = |change: &dyn Fn(&mut volankizo::KernelModel)| {
            let mut models: Vec<_> = desk.models.models.iter().map(|named| named.model).collect();
            change(&mut models[line.place]);
            let bank: volankizo::Bank = models.into_iter().collect();
            desk.policy.policy.prescribe(&bank, input).expect("a decision").selected_model_index == line.place as u16
        };
        if let Wins::At(quality) = line.quality {
            assert!(chosen_with(&|model| model.quality_bps = quality as u16), "{line:?}");
            assert!(quality == 0 || !chosen_with(&|model| model.quality_bps = quality as u16 - 1), "{line:?}");
            tried += 1;
        }
        if let Wins::At(latency) = line.latency {
            assert!(chosen_with(&|model| model.p95_latency_ms = latency as u32), "{line:?}");
            assert!(!chosen_with(&|model| model.p95_latency_ms = latency as u32 + 1), "{line:?}");
            tried += 1;
        }
        if let Wins::At(scale) = line.price {
            let scaled = |scale: u64| {
                move |model: &mut volankizo::KernelModel| {
                    for price in [
                        &mut model.input_cost_microunits_per_million_tokens,
                        &mut model.output_cost_microunits_per_million_tokens,
                    ] {
                        *price = desk::asked::scaled_price(*price, scale);
                    }
                }
            };
            assert!(chosen_with(&scaled(scale)), "{line:?}");
            assert!(!chosen_with(&scaled(scale + 1)), "{line:?}");
            tried += 1;
        }
    }
    tried
}

#[test]
fn the_worked_example_as_text() {
    let told = Folder::example().told(&["table"]);
    let lines: Vec<&str> = told.lines().collect();
    assert_eq!(
        lines[..6],
        [
            "Request 42 of requests.csv.",
            "Chosen: Brio, at a cost of 0.0003 EUR, with a utility of 0.0062 EUR.",
            "",
            "model    cost  utility    price  input price  output price  quality  latency  verdict",
            "Alto   0.0018   0.0052   -55.7%     1.329999      6.649995        -        -  \
             outranked by Brio: its utility of 0.0052 EUR is below 0.0062",
            "Brio   0.0003   0.0062  +333.0%         4.33          8.66     7000      150  chosen",
        ]
    );
}

#[test]
fn the_best_first() {
    let three =
        "Cedro,3,1,8000,8000,no,50,0,0,1,2\nDolce,4,1,9500,8000,yes,50,0,0,1,2\nForte,5,0,4000,8000,yes,1,0,0,0,0\n";
    let folder = Folder::example().but("models.csv", "0,0,1,2\n", &format!("0,0,1,2\n{three}"));
    let names = |arguments: &[&str]| {
        let table = folder.told(&[&["table", "--csv", "-"], arguments].concat());
        table.lines().skip(1).map(|line| line.split(',').next().expect("a name").to_owned()).collect::<Vec<_>>()
    };
    assert_eq!(names(&[]), ["Alto", "Brio", "Cedro", "Dolce", "Forte"]);
    assert_eq!(names(&["--best-first"]), ["Dolce", "Brio", "Alto", "Cedro", "Forte"]);
}

#[test]
fn a_table_in_a_file() {
    let folder = Folder::example();
    assert_eq!(folder.told(&["table", "--csv", "table.csv"]), "");
    assert_eq!(folder.text("table.csv"), folder.told(&["table", "--csv", "-"]));
    assert_eq!(
        folder.text("table.csv"),
        "name,id,provider,verdict,reason,cost_currency,utility_currency,wins_at_price_percent_of_today,wins_at_input_price_per_million,\
         wins_at_output_price_per_million,wins_at_quality_bps,wins_at_latency_ms\n\
         Alto,1,0,outranked,outranked by Brio: its utility of 0.0052 EUR is below 0.0062,0.0018,0.0052,44.3333,1.329999,6.649995,,\n\
         Brio,2,1,chosen,chosen,0.0003,0.0062,433,4.33,8.66,7000,150\n"
    );
    let comma = folder.told(&["table", "--csv", "-", "--decimal-comma", "--separator", "comma"]);
    assert!(comma.contains("Brio,2,1,chosen,chosen,\"0,0003\",\"0,0062\",433,\"4,33\",\"8,66\",7000,150"), "{comma}");
}

/// A stopped request looks at no model.
#[test]
fn a_stopped_request() {
    let told = Folder::example().but("requests.csv", "5000,1000,", "5000,9000,").told(&["table"]);
    let sentence = "Nothing is chosen: the request is stopped, since its risk of 9000 basis points is not below the policy's hard limit of 9000.";
    assert_eq!(told.lines().nth(1), Some(sentence));
    assert_eq!(
        told.lines().filter(|line| line.ends_with("-  not looked at: the request is stopped")).count(),
        2,
        "{told}"
    );
}

/// A price is searched up to 1,000 times today's, and no further: a model that still wins there may lose beyond.
#[test]
fn the_end_of_the_search() {
    let models =
        "name,provider,quality_bps,risk_ceiling_bps,latency_ms,input_price_per_million,output_price_per_million\n";
    let cheap = Folder::example()
        .with("models.csv", format!("{models}a,P,9000,9000,100,0.001,0.002\n"))
        .but("requests.csv", "42,Alto", "42,none")
        .but("requests.csv", "5000,0\n", "5000,none\n");
    let row = |folder: &Folder| {
        let table = folder.told(&["table"]);
        let line = table.lines().find(|line| line.starts_with("a ")).expect("a line").to_owned();
        line.split_whitespace().map(str::to_owned).collect::<Vec<_>>()
    };
    assert_eq!(row(&cheap)[3..7], ["to", "1000x", "1", "2"]);
    let csv = cheap.told(&["table", "--csv", "-"]);
    assert!(csv.lines().nth(1).expect("a line").contains(",100000,1,2,"), "{csv}");
    // It does lose beyond.
    let dear = cheap.but("models.csv", "0.001,0.002", "100,200");
    assert_eq!(
        row(&dear)[8..],
        ["over", "budget:", "it", "costs", "0.03", "EUR,", "0.025", "more", "than", "the", "budget", "of", "0.005"]
    );
    let free = dear.but("models.csv", "100,200", "0,0");
    assert_eq!(row(&free)[3..6], ["any", "any", "any"]);
}
