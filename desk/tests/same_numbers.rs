//! A list of 20 models, through the programs `unit` and `ask` and through the desk: the same numbers.
mod common;
use common::{example_list, example_list_200_ms_free, Folder};
use std::collections::HashMap;
use std::io::Write;
use std::path::PathBuf;
use std::process::{Command, Stdio};

/// Where the programs are: in the folder that VOLANKIZO_BIN names, else where `tools/build unit ask` writes them.
fn program(name: &str) -> PathBuf {
    let here = PathBuf::from(env!("CARGO_MANIFEST_DIR"));
    let folder = here.join(std::env::var_os("VOLANKIZO_BIN").unwrap_or_else(|| "../target/bin".into()));
    let program = folder.join(name);
    assert!(
        program.is_file(),
        "{} is missing: run `tools/build unit ask` in the repository's root first, or name the folder of the programs in VOLANKIZO_BIN",
        program.display()
    );
    program
}

/// The words of each line that a program prints for an input.
fn printed(name: &str, arguments: &[&str], input: &[u8]) -> Vec<Vec<String>> {
    let mut command = Command::new(program(name));
    let mut child =
        command.args(arguments).stdin(Stdio::piped()).stdout(Stdio::piped()).spawn().expect("the program runs");
    child.stdin.take().expect("its input").write_all(input).expect("written");
    let told = String::from_utf8(child.wait_with_output().expect("it ends").stdout).expect("text");
    told.lines().map(|line| line.split(' ').map(str::to_owned).collect()).collect()
}

/// The lines `lever` that a program prints: boundary, and cost where there is one, by the lever's number.
fn levers(lines: &[Vec<String>]) -> HashMap<String, (u64, String)> {
    let lever = |line: &Vec<String>| (line[1].clone(), (line[3].parse().expect("a boundary"), line[4].clone()));
    lines.iter().filter(|line| line[0] == "lever").map(lever).collect()
}

/// The rows of a table, by column.
fn table(folder: &Folder, request: &str) -> Vec<HashMap<String, String>> {
    let text = folder.told(&["table", "--request", request, "--csv", "-"]);
    let mut reader = csv::Reader::from_reader(text.as_bytes());
    let header = reader.headers().expect("a header line").clone();
    let row =
        |record: csv::StringRecord| header.iter().map(str::to_owned).zip(record.iter().map(str::to_owned)).collect();
    reader.records().map(|record| row(record.expect("a row"))).collect()
}

/// Currency in microunits, by moving the point.
fn microunits(amount: &str) -> i128 {
    let (whole, fraction) = amount.split_once('.').unwrap_or((amount, ""));
    format!("{whole}{fraction:0<6}").parse().expect("an amount")
}

/// The models' own numbers, from the file.
fn prices(folder: &Folder) -> HashMap<String, (i128, i128)> {
    let text = folder.text("models.csv");
    let mut reader = csv::Reader::from_reader(text.as_bytes());
    let row = |record: csv::StringRecord| (record[1].to_owned(), (microunits(&record[8]), microunits(&record[9])));
    reader.records().map(|record| row(record.expect("a row"))).collect()
}

fn input(folder: &Folder, request: &str) -> Vec<u8> {
    folder.told(&["pack", "--request", request, "--input", "input.bin", "--names-out", "names.csv"]);
    folder.bytes("input.bin")
}

const REQUESTS: [&str; 5] = ["1", "2", "3", "4", "5"];

/// Every request of the list, under either policy.
fn each_question(hold: impl Fn(&Folder, &str)) {
    for folder in [example_list(), example_list_200_ms_free()] {
        REQUESTS.iter().for_each(|request| hold(&folder, request));
    }
}

#[test]
fn the_choice_is_that_of_unit() {
    each_question(|folder, request| {
        let told = printed("unit", &[], &input(folder, request));
        let (decision, rows) = (&told[0], table(folder, request));
        assert_eq!((decision[0].as_str(), decision[1].as_str(), rows.len()), ("decision", request, 20));
        let chosen: Vec<_> = rows.iter().filter(|row| row["verdict"] == "chosen").collect();
        if decision[2] == "3" {
            assert!(chosen.is_empty());
            return;
        }
        let [row] = chosen[..] else { panic!("{} are chosen", chosen.len()) };
        assert_eq!(row["id"], decision[4]);
        assert_eq!(microunits(&row["cost_currency"]).to_string(), decision[6]);
        assert_eq!(microunits(&row["utility_currency"]).to_string(), decision[7]);
        wins_at(row, &levers(&told), &prices(folder), "any");
    });
}

/// Price, quality and latency of a row are the boundaries of the levers, or what is said where there is none.
fn wins_at(
    row: &HashMap<String, String>,
    levers: &HashMap<String, (u64, String)>,
    prices: &HashMap<String, (i128, i128)>,
    none: &str,
) {
    let boundary = |lever: &str| levers.get(lever).map(|(boundary, _)| *boundary);
    let setting = |lever: &str| boundary(lever).map_or(none.to_owned(), |boundary| boundary.to_string());
    assert_eq!(row["wins_at_quality_bps"], setting("1"), "{row:?}");
    assert_eq!(row["wins_at_latency_ms"], setting("2"), "{row:?}");
    let Some(scale) = boundary("3") else {
        let told =
            ["wins_at_price_percent_of_today", "wins_at_input_price_per_million", "wins_at_output_price_per_million"];
        assert!(told.iter().all(|column| row[*column] == none), "{row:?}");
        return;
    };
    let (input, output) = prices[&row["id"]];
    // A percentage with four decimals is a share in millionths.
    assert_eq!(microunits(&row["wins_at_price_percent_of_today"]) / 100, i128::from(scale), "{row:?}");
    assert_eq!(microunits(&row["wins_at_input_price_per_million"]), input * i128::from(scale) / 1_000_000, "{row:?}");
    assert_eq!(microunits(&row["wins_at_output_price_per_million"]), output * i128::from(scale) / 1_000_000, "{row:?}");
}

#[test]
fn what_would_win_is_that_of_ask() {
    each_question(|folder, request| {
        let (prices, input) = (prices(folder), input(folder, request));
        for row in table(folder, request).iter().filter(|row| row["verdict"] != "chosen") {
            let told = levers(&printed("ask", &[&row["id"]], &input));
            wins_at(row, &told, &prices, "");
            assert_eq!(row["reason"].contains("switched on, it would be chosen"), told.contains_key("5"), "{row:?}");
            why_says(folder, request, row, &told);
        }
    });
}

/// The sentences about a model have the numbers of its levers, and no other lever's sentence.
fn why_says(folder: &Folder, request: &str, row: &HashMap<String, String>, levers: &HashMap<String, (u64, String)>) {
    let said = folder.told(&["why", &row["name"], "--request", request]);
    let says = |sentence: String| assert!(said.contains(&sentence), "{sentence} is not in\n{said}");
    let rises = |lever: &str| levers.get(lever).map(|(boundary, _)| format!("it must rise to at least {boundary}.\n"));
    for (lever, name) in [("1", "Quality alone: "), ("4", "Risk ceiling alone: ")] {
        assert_eq!(said.contains(name), levers.contains_key(lever), "{said}");
        rises(lever).into_iter().for_each(says);
    }
    assert_eq!(said.contains("Latency alone: "), levers.contains_key("2"), "{said}");
    if let Some((boundary, _)) = levers.get("2") {
        says(format!("it must fall to at most {boundary} ms.\n"));
    }
    if let Some((scale, cost)) = levers.get("3") {
        let (fall, cost) = (1_000_000 - scale, cost.parse::<u64>().expect("a cost"));
        says(format!(
            "to the millionth, by {}.{:04} percent, to {}.{:04} percent",
            fall / 10_000,
            fall % 10_000,
            scale / 10_000,
            scale % 10_000
        ));
        says(format!("where the request costs {} EUR.\n", desk::decimal::shown(cost.into(), 6, '.')));
    }
    let nothing = said.contains("no price, not even 0") || said.contains("Price alone: not searched");
    assert_eq!(nothing, !levers.contains_key("3"), "{said}");
}

/// Rejections are counted alike.
#[test]
fn counts_are_those_of_unit() {
    each_question(|folder, request| {
        let told = printed("unit", &[], &input(folder, request));
        let rows = table(folder, request);
        let count = |words: &str| rows.iter().filter(|row| row["reason"].contains(words)).count().to_string();
        let words = [
            "switched off;",
            "its quality of",
            "the request's risk of",
            "its latency of",
            "its capabilities,",
            "its provider",
            "its regions,",
            "over budget:",
            "is not above 0",
        ];
        let rejected =
            rows.iter().filter(|row| !["outranked", "chosen", "stopped"].contains(&row["verdict"].as_str())).count();
        let counts: Vec<String> = words.iter().map(|words| count(words)).collect();
        assert_eq!(told[1][1..], counts, "{request}");
        assert_eq!(
            told[1][1..].iter().map(|number| number.parse::<usize>().expect("a count")).sum::<usize>(),
            rejected
        );
    });
}
