//! What spreadsheets write is taken: the same list in other clothes gives the same bytes.
mod common;
use common::{example_list, Folder, MODELS, POLICY, REQUESTS};

/// The programs' input that a folder's files make, with more arguments.
fn input(folder: &Folder, arguments: &[&str]) -> Vec<u8> {
    let all = [&["pack", "--input", "input.bin", "--names-out", "names.out"], arguments].concat();
    folder.told(&all);
    folder.bytes("input.bin")
}

fn worked_example() -> Vec<u8> {
    input(&Folder::example(), &[])
}

/// The bytes that the programs' own example has.
#[test]
fn the_worked_example_is_the_programs() {
    let theirs = std::path::Path::new(env!("CARGO_MANIFEST_DIR")).join("../examples/inputs/example.bin");
    assert_eq!(worked_example(), std::fs::read(theirs).expect("the programs' example"));
}

#[test]
fn byte_order_marks_and_line_ends() {
    for end in ["\n", "\r\n", "\r", "\n\n", "\r\n\r\n"] {
        let dressed = |text: &str| format!("\u{feff}{}", text.replace('\n', end));
        let folder = Folder::new()
            .with("models.csv", dressed(MODELS))
            .with("policy.csv", dressed(POLICY))
            .with("requests.csv", dressed(REQUESTS));
        assert_eq!(input(&folder, &[]), worked_example(), "{end:?}");
    }
}

#[test]
fn a_last_line_without_an_end() {
    assert_eq!(input(&Folder::example().with("models.csv", MODELS.trim_end()), &[]), worked_example());
}

/// Each cell in quotes, with quotes and separators inside a name.
#[test]
fn quoted_cells() {
    let quoted = |text: &str| {
        let line = |line: &str| line.split(',').map(|cell| format!("\"{cell}\"")).collect::<Vec<_>>().join(",") + "\n";
        text.lines().map(line).collect::<String>()
    };
    let folder = Folder::new()
        .with("models.csv", quoted(MODELS))
        .with("policy.csv", quoted(POLICY))
        .with("requests.csv", quoted(REQUESTS));
    assert_eq!(input(&folder, &[]), worked_example());
    let named = folder.but("models.csv", "\"Brio\"", "\"Brio, \"\"the 2nd\"\"\"");
    assert!(named.told(&["why", "Alto"]).starts_with("Chosen: Brio, \"the 2nd\", at a cost of 0.0003 EUR"));
}

#[test]
fn semicolons_and_tabs() {
    for mark in [";", "\t"] {
        let parted = |text: &str| text.replace(',', mark);
        let folder = Folder::new()
            .with("models.csv", parted(MODELS))
            .with("policy.csv", parted(POLICY))
            .with("requests.csv", parted(REQUESTS));
        assert_eq!(input(&folder, &[]), worked_example(), "{mark:?}");
    }
}

/// A separator that is told is taken, whatever the header line looks like.
#[test]
fn a_separator_that_is_told() {
    let parted = |text: &str| text.replace(',', ";");
    let folder = Folder::new()
        .with("models.csv", parted(MODELS))
        .with("policy.csv", parted(POLICY))
        .with("requests.csv", parted(REQUESTS));
    assert_eq!(input(&folder, &["--separator", "semicolon"]), worked_example());
    let ran = folder.run(&["table", "--separator", "comma"]);
    assert_eq!(ran.status, 1);
    assert!(ran.err.starts_with("desk: models.csv, line 1: no column is called \"name;id;provider"), "{}", ran.err);
}

#[test]
fn a_decimal_comma_where_it_is_told() {
    let comma = |text: String| text.replace(',', ";").replace('.', ",");
    let dotted = example_list();
    let folder = ["models.csv", "policy.csv", "requests.csv"]
        .iter()
        .fold(Folder::new(), |folder, file| folder.with(file, comma(dotted.text(file))));
    assert_eq!(input(&folder, &["--decimal-comma", "--request", "1"]), input(&dotted, &["--request", "1"]));
    let ran = folder.run(&["table", "--request", "1"]);
    assert_eq!(
        (ran.status, ran.err.as_str()),
        (
            1,
            "desk: models.csv, line 2, column quality_percent: \"96,4\" is no number (a decimal comma is read with --decimal-comma, a \
             thousands mark never); a percentage from 0 to 100 with at most two decimals was wanted\n"
        )
    );
    let why = folder.told(&["why", "Auralis Medium", "--request", "1", "--decimal-comma"]);
    assert!(why.contains("Chosen: Auralis Small, at a cost of 0,000267 EUR"), "{why}");
    assert!(why.contains("it must fall by 60,7 percent or more"), "{why}");
}

/// Columns in any order, spelled as people spell them, with notes, empty columns and empty lines between.
#[test]
fn columns_in_any_order_and_spelling() {
    let models = "\
Output price per million,NOTES,Quality (bps),Risk ceiling %,Latency [ms],,Name,ID,Provider,Capabilities,Regions,Input price microunits per million,Enabled
15,dear,9000,80,100,,Alto,1,0,0 | 1,0,3000000,TRUE
,,,,,,,,,,,,
2,,8000,80 %,50,, Brio ,2,1,0,0,1000000,on
,,,,,,,,,,,,
";
    assert_eq!(input(&Folder::example().with("models.csv", models), &[]), worked_example());
}

#[test]
fn every_unit_says_the_same() {
    let models = MODELS
        .replace("quality_bps,risk_ceiling_bps", "quality_percent,risk_ceiling_percent")
        .replace("9000,8000", "90,80.00")
        .replace("8000,8000", "80%,80.0")
        .replace("input_price_per_million", "input_price_microunits_per_million")
        .replace(",3,15", ",3000000,15.000000")
        .replace(",1,2\n", ",1000000,2.0\n");
    let policy = "latency_penalty_per_ms,risk_multiplier_percent,minimum_confidence_percent,hard_risk_limit_percent,policy_epoch,catalogue_epoch,rounding\n\
                  0.00001,100,20,90,7,3,apart\n";
    let requests = REQUESTS
        .replace(
            "value_microunits,budget_microunits,risk_bps,confidence_bps",
            "value_currency,budget_currency,risk_percent,confidence_percent",
        )
        .replace("10000,5000,1000,10000", "0.01,0.005,10,100");
    let folder = Folder::new().with("models.csv", models).with("policy.csv", policy).with("requests.csv", requests);
    assert_eq!(input(&folder, &[]), worked_example());
}

/// What may be left out: a model is on and numbered by its line, a policy rounds apart, a request asks for nothing in particular.
#[test]
fn columns_that_may_be_left_out() {
    let models =
        "name,provider,quality_bps,risk_ceiling_bps,latency_ms,input_price_per_million,output_price_per_million\n\
                  Alto,0,9000,8000,100,3,15\nBrio,1,8000,8000,50,1,2\n";
    let policy = "hard_risk_limit_bps,minimum_confidence_bps,risk_multiplier_bps,latency_penalty_microunits_per_ms\n9000,2000,10000,10\n";
    let requests =
        "input_tokens,output_tokens,value_microunits,budget_microunits,risk_bps,confidence_bps,minimum_quality_bps\n\
                    100,100,10000,5000,1000,10000,5000\n";
    let short = Folder::new().with("models.csv", models).with("policy.csv", policy).with("requests.csv", requests);
    let full = Folder::example()
        .but("models.csv", "100,0|1,0", "100,none,none")
        .but("models.csv", "50,0,0", "50,none,")
        .but("policy.csv", "10,7,3", "10,0,0")
        .but("requests.csv", "42,Alto", "1,none")
        .but("requests.csv", "5000,0\n", "5000,none\n");
    assert_eq!(input(&short, &[]), input(&full, &[]));
    let told = short.told(&["why", "Alto"]);
    assert!(
        told.starts_with("Chosen: Brio, at a cost of 0.0003, with a utility of 0.0062.\nAlto is outranked by Brio"),
        "{told}"
    );
}
