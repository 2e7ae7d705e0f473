//! Policies that leave the first milliseconds of a latency free: their bytes and files, what is said of them, and what is refused.
mod common;
use common::{example_list, example_list_200_ms_free, Folder};

/// The worked example with so many milliseconds free.
fn free(cell: &str) -> Folder {
    Folder::example().with_allowance(cell)
}

fn input(folder: &Folder) -> Vec<u8> {
    folder.told(&["pack", "--input", "input.bin"]);
    folder.bytes("input.bin")
}

/// One of the programs' own examples.
fn of_the_programs(file: &str) -> Vec<u8> {
    let path = std::path::Path::new(env!("CARGO_MANIFEST_DIR")).join("../examples/inputs").join(file);
    std::fs::read(path).expect("the programs' example")
}

/// The one that was written before there were allowances.
fn old_input() -> Vec<u8> {
    of_the_programs("example.bin")
}

/// Where the request begins in it, after the policy's field and the two models'.
const REQUEST_AT: usize = 33 + 97;

/// The programs' example with these bytes before its request.
fn with_field(field: &[u8]) -> Vec<u8> {
    let (stored, request) = (&old_input()[..REQUEST_AT], &old_input()[REQUEST_AT..]);
    [stored, field, request].concat()
}

/// The policy's file that some bytes are unpacked to.
fn policy_of(form: Vec<u8>) -> String {
    let folder = Folder::new().with("form.bin", form);
    folder.told(&["unpack", "form.bin", "--policy-out", "policy.csv"]);
    folder.text("policy.csv")
}

#[test]
fn it_is_the_field_of_tag_5() {
    let once = free("200").but("policy.csv", ",currency", ",rounding,currency").but("policy.csv", ",EUR", ",once,EUR");
    assert_eq!(input(&free("200")), of_the_programs("free.bin"));
    assert_eq!(input(&once), of_the_programs("free-once.bin"), "after the field of tag 4");
    assert_eq!(input(&free("200")), with_field(&[5, 4, 0, 200, 0, 0, 0]));
    assert_eq!(input(&free("4294967295")), with_field(&[5, 4, 0, 255, 255, 255, 255]));
}

/// 0 is none, as is nothing: the bytes are the old ones, and so are the files that old bytes are unpacked to.
#[test]
fn none_is_as_before() {
    for folder in [Folder::example(), free("0"), free("")] {
        assert_eq!(input(&folder), old_input());
    }
    let before = "hard_risk_limit_bps,minimum_confidence_bps,risk_multiplier_bps,latency_penalty_per_ms,rounding,currency,policy_epoch,\
                  catalogue_epoch\n9000,2000,10000,0.00001,apart,,7,3\n";
    assert_eq!(policy_of(old_input()), before);
    let told = |folder: &Folder, arguments: &[&str]| folder.told(arguments);
    for arguments in [&["table"][..], &["table", "--csv", "-"], &["why", "Alto"], &["why", "Brio"], &["log", "Alto"]] {
        assert_eq!(told(&free("0"), arguments), told(&Folder::example(), arguments), "{arguments:?}");
    }
}

#[test]
fn it_has_a_column_where_there_is_one() {
    let with = "hard_risk_limit_bps,minimum_confidence_bps,risk_multiplier_bps,latency_penalty_per_ms,rounding,currency,policy_epoch,\
                catalogue_epoch,latency_allowance_ms\n9000,2000,10000,0.00001,apart,,7,3,200\n";
    assert_eq!(policy_of(with_field(&[5, 4, 0, 200, 0, 0, 0])), with);
    let highest = policy_of(with_field(&[5, 4, 0, 255, 255, 255, 255]));
    assert!(highest.ends_with(",7,3,4294967295\n"), "{highest}");
}

#[test]
fn bad_cells() {
    let refused = |cell: &str, line: &str| {
        let ran = free(cell).run(&["table"]);
        let told = format!("desk: policy.csv, line 2, column latency_allowance_ms: {line}; {MS}\n");
        assert_eq!((ran.status, ran.out.as_str(), ran.err), (1, "", told));
    };
    const MS: &str = "whole milliseconds from 0 to 4294967295 were wanted";
    refused("-1", "-1 is out of range");
    refused("4294967296", "4294967296 is out of range");
    refused("0.2", "\"0.2\" has too many decimals, and nothing is rounded");
    refused("200 ms", "\"200 ms\" is no number");
    refused("none", "\"none\" is no number");
    let twice = free("200").but("policy.csv", "currency,", "Latency allowance (ms),");
    let ran = twice.run(&["table"]);
    let line = "desk: policy.csv, line 1: the column latency_allowance_ms stands twice\n";
    assert_eq!((ran.status, ran.err.as_str()), (1, line));
}

#[test]
fn bad_fields() {
    let refused = |field: &[u8], line: &str| {
        let folder = Folder::new().with("form.bin", with_field(field));
        let ran = folder.run(&["unpack", "form.bin", "--policy-out", "policy.csv"]);
        assert_eq!((ran.status, ran.err), (1, format!("desk: form.bin: refused {line}\n")));
        assert_eq!(folder.files(), ["form.bin"]);
    };
    let (length, tag) = (
        "22: a field has a length that isn't its own",
        "21: a field isn't due where it stands, or one is missing, or something stands after the last",
    );
    refused(
        &[5, 4, 0, 0, 0, 0, 0],
        "25: the policy's latency allowance is 0; a policy that has none has no field for it",
    );
    refused(&[5, 3, 0, 200, 0, 0], length);
    refused(&[5, 5, 0, 200, 0, 0, 0, 0], length);
    refused(&[5, 4, 0, 200, 0, 0, 0, 4, 1, 0, 1], tag);
    refused(&[5, 4, 0, 200, 0, 0, 0, 5, 4, 0, 200, 0, 0, 0], tag);
    refused(&[4, 1, 0, 2, 5, 4, 0, 0, 0, 0, 0], "23: the policy rounds neither apart nor once");
}

/// Alto, close to Brio: 100 ms today, each at 10 microunits.
#[test]
fn the_latency_in_sentences() {
    let why = |folder: Folder, more: &[&str]| {
        let told = folder.told(&[&["why", "Alto"], more].concat());
        told.lines().filter(|line| line.starts_with("Latency")).map(str::to_owned).collect::<Vec<_>>()
    };
    let close = |cell: &str| free(cell).but("models.csv", "3,15", "3,6");
    let falls = "it must fall to at most 89 ms.";
    assert_eq!(why(close("0"), &[]), [format!("Latency alone: 100 ms today; {falls}")]);
    assert_eq!(why(close("20"), &[]), [format!("Latency alone: 100 ms today (20 ms of it are free); {falls}")]);
    assert_eq!(why(close("20"), &["--numbers"]), [format!("Latency alone: 100 ms today; {falls}")]);
    // Where all of it is free, less of it wins nothing.
    assert!(free("100").told(&["why", "Alto"]).contains("outranked by Brio"));
    assert_eq!(why(free("100"), &[]), [""; 0]);
}

/// The limit of a request is held to the whole latency.
#[test]
fn the_limit_in_sentences() {
    let limited = |cell: &str| {
        let folder = free(cell).but("requests.csv", "required_capabilities", "required_capabilities,latency_limit_ms");
        folder.but("requests.csv", "5000,0\n", "5000,0,50\n").but("models.csv", "3,15", "0.1,0.1")
    };
    let why = |cell: &str, more: &[&str]| limited(cell).told(&[&["why", "Alto"], more].concat());
    let rejected = "is rejected: its latency of 100 ms is above the limit of 50 ms";
    let falls = "it must fall to at most 50 ms.";
    for (cell, though, today) in [
        ("0", "", ""),
        ("99", ", though 99 ms of it are free", " (99 ms of it are free)"),
        ("100", ", though all of it is free", " (all of it is free)"),
        ("4000", ", though all of it is free", " (all of it is free)"),
    ] {
        let told = why(cell, &[]);
        assert!(told.contains(&format!("Alto {rejected}{though}.\n")), "{told}");
        assert!(told.contains(&format!("Latency alone: 100 ms today{today}; {falls}\n")), "{told}");
        let told = why(cell, &["--numbers"]);
        assert!(told.contains(&format!("Model 1 {rejected}.\n")) && !told.contains("free"), "{told}");
        let table = limited(cell).told(&["table"]);
        assert!(table.contains(&format!("{}{though}\n", rejected.trim_start_matches("is "))), "{table}");
    }
}

/// Both latencies of the worked example are free, which adds 1,000 microunits to Alto's utility and 500 to Brio's.
#[test]
fn the_worked_example_as_a_table() {
    let told = free("200").told(&["table"]);
    let lines: Vec<&str> = told.lines().collect();
    assert_eq!(lines[1], "Chosen: Brio, at a cost of 0.0003 EUR, with a utility of 0.0067 EUR.");
    let cells = |line: &str| line.split_whitespace().map(str::to_owned).collect::<Vec<_>>();
    assert_eq!(cells(lines[4])[..3], ["Alto", "0.0018", "0.0062"]);
    assert_eq!(cells(lines[5]), ["Brio", "0.0003", "0.0067", "+166.5%", "2.665", "5.33", "7500", "250", "chosen"]);
    let line = "A latency is told in full. Its first 200 ms are free: only those above them are charged, but a request's limit counts all.";
    assert_eq!(lines.last(), Some(&line));
    assert!(!Folder::example().told(&["table"]).contains("free"));
    let csv = free("200").told(&["table", "--csv", "-"]);
    let lines: Vec<&str> = csv.lines().collect();
    assert!(lines[0].ends_with(",wins_at_latency_ms,latency_allowance_ms"), "{csv}");
    assert!(lines[1].ends_with(",9501,,200") && lines[2].ends_with(",7500,250,200"), "{csv}");
}

/// The example policy differs from the one beside it by the allowance and its epoch.
#[test]
fn the_examples_differ_by_the_allowance() {
    let form = |folder: Folder| {
        folder.told(&["pack", "--stored", "stored.bin", "--names-out", "names.csv"]);
        folder.bytes("stored.bin")
    };
    let (without, with) = (form(example_list()), form(example_list_200_ms_free()));
    let epoch = |form: &[u8]| form[3];
    assert_eq!((epoch(&without), epoch(&with)), (7, 8));
    assert_eq!(with[4..], [&without[4..], &[5, 4, 0, 200, 0, 0, 0]].concat());
}
