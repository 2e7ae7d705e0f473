//! Each bad file gets one line that a person can act on, exit status 1, and nothing is written.
mod common;
use common::{many_models, Dice, Folder, MODELS};

/// Every command that reads the file refuses it with this line, and no file appears.
fn refused(folder: &Folder, line: &str) {
    let before = folder.files();
    let commands: [&[&str]; 4] = [
        &["table"],
        &["why", "Alto"],
        &["table", "--csv", "table.csv"],
        &[
            "pack",
            "--input",
            "input.bin",
            "--stored",
            "stored.bin",
            "--request-forms",
            "requests.bin",
            "--names-out",
            "names.csv",
        ],
    ];
    for arguments in commands {
        let ran = folder.run(arguments);
        assert_eq!(
            (ran.status, ran.out.as_str(), ran.err.as_str()),
            (1, "", format!("desk: {line}\n").as_str()),
            "{arguments:?}"
        );
        assert_eq!(folder.files(), before, "{arguments:?}");
    }
}

#[test]
fn empty_files() {
    let wanted = "the file is empty; a header line with the names of the columns was wanted";
    for file in ["models.csv", "policy.csv", "requests.csv"] {
        refused(&Folder::example().with(file, ""), &format!("{file}: {wanted}"));
        refused(&Folder::example().with(file, "\u{feff}\r\n\r\n"), &format!("{file}: {wanted}"));
    }
}

#[test]
fn header_lines_alone() {
    let alone = |file: &str| {
        let folder = Folder::example();
        let header = folder.text(file).lines().next().expect("a header").to_owned();
        folder.with(file, header)
    };
    refused(&alone("models.csv"), "models.csv: there is no model under the header line; at least one was wanted");
    refused(
        &alone("policy.csv"),
        "policy.csv: there is no line under the header line; one with the policy's numbers was wanted",
    );
    refused(&alone("requests.csv"), "requests.csv: there is no request under the header line; at least one was wanted");
}

#[test]
fn a_file_that_is_not_there() {
    let folder = Folder::example();
    std::fs::remove_file(folder.path.join("policy.csv")).expect("removed");
    refused(&folder, "policy.csv: can't be read: No such file or directory (os error 2)");
}

#[test]
fn cut_inside_a_quote() {
    let line = "models.csv, line 3: a quote (\") is opened here and never closed; was the file cut?";
    refused(&Folder::example().but("models.csv", "Brio", "\"Brio"), line);
    refused(&Folder::example().but("models.csv", "Brio,2,1,8000,8000,yes,50,0,0,1,2\n", "\"Bri"), line);
    let crlf = MODELS.replace('\n', "\r\n").replace("Brio", "\"Brio \"\"2\"\"");
    refused(&Folder::example().with("models.csv", crlf), line);
    let marked = format!("\u{feff}\"{MODELS}");
    refused(&Folder::example().with("models.csv", marked), &line.replace("line 3", "line 1"));
}

#[test]
fn a_missing_column() {
    refused(
        &Folder::example().but("models.csv", "latency_ms,", "").but("models.csv", "yes,100,", "yes,").but(
            "models.csv",
            "yes,50,",
            "yes,",
        ),
        "models.csv, line 1: the column latency_ms is missing",
    );
    refused(
        &Folder::example().but("models.csv", "quality_bps", "notes"),
        "models.csv, line 1: the column quality_bps or quality_percent is missing",
    );
    refused(
        &Folder::example().but("policy.csv", "latency_penalty_microunits_per_ms", "notes"),
        "policy.csv, line 1: the column latency_penalty_per_ms or latency_penalty_microunits_per_ms is missing",
    );
    refused(
        &Folder::example().but("requests.csv", "budget_microunits", "notes"),
        "requests.csv, line 1: the column budget_currency or budget_microunits is missing",
    );
}

#[test]
fn a_column_twice() {
    refused(
        &Folder::example().but("models.csv", "risk_ceiling_bps", "Quality BPS"),
        "models.csv, line 1: the column quality_bps stands twice",
    );
    refused(
        &Folder::example().but("models.csv", "risk_ceiling_bps", "quality_percent"),
        "models.csv, line 1: the columns quality_bps and quality_percent say the same twice; keep one",
    );
}

#[test]
fn a_column_that_is_not_known() {
    let known = "known are name, id, provider, quality_bps, quality_percent, risk_ceiling_bps, risk_ceiling_percent, enabled, latency_ms, \
                 capabilities, regions, input_price_per_million, input_price_microunits_per_million, output_price_per_million, \
                 output_price_microunits_per_million, notes";
    refused(
        &Folder::example().but("models.csv", "quality_bps", "qualty bps"),
        &format!(
            "models.csv, line 1: no column is called \"qualty bps\"; did you mean quality_bps? {}",
            known.replacen('k', "K", 1)
        ),
    );
    refused(
        &Folder::example().but("models.csv", "enabled", "zzz"),
        &format!("models.csv, line 1: no column is called \"zzz\"; {known}"),
    );
}

#[test]
fn too_few_and_too_many_cells() {
    refused(
        &Folder::example().but("models.csv", "yes,50,0,0,1,2", "yes,50,0"),
        "models.csv, line 3: 11 cells were wanted as in the header line, 8 found",
    );
    refused(
        &Folder::example().but("models.csv", "yes,50,0,0,1,2", "yes,50,0,0,1,2,7"),
        "models.csv, line 3: 11 cells were wanted as in the header line, 12 found; a cell with a separator in it stands in quotes",
    );
    refused(
        &Folder::example().but("models.csv", "name,", "name,,").but("models.csv", "Alto,", "Alto,,").but(
            "models.csv",
            "Brio,",
            "Brio,x,",
        ),
        "models.csv, line 3: column 2 has a value here but no name in the header line",
    );
}

#[test]
fn a_repeated_id_or_name_or_sequence() {
    refused(
        &Folder::example().but("models.csv", "Brio,2", "Brio,1"),
        "models.csv, line 3, column id: the id 1 of \"Brio\" is that of \"Alto\" on line 2",
    );
    refused(
        &Folder::example().but("models.csv", "Brio", "Alto"),
        "models.csv, line 3, column name: the name \"Alto\" is that of the model on line 2",
    );
    let twice = "42,Alto,100,100,10000,5000,1000,10000,5000,0\n";
    refused(
        &Folder::example().but("requests.csv", twice, &twice.repeat(2)),
        "requests.csv, line 3, column sequence: the sequence number 42 is that of line 2",
    );
    refused(
        &Folder::example().but("policy.csv", "9000,2000", "9000,2000,10000,10,7,3,EUR\n8000,2000"),
        "policy.csv, line 3: is a second policy; one line under the header line was wanted",
    );
}

#[test]
fn ids_out_of_range() {
    refused(
        &Folder::example().but("models.csv", "Brio", "none"),
        "models.csv, line 3, column name: a model can't be called none, which requests none",
    );
    let wanted = "a whole number from 1 to 4294967295 was wanted";
    refused(
        &Folder::example().but("models.csv", "Brio,2", "Brio,0"),
        &format!("models.csv, line 3, column id: 0 is out of range; {wanted}"),
    );
    refused(
        &Folder::example().but("models.csv", "Brio,2", "Brio,4294967296"),
        &format!("models.csv, line 3, column id: 4294967296 is out of range; {wanted}"),
    );
    refused(
        &Folder::example().but("models.csv", "Brio,2", "Brio,"),
        "models.csv, line 3, column id: \"Brio\" has no id; a whole number from 1 was wanted",
    );
    refused(
        &Folder::example().but("models.csv", "Brio,2", "7,2"),
        "models.csv, line 3, column name: the name \"7\" is a number, but not the model's id, 2",
    );
}

#[test]
fn one_model_more_than_the_kernel_takes() {
    let models = many_models(65_536, &mut Dice::new(1));
    let ran = Folder::example().with("models.csv", models).run(&["table"]);
    let line = "desk: models.csv, line 65537: is one model too many; at most 65535 are possible\n";
    assert_eq!((ran.status, ran.out.as_str(), ran.err.as_str()), (1, "", line));
}

/// Lines are counted as an editor counts them, whatever ends them and however many are empty.
#[test]
fn lines_are_counted() {
    let bad = MODELS.replace("yes,50", "yes,fast");
    for (end, before, line) in
        [("\n", "", 3), ("\r\n", "", 3), ("\r", "", 3), ("\n\n", "", 5), ("\r\n\r\n", "\r\n", 6), ("\r\r", "\r", 6)]
    {
        let models = format!("\u{feff}{before}{}", bad.replace('\n', end));
        let wanted = "whole milliseconds from 0 to 4294967295 were wanted";
        let told = format!("models.csv, line {line}, column latency_ms: \"fast\" is no number; {wanted}");
        refused(&Folder::example().with("models.csv", models), &told);
    }
    let quoted =
        MODELS.replace("Alto", "\"Alto \"\"1\"\"\"").replace("yes,50", "\"yes\",fast").replace('\n', "\n,,,,,,,,,,\n");
    let ran = Folder::example().with("models.csv", quoted).run(&["table"]);
    assert!(ran.err.starts_with("desk: models.csv, line 5, column latency_ms: "), "{}", ran.err);
    let headless =
        Folder::example().with("models.csv", format!("\n\n{}", MODELS.replace("provider", "supplier"))).run(&["table"]);
    assert!(headless.err.starts_with("desk: models.csv, line 3: no column is called \"supplier\""), "{}", headless.err);
}

const PRICE: &str = "an amount from 0 to 18446744073709.551615 with at most six decimals was wanted";

#[test]
fn bad_prices() {
    let with = |price: &str| Folder::example().but("models.csv", "0,0,1,2", &format!("0,0,{price},2"));
    let at = "models.csv, line 3, column input_price_per_million:";
    refused(&with("-1"), &format!("{at} -1 is out of range; {PRICE}"));
    refused(&with("-0.000001"), &format!("{at} -0.000001 is out of range; {PRICE}"));
    refused(&with("0.0000001"), &format!("{at} \"0.0000001\" has too many decimals, and nothing is rounded; {PRICE}"));
    refused(&with("1.1234567"), &format!("{at} \"1.1234567\" has too many decimals, and nothing is rounded; {PRICE}"));
    refused(&with("18446744073709.551616"), &format!("{at} 18446744073709.551616 is out of range; {PRICE}"));
    refused(&with(&"9".repeat(60)), &format!("{at} \"{}..\" is out of range; {PRICE}", "9".repeat(40)));
    refused(&with("cheap"), &format!("{at} \"cheap\" is no number; {PRICE}"));
    refused(&with("1e6"), &format!("{at} \"1e6\" is no number; {PRICE}"));
    let sign = "is no number (write it without its currency, whose name stands in the policy)";
    for price in ["1 EUR", "€1.5", "$ 1"] {
        refused(&with(price), &format!("{at} \"{price}\" {sign}; {PRICE}"));
    }
    refused(&with(""), &format!("{at} is empty; {PRICE}"));
    refused(&with("1."), &format!("{at} \"1.\" is no number; {PRICE}"));
    refused(
        &with("\"1,5\""),
        &format!(
            "{at} \"1,5\" is no number (a decimal comma is read with --decimal-comma, a thousands mark never); {PRICE}"
        ),
    );
    let highest = with("18446744073709.551615").told(&["why", "Brio"]);
    assert!(highest.contains("over budget: it costs 1844674407.371156 EUR"), "{highest}");
}

#[test]
fn text_in_a_number_and_numbers_past_their_field() {
    let quality = |cell: &str| Folder::example().but("models.csv", "Brio,2,1,8000", &format!("Brio,2,1,{cell}"));
    let (at, wanted) = (
        "models.csv, line 3, column quality_bps:",
        "whole basis points from 0 to 10000 were wanted, 100 for each percent",
    );
    refused(&quality("good"), &format!("{at} \"good\" is no number; {wanted}"));
    refused(&quality("10001"), &format!("{at} 10001 is out of range; {wanted}"));
    refused(&quality("70000"), &format!("{at} 70000 is out of range; {wanted}"));
    refused(&quality("0.95"), &format!("{at} \"0.95\" has too many decimals, and nothing is rounded; {wanted}"));
    refused(&quality("95%"), &format!("{at} \"95%\" is no number of basis points; {wanted}"));
    refused(
        &Folder::example().but("models.csv", "yes,50", "yes,4294967296"),
        "models.csv, line 3, column latency_ms: 4294967296 is out of range; whole milliseconds from 0 to 4294967295 were wanted",
    );
    refused(
        &Folder::example().but("models.csv", "yes,50", "maybe,50"),
        "models.csv, line 3, column enabled: \"maybe\" is neither yes nor no; yes, no, true, false, on, off, 1 or 0 was wanted",
    );
    refused(
        &Folder::example().but("policy.csv", ",10000,", ",50001,"),
        "policy.csv, line 2, column risk_multiplier_bps: 50001 is out of range; whole basis points from 0 to 50000 were wanted, 100 for each percent",
    );
    refused(
        &Folder::example().but("requests.csv", "Alto,100,", "Alto,4294967296,"),
        "requests.csv, line 2, column input_tokens: 4294967296 is out of range; a whole number from 0 to 4294967295 was wanted",
    );
    refused(
        &Folder::example().but("requests.csv", ",10000,5000,1000,", ",9223372036854775808,5000,1000,"),
        "requests.csv, line 2, column value_microunits: 9223372036854775808 is out of range; \
         whole microunits from -9223372036854775808 to 9223372036854775807 were wanted",
    );
}

#[test]
fn percentages_finer_than_a_basis_point() {
    let folder =
        Folder::example().but("models.csv", "quality_bps", "quality_percent").but("models.csv", "9000", "90.001");
    refused(
        &folder,
        "models.csv, line 2, column quality_percent: \"90.001\" has too many decimals, and nothing is rounded; \
         a percentage from 0 to 100 with at most two decimals was wanted",
    );
}

#[test]
fn names_that_are_not_known_or_can_not_be() {
    refused(
        &Folder::example().but("requests.csv", "Alto", "Alta"),
        "requests.csv, line 2, column requested_model: no model of models.csv is called \"Alta\"; did you mean Alto?",
    );
    refused(
        &Folder::example().but("models.csv", "0|1", "captions|speech").but("models.csv", "50,0", "50,captions").but(
            "requests.csv",
            "5000,0",
            "5000,speach",
        ),
        "requests.csv, line 2, column required_capabilities: no capability is called \"speach\"; did you mean speech?",
    );
    refused(
        &Folder::example().but("models.csv", "Brio,2,1", "Brio,2,64"),
        "models.csv, line 3, column provider: \"64\" is out of range; a provider by number is from 0 to 63",
    );
    refused(
        &Folder::example().but("models.csv", "Brio,2,1", "Brio,2,Largo"),
        "models.csv, line 3, column provider: \"Largo\" is a name, and an earlier line has a number; write one or the other throughout",
    );
    refused(
        &Folder::example().but("models.csv", "Alto,1,0", "Alto,1,Largo"),
        "models.csv, line 3, column provider: \"1\" is a number, and an earlier line has a name; write one or the other throughout",
    );
    refused(
        &Folder::example().but("models.csv", "0|1", "0||1"),
        "models.csv, line 2, column capabilities: \"0||1\" has nothing between two marks |",
    );
}

#[test]
fn texts_that_are_not_utf_8() {
    let latin = MODELS
        .replace("Brio", "Br~o")
        .into_bytes()
        .iter()
        .map(|byte| if *byte == b'~' { 0xef } else { *byte })
        .collect::<Vec<u8>>();
    refused(
        &Folder::example().with("models.csv", latin),
        "models.csv, line 3: the text isn't in UTF-8 from here on; save it as CSV in UTF-8",
    );
    let wide: Vec<u8> = [0xfeff].into_iter().chain(MODELS.encode_utf16()).flat_map(u16::to_le_bytes).collect();
    refused(&Folder::example().with("models.csv", wide), "models.csv: the text is in UTF-16; save it as CSV in UTF-8");
    refused(
        &Folder::example().but("models.csv", "Brio", "\"Br\nio\""),
        "models.csv, line 3, column name: the cell \"Br\\nio\" has a line break in it; write it on one line, or in a column called notes",
    );
}

#[test]
fn a_list_that_is_all_off() {
    let folder = Folder::example().but("models.csv", "yes", "no").but("models.csv", "yes", "no");
    refused(&folder, "refused 15: every model is switched off");
}
