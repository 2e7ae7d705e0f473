//! Files to bytes, back, and to bytes again: the same bytes, and the second files are the first ones as they would be written.
mod common;
use common::{example_list, example_list_200_ms_free, many_models, Dice, Folder};

const FORMS: [&str; 10] = [
    "pack",
    "--stored",
    "stored.bin",
    "--request-forms",
    "requests.bin",
    "--request",
    "1",
    "--names-out",
    "names.csv",
    "--input",
];

/// Packs a folder's files, unpacks them elsewhere with the names, packs those again, and compares; then the same without names.
fn comes_back(folder: &Folder) {
    folder.told(&[&FORMS[..], &["input.bin"]].concat());
    for named in [true, false] {
        let (again, names) = (unpacked(folder, named), if named { &["--names", "names.csv"][..] } else { &[] });
        again.told(
            &[&["pack", "--input", "input.bin", "--stored", "stored.bin", "--request-forms", "requests.bin"], names]
                .concat(),
        );
        for file in ["stored.bin", "requests.bin", "input.bin"] {
            assert_eq!(folder.bytes(file), again.bytes(file), "{file}, named: {named}");
        }
        let third = unpacked(&again, named);
        for file in ["models.csv", "policy.csv", "requests.csv"] {
            assert_eq!(again.text(file), third.text(file), "{file}, named: {named}");
        }
    }
}

fn unpacked(folder: &Folder, named: bool) -> Folder {
    let again = Folder::new().with("form.bin", folder.bytes("input.bin"));
    let names = if named { &["--names", "names.csv"][..] } else { &[] };
    let again = if named { again.with("names.csv", folder.bytes("names.csv")) } else { again };
    let out = [
        "unpack",
        "form.bin",
        "--models-out",
        "models.csv",
        "--policy-out",
        "policy.csv",
        "--requests-out",
        "requests.csv",
    ];
    again.told(&[&out[..], names].concat());
    again
}

#[test]
fn the_example_list() {
    comes_back(&example_list());
    comes_back(&example_list_200_ms_free());
}

/// Names come back where they are told, and numbers stand for them where they aren't.
#[test]
fn names_and_numbers() {
    let folder = example_list();
    folder.told(&[&FORMS[..], &["input.bin"]].concat());
    let (named, numbered) = (unpacked(&folder, true), unpacked(&folder, false));
    let line = |folder: &Folder, file: &str| folder.text(file).lines().nth(1).expect("a line").to_owned();
    assert_eq!(
        line(&named, "models.csv"),
        "Auralis Large,101,Auralis,9640,8000,yes,420,captions|speakers|noise,eu|us,2.5,10"
    );
    assert_eq!(line(&numbered, "models.csv"), "model-101,101,0,9640,8000,yes,420,0|1|2,0|1,2.5,10");
    assert_eq!(line(&named, "requests.csv"), "1,Fjord Captions,900,220,0.012,0.004,1000,9700,8800,400,captions,all,eu");
    assert_eq!(line(&numbered, "requests.csv"), "1,model-601,900,220,0.012,0.004,1000,9700,8800,400,0,all,0");
    assert_eq!(line(&named, "policy.csv"), "9000,2000,10000,0.000002,once,,7,3");
}

/// A number that a name was given once stays with it, however the list is ordered and grows.
#[test]
fn names_keep_their_numbers() {
    let folder = example_list();
    folder.told(&["pack", "--stored", "stored.bin", "--names-out", "names.csv"]);
    let text = folder.text("models.csv");
    let (header, rows) = text.split_once('\n').expect("a header line");
    let mut turned: Vec<&str> = rows.lines().collect();
    turned.reverse();
    let turned = folder.with("models.csv", format!("{header}\n{}\n", turned.join("\n")));
    turned.told(&["pack", "--stored", "turned.bin", "--names", "names.csv"]);
    let (_, first) = volankizo::read_stored(&turned.bytes("stored.bin")).expect("a stored form");
    let (_, second) = volankizo::read_stored(&turned.bytes("turned.bin")).expect("a stored form");
    let mut models = second.models().expect("models");
    models.reverse();
    assert_eq!(first.models().expect("models"), models);
    let grown = turned.but("models.csv", "Harmonia 7,801,Harmonia", "Harmonia 7,801,Iris");
    let ran = grown.run(&["pack", "--stored", "turned.bin", "--names", "names.csv"]);
    assert_eq!(
        (ran.status, ran.err.as_str()),
        (1, "desk: models.csv, line 2, column provider: no provider is called \"Iris\" in the file of names\n")
    );
}

fn random_requests(count: u64, dice: &mut Dice) -> String {
    let header =
        "sequence,requested_model,input_tokens,output_tokens,value_currency,budget_microunits,risk_bps,confidence_bps,\
                  minimum_quality_bps,latency_limit_ms,required_capabilities,allowed_providers,required_regions\n";
    let line = |sequence: u64| {
        let value = dice.any() as i64;
        let providers = ["all", "none", "Provider 1|Provider 2", ""][dice.below(4) as usize];
        format!(
            "{sequence},{},{},{},{},{},{},{},{},{},{},{providers},{}\n",
            ["none", "", "Model 00007", "4000000000"][dice.below(4) as usize],
            dice.below(1 << 32),
            dice.below(1 << 32),
            desk::decimal::shown(value.into(), 6, '.'),
            dice.any(),
            101 + dice.below(9_900),
            101 + dice.below(9_900),
            101 + dice.below(9_900),
            dice.below(1 << 32),
            ["captions", "none", "speakers|captions", ""][dice.below(4) as usize],
            ["eu", "none", "us|eu", ""][dice.below(4) as usize],
        )
    };
    header.to_owned() + &(1..=count).map(line).collect::<String>()
}

#[test]
fn random_lists() {
    for seed in 0..12 {
        let mut dice = Dice::new(seed);
        let policy = format!(
            "hard_risk_limit_bps,minimum_confidence_bps,risk_multiplier_bps,latency_penalty_microunits_per_ms,policy_epoch,catalogue_epoch,rounding,latency_allowance_ms\n\
             {},{},{},{},{},{},{},{}\n",
            101 + dice.below(9_900),
            101 + dice.below(9_900),
            101 + dice.below(49_900),
            dice.any(),
            dice.any(),
            dice.any(),
            ["apart", "once"][dice.below(2) as usize],
            [0, 1 + dice.below(u32::MAX.into())][dice.below(2) as usize]
        );
        let models = many_models(40 + dice.below(300) as usize, &mut dice);
        let requests = random_requests(1, &mut dice);
        comes_back(&Folder::new().with("models.csv", models).with("policy.csv", policy).with("requests.csv", requests));
    }
}

/// Many requests stand one after the other, 73 bytes each, and come back in their order.
#[test]
fn many_requests() {
    let mut dice = Dice::new(99);
    let requests = random_requests(200, &mut dice);
    let folder = Folder::example().with("models.csv", many_models(50, &mut dice)).with("requests.csv", requests);
    folder.told(&["pack", "--request-forms", "requests.bin", "--names-out", "names.csv"]);
    let forms = folder.bytes("requests.bin");
    assert_eq!(forms.len(), 200 * 73);
    folder.told(&["unpack", "requests.bin", "--requests-out", "again.csv", "--names", "names.csv"]);
    folder.told(&["pack", "--requests", "again.csv", "--request-forms", "again.bin", "--names", "names.csv"]);
    assert_eq!(folder.bytes("again.bin"), forms);
}
