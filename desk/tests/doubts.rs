//! What is warned of, on standard error, while the answer is given all the same.
mod common;
use common::{many_models, Dice, Folder};

fn warned(folder: &Folder, arguments: &[&str], lines: &[&str]) {
    let ran = folder.run(arguments);
    let told: String = lines.iter().map(|line| format!("desk: warning: {line}\n")).collect();
    assert_eq!((ran.status, ran.err), (0, told));
    assert!(!ran.out.is_empty());
}

#[test]
fn percent_where_basis_points_are_meant() {
    let line =
        "models.csv, line 2, column quality_bps: 90 basis points are 0.9 percent; if 90 percent is meant, write 9000";
    let one = Folder::example().but("models.csv", "Alto,1,0,9000", "Alto,1,0,90");
    warned(&one, &["table"], &[line]);
    let both = one.but("models.csv", "Brio,2,1,8000", "Brio,2,1,80").but("requests.csv", "10000,5000,0", "10000,0,0");
    warned(&both, &["table"], &[&format!("{line} (and on 1 more line of this column)")]);
    let at_100 = Folder::example().but("requests.csv", "5000,1000,", "5000,100,");
    let line =
        "requests.csv, line 2, column risk_bps: 100 basis points are 1 percent; if 100 percent is meant, write 10000";
    warned(&at_100, &["why", "Alto"], &[line]);
    let at_101 = Folder::example().but("requests.csv", "5000,1000,", "5000,101,");
    warned(&at_101, &["why", "Alto"], &[]);
    let at_0 = Folder::example().but("requests.csv", "5000,1000,", "5000,0,");
    warned(&at_0, &["why", "Alto"], &[]);
}

#[test]
fn a_share_where_percent_is_meant() {
    let folder = Folder::example()
        .but("policy.csv", "hard_risk_limit_bps", "hard_risk_limit_percent")
        .but("policy.csv", "\n9000,", "\n0.9,")
        .but("requests.csv", "5000,1000,", "5000,0,");
    let line = "policy.csv, line 2, column hard_risk_limit_percent: 0.9 percent are 90 basis points; if 90 percent is meant, write 90";
    warned(&folder, &["table"], &[line]);
}

/// The multiplier goes up to 500 percent, so that 500 is a percentage that may be meant.
#[test]
fn percent_in_the_multiplier() {
    let with = |cell: &str| Folder::example().but("policy.csv", ",10000,", &format!(",{cell},"));
    let line = |cell: &str, percent: &str| {
        format!(
            "policy.csv, line 2, column risk_multiplier_bps: {cell} basis points are {percent} percent; if {cell} percent is meant, write {cell}00"
        )
    };
    warned(&with("101"), &["table"], &[&line("101", "1.01")]);
    warned(&with("500"), &["table"], &[&line("500", "5")]);
    warned(&with("501"), &["table"], &[]);
    warned(&with("0"), &["table"], &[]);
    let percent = with("1.5").but("policy.csv", "risk_multiplier_bps", "risk_multiplier_percent");
    let line = "policy.csv, line 2, column risk_multiplier_percent: 1.5 percent are 150 basis points; if 150 percent is meant, write 150";
    warned(&percent, &["table"], &[line]);
}

/// The unit takes 900 models; a longer list gives its table all the same, a stored form too, but no input of the programs.
#[test]
fn more_models_than_the_unit_takes() {
    let list = |count| {
        Folder::example()
            .with("models.csv", many_models(count, &mut Dice::new(3)))
            .but("requests.csv", "Alto", "7")
            .but("requests.csv", "5000,0\n", "5000,captions\n")
    };
    assert_eq!(list(900).told(&["table", "--csv", "-"]).lines().count(), 901);
    let over = list(901);
    let line = "models.csv: the unit takes 900 models, and these are 901; it would refuse them with 19";
    warned(&over, &["table"], &[line]);
    assert_eq!(over.run(&["table", "--csv", "-"]).out.lines().count(), 902);
    let ran = over.run(&["pack", "--stored", "stored.bin", "--names-out", "names.csv"]);
    assert_eq!((ran.status, ran.err), (0, format!("desk: warning: {line}\n")));
    let ran = over.run(&["pack", "--input", "input.bin", "--names-out", "more.csv"]);
    assert_eq!(
        (ran.status, ran.err),
        (1, format!("desk: warning: {line}\ndesk: refused 19: the unit and ask take 900 models, and these are 901\n"))
    );
    assert_eq!(over.files(), ["models.csv", "names.csv", "policy.csv", "requests.csv", "stored.bin"]);
}

#[test]
fn more_models_than_a_stored_form_takes() {
    let folder = Folder::example().with("models.csv", many_models(1_395, &mut Dice::new(3)));
    let ran = folder.run(&["pack", "--stored", "stored.bin", "--names-out", "names.csv"]);
    assert_eq!(ran.status, 1);
    assert!(
        ran.err.ends_with("desk: refused 18: a stored form takes 1394 models, and these are 1395\n"),
        "{}",
        ran.err
    );
    assert_eq!(folder.files(), ["models.csv", "policy.csv", "requests.csv"]);
}

/// Numbers by the order of lines are no good for bytes that others keep.
#[test]
fn numbers_by_the_order_of_lines() {
    let folder =
        Folder::example().but("models.csv", "Alto,1,0", "Alto,1,Largo").but("models.csv", "Brio,2,1", "Brio,2,Lento");
    let ran = folder.run(&["pack", "--stored", "stored.bin"]);
    let line = "models.csv: names got their numbers by the order of lines; keep them with --names-out FILE and tell them next time with --names FILE";
    assert_eq!((ran.status, ran.err), (0, format!("desk: warning: {line}\n")));
    folder.told(&["pack", "--stored", "stored.bin", "--names-out", "names.csv"]);
    folder.told(&["pack", "--stored", "stored.bin", "--names", "names.csv"]);
    assert_eq!(
        folder.text("names.csv"),
        "kind,number,name\nmodel,1,Alto\nmodel,2,Brio\nprovider,0,Largo\nprovider,1,Lento\n"
    );
}
