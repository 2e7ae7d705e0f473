//! Exit statuses, the help, and files that are whole or not there.
mod common;
use common::{many_models, Dice, Folder};
use std::io::Read;
use std::process::Stdio;

#[test]
fn done_is_0() {
    let folder = Folder::example();
    for arguments in
        [&["table"][..], &["why", "Alto"], &["why", "2"], &["pack", "--stored", "s.bin"], &["table", "--csv", "t.csv"]]
    {
        assert_eq!(folder.run(arguments).status, 0, "{arguments:?}");
    }
    assert_eq!(folder.run(&["unpack", "s.bin", "--models-out", "m.csv"]).status, 0);
}

#[test]
fn refused_is_1() {
    let folder = Folder::example();
    let ran = folder.run(&["why", "Altoo"]);
    assert_eq!(
        (ran.status, ran.err.as_str()),
        (1, "desk: refused 5: no model of models.csv is called \"Altoo\"; did you mean Alto?\n")
    );
    let ran = folder.run(&["table", "--request", "43"]);
    assert_eq!((ran.status, ran.err.as_str()), (1, "desk: requests.csv has no request with the sequence number 43\n"));
    let ran = folder.run(&["table", "--models", "none.csv"]);
    assert_eq!(
        (ran.status, ran.err.as_str()),
        (1, "desk: none.csv: can't be read: No such file or directory (os error 2)\n")
    );
    let ran = folder.run(&["table", "--csv", "no/where.csv"]);
    assert_eq!(
        (ran.status, ran.err.as_str()),
        (1, "desk: no/where.csv: can't be written: No such file or directory (os error 2)\n")
    );
}

#[test]
fn called_wrongly_is_2() {
    let folder = Folder::example();
    let calls: [&[&str]; 10] = [
        &[],
        &["tables"],
        &["table", "more"],
        &["why"],
        &["why", "Alto", "Brio"],
        &["table", "--request", "first"],
        &["table", "--separator", "colon"],
        &["pack"],
        &["unpack", "s.bin"],
        &["unpack"],
    ];
    for arguments in calls {
        let ran = folder.run(arguments);
        assert_eq!((ran.status, ran.out.as_str()), (2, ""), "{arguments:?}");
        assert!(ran.err.contains("--help"), "{arguments:?}: {}", ran.err);
    }
    let two = folder.but("requests.csv", "5000,0\n", "5000,0\n43,Brio,1,1,1,1,0,10000,0,0\n");
    for arguments in [&["table"][..], &["why", "Alto"], &["pack", "--input", "i.bin"]] {
        let line = "desk: requests.csv has 2 requests: tell one by its sequence number, as --request 42\n";
        let ran = two.run(arguments);
        assert_eq!((ran.status, ran.err.as_str()), (2, line), "{arguments:?}");
    }
}

/// Whoever reads the help can write the files: each column of each file is in it.
#[test]
fn the_help_suffices() {
    let help = Folder::new().told(&["--help"]);
    let fields = desk::models::FIELDS
        .iter()
        .chain(&desk::policy::FIELDS)
        .chain(&desk::requests::FIELDS)
        .chain(&desk::legend::FIELDS);
    for (column, _) in fields.flat_map(|field| field.columns) {
        assert!(help.contains(column), "{column}");
    }
    for word in
        ["table", "why", "pack", "unpack", "Exit status: 0", "1,000,000 microunits", "notes", "at most six decimals"]
    {
        assert!(help.contains(word), "{word}");
    }
    let help = Folder::new().told(&["table", "--help"]);
    for verdict in ["chosen", "outranked", "rejected", "budget", "utility", "off", "stopped"] {
        assert!(help.contains(verdict), "{verdict}");
    }
    for command in ["table", "why", "pack", "unpack"] {
        let help = Folder::new().told(&[command, "--help"]);
        assert!(help.contains("--decimal-comma") && help.contains("--names"), "{help}");
    }
}

/// A reader that goes away early is no fault.
#[test]
fn standard_output_closed_early() {
    let folder =
        Folder::example().with("models.csv", many_models(900, &mut Dice::new(5))).but("requests.csv", "Alto", "1");
    let folder = folder.but("requests.csv", "5000,0\n", "5000,captions\n");
    let mut child =
        folder.command(&["table"]).stdout(Stdio::piped()).stderr(Stdio::piped()).spawn().expect("the program runs");
    let mut some = [0; 10];
    child.stdout.take().expect("a pipe").read_exact(&mut some).expect("the first bytes");
    let ended = child.wait_with_output().expect("it ends");
    assert_eq!((ended.status.code(), String::from_utf8(ended.stderr).expect("text")), (Some(0), String::new()));
}

/// Where one of several files can't be written, none is.
#[test]
fn files_are_written_together() {
    let folder = Folder::example().with("stored.bin", "old");
    let ran = folder.run(&["pack", "--stored", "stored.bin", "--input", "no/where.bin"]);
    assert_eq!(
        (ran.status, ran.err.as_str()),
        (1, "desk: no/where.bin: can't be written: No such file or directory (os error 2)\n")
    );
    assert_eq!(folder.text("stored.bin"), "old");
    assert_eq!(folder.files(), ["models.csv", "policy.csv", "requests.csv", "stored.bin"]);
}

/// No file that is read is written over, and none is written twice.
#[test]
fn files_are_kept() {
    let folder = Folder::example();
    folder.told(&["pack", "--stored", "stored.bin"]);
    let before = folder.files();
    for (arguments, line) in [
        (
            &["table", "--csv", "models.csv"][..],
            "models.csv is read here, and would be written over; name another file",
        ),
        (
            &["pack", "--input", "requests.csv"],
            "requests.csv is read here, and would be written over; name another file",
        ),
        (&["pack", "--input", "a.bin", "--stored", "a.bin"], "a.bin is to be written twice; name two files"),
        (
            &["unpack", "stored.bin", "--models-out", "stored.bin"],
            "stored.bin is read here, and would be written over; name another file",
        ),
    ] {
        let ran = folder.run(arguments);
        assert_eq!((ran.status, ran.err), (2, format!("desk: {line}\n")), "{arguments:?}");
    }
    assert_eq!(folder.files(), before);
    assert_eq!(folder.text("models.csv"), common::MODELS);
}

/// A refused form names its file, its number, the model and the value.
#[test]
fn refused_bytes() {
    let folder = Folder::example();
    folder.told(&["pack", "--input", "input.bin"]);
    let changed = |at: usize, bytes: &[u8]| {
        let mut input = folder.bytes("input.bin");
        input[at..at + bytes.len()].copy_from_slice(bytes);
        let folder =
            Folder::new().with("input.bin", input).with("names.csv", "kind,number,name\nmodel,1,Alto\nmodel,2,Brio\n");
        let ran = folder.run(&[
            "unpack",
            "input.bin",
            "--models-out",
            "m.csv",
            "--requests-out",
            "r.csv",
            "--names",
            "names.csv",
        ]);
        assert_eq!((ran.status, folder.files()), (1, vec!["input.bin".to_owned(), "names.csv".to_owned()]));
        ran.err
    };
    // The policy's numbers begin at byte 3, the first model at 36, the second at 83, the request at 133.
    assert_eq!(
        changed(3 + 16, &10_001u16.to_le_bytes()),
        "desk: input.bin: refused 10: the policy's hard risk limit is 10001 basis points; at most 10000 are allowed\n"
    );
    assert_eq!(
        changed(3 + 20, &50_001u16.to_le_bytes()),
        "desk: input.bin: refused 10: the policy's risk multiplier is 50001 basis points; at most 50000 are allowed\n"
    );
    assert_eq!(changed(83, &1u32.to_le_bytes()), "desk: input.bin: refused 12: Alto is listed more than once\n");
    assert_eq!(
        changed(83 + 4, &64u16.to_le_bytes()),
        "desk: input.bin: refused 13: Brio has provider 64; providers go from 0 to 63\n"
    );
    assert_eq!(
        changed(83 + 6, &12_000u16.to_le_bytes()),
        "desk: input.bin: refused 14: Brio has a quality of 12000 basis points; at most 10000 are allowed\n"
    );
    assert_eq!(
        changed(36 + 8, &10_001u16.to_le_bytes()),
        "desk: input.bin: refused 14: Alto has a risk ceiling of 10001 basis points; at most 10000 are allowed\n"
    );
    assert_eq!(changed(36, &0u32.to_le_bytes()), "desk: input.bin: refused 16: a model has id 0; ids begin with 1\n");
    assert_eq!(
        changed(36 + 10, &[2]),
        "desk: input.bin: refused 17: Alto has 2 where 1 for switched on or 0 for off was wanted\n"
    );
    assert_eq!(
        changed(133 + 36, &10_001u16.to_le_bytes()),
        "desk: input.bin: refused 3: the request's risk is 10001 basis points; at most 10000 are allowed\n"
    );
    assert_eq!(changed(0, &[9]), "desk: input.bin: refused 21: a field isn't due where it stands, or one is missing, or something stands after the last\n");
    assert_eq!(changed(1, &[31]), "desk: input.bin: refused 22: a field has a length that isn't its own\n");
}
