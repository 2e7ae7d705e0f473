//! Cells that spreadsheets and people write, read as they are meant or refused with a line that says what to do.
mod common;
use common::{Folder, MODELS};

fn refused(folder: &Folder, line: &str) {
    let ran = folder.run(&["table"]);
    assert_eq!((ran.status, ran.out.as_str(), ran.err), (1, "", format!("desk: {line}\n")));
}

/// The table of the worked example.
fn table() -> String {
    Folder::example().told(&["table"])
}

/// Of two names, how the list is told with either.
fn alike(old: &str, new: &str) {
    assert_eq!(Folder::example().but("models.csv", old, new).told(&["table"]), table(), "{new:?}");
}

#[test]
fn all_and_none_in_any_case() {
    for (word, capital) in [("all", "All"), ("none", "NONE")] {
        let list = |word: &str| {
            let folder = Folder::example().but("models.csv", "0|1,0", &format!("{word},{word}"));
            folder.but("requests.csv", "Alto", if word.to_lowercase() == "none" { capital } else { "1" })
        };
        assert_eq!(list(word).told(&["table"]), list(capital).told(&["table"]));
    }
    refused(
        &Folder::example().but("models.csv", "Brio", "None"),
        "models.csv, line 3, column name: a model can't be called None, which requests none",
    );
}

/// A comma within a cell parts nothing: two names are no name.
#[test]
fn lists_are_parted_by_a_bar() {
    for list in ["captions, noise", "captions;noise", "0,1"] {
        let line = format!("\"{list}\" can't be a name, and a list of names is parted by |, as captions|noise");
        let capabilities = Folder::example().but("models.csv", "0|1", &format!("\"{list}\""));
        refused(&capabilities, &format!("models.csv, line 2, column capabilities: {line}"));
        let regions = Folder::example().but("models.csv", "0|1,0", &format!("0|1,\"{list}\""));
        refused(&regions, &format!("models.csv, line 2, column regions: {line}"));
    }
    // A provider is one name, which may have a comma; a list of them may not.
    let folder = Folder::example()
        .but("models.csv", "Alto,1,0", "Alto,1,\"Largo, Inc.\"")
        .but("models.csv", "Brio,2,1", "Brio,2,Lento")
        .but("requests.csv", "required_capabilities", "allowed_providers");
    let told = folder.but("requests.csv", "5000,0\n", "5000,\"Largo, Inc.|Lento\"\n");
    assert!(told.told(&["table"]).contains("outranked by Brio"));
    refused(
        &told.but("requests.csv", "|", ", "),
        "requests.csv, line 2, column allowed_providers: no provider is called \"Largo, Inc., Lento\"; names are parted by |",
    );
}

#[test]
fn names_that_differ_by_capitals() {
    let folder = Folder::example().but("models.csv", "0|1", "captions").but("models.csv", "50,0", "50,Captions");
    let what = "\"Captions\" and \"captions\" differ by capitals alone; write one of them throughout";
    refused(&folder, &format!("models.csv, line 3, column capabilities: {what}"));
}

/// Blanks around quotes are no part of a cell; a quote within one is.
#[test]
fn blanks_around_quotes() {
    let typed = |text: &str| text.replace(',', "\" , \"").replace('\n', "\" \n  \"");
    let models = format!(" \"{}", typed(MODELS).trim_end_matches(['"', ' ']));
    assert_eq!(Folder::example().with("models.csv", models).told(&["table"]), table());
    let named = Folder::example().but("models.csv", "Brio", " \"Brio, \"\"2\"\" \" ");
    assert!(named.told(&["why", "Alto"]).starts_with("Chosen: Brio, \"2\", at a cost of"));
    let within = Folder::example().but("models.csv", "Brio", "Brio \"2\" ");
    assert!(within.told(&["why", "Alto"]).starts_with("Chosen: Brio \"2\", at a cost of"));
    let open = Folder::example().but("models.csv", "Brio", "  \"Brio");
    refused(&open, "models.csv, line 3: a quote (\") is opened here and never closed; was the file cut?");
}

#[test]
fn line_breaks_and_tabs() {
    let noted = MODELS.replace("enabled", "notes").replacen("yes", "\"first\nsecond\tthird\"", 1);
    assert_eq!(Folder::example().with("models.csv", &noted).told(&["table"]), table());
    let lines = Folder::example().with("models.csv", noted.replace(",50,", ",fast,"));
    assert!(lines
        .run(&["table"])
        .err
        .starts_with("desk: models.csv, line 4, column latency_ms: \"fast\" is no number"));
    alike("quality_bps", "\"Quality\n(bps)\"");
    let tab = Folder::example().but("models.csv", "Brio", "Br\tio");
    refused(&tab, "models.csv, line 3, column name: the cell \"Br\\tio\" has a tab in it; write a blank");
}

/// Two names that look alike, and one that turns its line round.
#[test]
fn letters_that_can_not_be_seen() {
    for (letter, number) in
        [('\u{200b}', "200B"), ('\u{202e}', "202E"), ('\u{2028}', "2028"), ('\0', "0000"), ('\u{feff}', "FEFF")]
    {
        let ran = Folder::example().but("models.csv", "Brio", &format!("Br{letter}io")).run(&["table"]);
        let line = format!("\" has a letter in it that can't be seen (U+{number}); take it out\n");
        assert!(
            ran.status == 1
                && ran.err.starts_with("desk: models.csv, line 3, column name: ")
                && ran.err.ends_with(&line)
        );
        assert!(!ran.err.contains(letter), "{:?}", ran.err);
    }
}

/// What stands over the header line: a spreadsheet's own word for the separator is taken, a title is not.
#[test]
fn lines_above_the_header() {
    for (sep, mark) in
        [("sep=,", ","), ("sep=;", ";"), ("SEP=;", ";"), ("\"sep=;\"", ";"), ("sep=\t", "\t"), ("sep=,,,,,", ",")]
    {
        let models = format!("{sep}\r\n{}", MODELS.replace(',', mark));
        assert_eq!(Folder::example().with("models.csv", &models).told(&["table"]), table(), "{sep:?}");
        let ran = Folder::example().with("models.csv", models.replace("yes", "maybe")).run(&["table"]);
        assert!(ran.err.starts_with("desk: models.csv, line 3, column enabled: "), "{}", ran.err);
    }
    for title in ["Price list 2026", "Price list 2026,,,,,,,,,,", ",,Price list"] {
        let titled = Folder::example().with("models.csv", format!("{title}\n\n{MODELS}"));
        refused(
            &titled,
            "models.csv, line 1: the names of the columns stand on line 3; take out what stands above them",
        );
    }
    let semicolons = format!("Price list\n{}", MODELS.replace(',', ";"));
    refused(
        &Folder::example().with("models.csv", semicolons),
        "models.csv, line 1: the names of the columns stand on line 2; take out what stands above them",
    );
    let one = Folder::example().with("models.csv", "name\nAlto,1\n").run(&["table"]);
    assert_eq!(one.err, "desk: models.csv, line 1: the column provider is missing\n");
}

#[test]
fn one_cell_was_wanted() {
    let sheet = desk::sheet::Sheet::parse("f", b"name\nAlto,1\n", desk::sheet::Dialect { separator: None, mark: '.' });
    let fault = desk::cells::check(&sheet.expect("a sheet"), &[desk::cells::Column::Notes]).expect_err("two cells");
    let line =
        "f, line 2: 1 cell was wanted as in the header line, 2 found; a cell with a separator in it stands in quotes";
    assert_eq!(fault.to_string(), line);
}

#[test]
fn long_names() {
    let named =
        |count: usize| Folder::example().but("models.csv", "Brio", &"é".repeat(count)).but("requests.csv", "Alto", "1");
    let longest = named(200).told(&["table"]);
    // The long name shifts its own line and no other.
    let width = |name: &str| longest.lines().find(|line| line.starts_with(name)).map_or(0, |line| line.chars().count());
    assert!(width("Alto") < 400 && width("model ") < 180 && width("é") > 200, "{longest}");
    for count in [201, 70_000] {
        let line = format!("\"{}..\" has {count} letters; at most 200 are read", "é".repeat(40));
        refused(&named(count), &format!("models.csv, line 3, column name: {line}"));
    }
    let provider = Folder::example().but("models.csv", "0|1", &format!("a|{}", "b".repeat(201)));
    let line = format!("\"{}..\" has 201 letters; a name has at most 200", "b".repeat(40));
    refused(&provider, &format!("models.csv, line 2, column capabilities: {line}"));
    // 64 names of any length fit in a cell.
    let full: Vec<String> = (0..64).map(|number| format!("{number:x>200}")).collect();
    let list = Folder::example().but("models.csv", "100,0|1", &format!("100,{}", full.join(" | ")));
    let list = list.but("models.csv", "50,0", &format!("50,{}", full[0])).but(
        "requests.csv",
        "5000,0",
        &format!("5000,{}", full[63]),
    );
    assert!(list.told(&["table"]).starts_with("Request 42 of requests.csv.\nChosen: Alto,"));
}

/// A hint is for slips of the pen: nothing is near to a word of one letter, or to a long one.
#[test]
fn what_may_be_meant() {
    let known = ["a", "Alto", "quality_bps"];
    let near = |word: &str| desk::fault::nearest(word, known.into_iter());
    assert_eq!((near(""), near("c"), near("3")), (None, None, None));
    assert_eq!((near("ab"), near("Altoo"), near("qualty_bps")), (Some("a"), Some("Alto"), Some("quality_bps")));
    let (long, same) = ("x".repeat(60), "x".repeat(59));
    assert_eq!(desk::fault::nearest(&long, [same.as_str()].into_iter()), Some(same.as_str()));
    assert_eq!(desk::fault::nearest(&"x".repeat(61), [long.as_str()].into_iter()), None);
    let title = Folder::example().but("models.csv", "quality_bps", &"q".repeat(1_000_000)).run(&["table"]);
    assert!(title
        .err
        .starts_with(&format!("desk: models.csv, line 1: no column is called \"{}..\"; known are", "q".repeat(40))));
}

#[test]
fn a_share_of_one_in_a_percentage() {
    let folder =
        Folder::example().but("models.csv", "quality_bps", "quality_percent").but("models.csv", "9000", "0.964");
    refused(
        &folder,
        "models.csv, line 2, column quality_percent: \"0.964\" has too many decimals, and nothing is rounded \
         (if 96.4 percent is meant, write 96.4); a percentage from 0 to 100 with at most two decimals was wanted",
    );
}

/// Names go back to a spreadsheet in tables.
#[test]
fn formulas_are_no_names() {
    for name in ["=1+1", "+x", "-x"] {
        let line = format!("\"{name}\" can't be a name: spreadsheets take it for a formula");
        refused(
            &Folder::example().but("models.csv", "Brio", name),
            &format!("models.csv, line 3, column name: {line}"),
        );
        let provider = Folder::example().but("models.csv", "Alto,1,0", &format!("Alto,1,{name}"));
        refused(&provider, &format!("models.csv, line 2, column provider: {line}"));
    }
    assert!(Folder::example().but("models.csv", "Brio", "@cf/brio").told(&["table"]).contains("Chosen: @cf/brio, "));
}

#[test]
fn other_encodings() {
    let wide: Vec<u8> = MODELS.encode_utf16().flat_map(u16::to_le_bytes).collect();
    refused(&Folder::example().with("models.csv", &wide), "models.csv: the text is in UTF-16; save it as CSV in UTF-8");
    let wide: Vec<u8> = MODELS.encode_utf16().flat_map(u16::to_be_bytes).collect();
    refused(&Folder::example().with("models.csv", &wide), "models.csv: the text is in UTF-16; save it as CSV in UTF-8");
    for (end, line) in [("\r", 3), ("\r\n", 3), ("\n", 3)] {
        let text = MODELS.replace('\n', end).replace("Brio", "Br\u{1}").into_bytes();
        let latin: Vec<u8> = text.into_iter().map(|byte| if byte == 1 { 0xef } else { byte }).collect();
        let what = "the text isn't in UTF-8 from here on; save it as CSV in UTF-8";
        refused(&Folder::example().with("models.csv", latin), &format!("models.csv, line {line}: {what}"));
    }
}

/// Letters that are two wide on a terminal shift nothing.
#[test]
fn wide_letters() {
    let rows = [["漢字", "1"], ["ab", "20"]].map(|row| row.map(str::to_owned).to_vec());
    assert_eq!(desk::layout::aligned(&rows, 1..2), "漢字   1\nab    20\n");
}
