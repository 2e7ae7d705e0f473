//! The commands of the README, run as they are written, print what it shows; `..` stands for whatever is left out there.
mod common;
use common::{example_list, examples, Folder, FREE_POLICY};

/// The commands behind `$ desk`, each with the lines under it.
fn shown() -> Vec<(Vec<String>, Vec<String>)> {
    let text = include_str!("../README.md");
    let mut shown: Vec<(Vec<String>, Vec<String>)> = Vec::new();
    let mut open = false;
    for line in text.lines() {
        if let Some(command) = line.strip_prefix("    $ desk ") {
            shown.push((words(command), Vec::new()));
            open = true;
        } else if let Some(printed) = line.strip_prefix("    ").filter(|_| open) {
            shown.last_mut().expect("a command").1.push(printed.to_owned());
        } else if line.is_empty() && open {
            shown.last_mut().expect("a command").1.push(String::new());
        } else {
            open = false;
        }
    }
    shown
}

/// The words of a command; those in quotes are one.
fn words(command: &str) -> Vec<String> {
    let parts = command.split('"').enumerate();
    parts
        .flat_map(|(place, part)| {
            if place % 2 == 1 {
                vec![part.to_owned()]
            } else {
                part.split_whitespace().map(str::to_owned).collect()
            }
        })
        .collect()
}

/// Whether a text is what is shown, where `..` at the end of a line or on one by itself leaves something out.
fn fits(shown: &[String], told: &[&str]) -> bool {
    match (shown.split_first(), told.split_first()) {
        (None, rest) => rest.is_none(),
        (Some((first, others)), rest) if first == ".." => {
            fits(others, told) || rest.is_some_and(|(_, rest)| fits(shown, rest))
        }
        (Some((first, others)), Some((line, rest))) => {
            let same = first.strip_suffix("..").map_or(first == line, |begins| line.starts_with(begins));
            same && fits(others, rest)
        }
        (Some(_), None) => false,
    }
}

#[test]
fn commands_print_what_is_shown() {
    let folder = example_list();
    std::fs::create_dir_all(folder.path.join("examples")).expect("a folder");
    std::fs::create_dir_all(folder.path.join("target")).expect("a folder");
    for file in ["models.csv", "policy.csv", "requests.csv"] {
        std::fs::rename(folder.path.join(file), folder.path.join("examples").join(file)).expect("moved");
    }
    std::fs::copy(examples().join(FREE_POLICY), folder.path.join("examples").join(FREE_POLICY)).expect("copied");
    let shown = shown();
    assert!(shown.len() >= 4, "{} commands were found", shown.len());
    for (arguments, mut lines) in shown {
        while lines.last().is_some_and(String::is_empty) {
            lines.pop();
        }
        let told = in_examples(&folder, &arguments);
        assert!(fits(&lines, &told.lines().collect::<Vec<_>>()), "{arguments:?} prints\n{told}");
    }
    assert!(folder.path.join("target/models.csv").is_file());
}

fn in_examples(folder: &Folder, arguments: &[String]) -> String {
    let arguments: Vec<&str> = arguments.iter().map(String::as_str).collect();
    let ended =
        folder.command(&arguments).current_dir(folder.path.join("examples")).output().expect("the program runs");
    assert_eq!((ended.status.code(), String::from_utf8_lossy(&ended.stderr).as_ref()), (Some(0), ""), "{arguments:?}");
    String::from_utf8(ended.stdout).expect("text")
}

/// Every column of every file stands in the tables.
#[test]
fn columns_are_told() {
    let text = include_str!("../README.md");
    let fields = desk::models::FIELDS
        .iter()
        .chain(&desk::policy::FIELDS)
        .chain(&desk::requests::FIELDS)
        .chain(&desk::legend::FIELDS);
    for (column, _) in fields.flat_map(|field| field.columns) {
        assert!(text.contains(&format!("`{column}`")), "{column}");
    }
}
