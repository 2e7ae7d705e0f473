//! Where files are written: never over one that is read, through links and into pipes, all of them or none.
mod common;
use common::{Folder, MODELS};
use desk::draft::{put_all, Draft};
use desk::target::Target;
use std::fs;
use std::os::unix::fs::{symlink, FileTypeExt, PermissionsExt};
use std::process::Command;

/// A call that is wrong, with its line; nothing in the folder changes.
fn wrong(folder: &Folder, arguments: &[&str], line: &str) {
    kept(folder, arguments, 2, line);
}

fn kept(folder: &Folder, arguments: &[&str], status: i32, line: &str) {
    let before: Vec<_> = folder.files();
    let ran = folder.run(arguments);
    assert_eq!((ran.status, ran.out.as_str(), ran.err), (status, "", format!("desk: {line}\n")), "{arguments:?}");
    assert_eq!(folder.files(), before, "{arguments:?}");
    assert_eq!(folder.text("models.csv"), MODELS, "{arguments:?}");
}

/// The same file by another path, a link of either kind, or from another folder.
#[test]
fn an_input_that_is_spelt_otherwise() {
    let folder = Folder::example();
    folder.told(&["pack", "--stored", "stored.bin"]);
    fs::create_dir(folder.path.join("x")).expect("a folder");
    symlink("models.csv", folder.path.join("link.csv")).expect("a link");
    symlink("../link.csv", folder.path.join("x/near.csv")).expect("a link to a link");
    fs::hard_link(folder.path.join("models.csv"), folder.path.join("hard.csv")).expect("a second name");
    let full = folder.path.join("models.csv").to_str().expect("a path").to_owned();
    for path in ["./models.csv", &full, "x/../models.csv", "link.csv", "x/near.csv", "hard.csv"] {
        let line = format!("{path} is read here, as models.csv, and would be written over; name another file");
        wrong(&folder, &["table", "--csv", path], &line);
        wrong(&folder, &["plot", "-o", path], &line);
        wrong(&folder, &["log", "--csv", path], &line);
        wrong(&folder, &["pack", "--names-out", path, "--stored", "new.bin"], &line);
        let line = format!("models.csv is read here, as {path}, and would be written over; name another file");
        wrong(&folder, &["table", "--models", path, "--csv", "models.csv"], &line);
    }
    let line = "./stored.bin is read here, as stored.bin, and would be written over; name another file";
    wrong(&folder, &["unpack", "stored.bin", "--models-out", "./stored.bin"], line);
    fs::remove_file(folder.path.join("requests.csv")).expect("removed");
    let line = "x/../requests.csv is read here, as requests.csv, and would be written over; name another file";
    wrong(&folder, &["pack", "--stored", "x/../requests.csv"], line);
}

#[test]
fn two_outputs_that_are_one_file() {
    let folder = Folder::example();
    let pack = |input, stored| ["pack", "--stored", stored, "--input", input];
    wrong(&folder, &pack("./a", "a"), "./a is to be written twice, once as a; name two files");
    symlink("a", folder.path.join("b")).expect("a link that leads nowhere");
    wrong(&folder, &pack("b", "a"), "b is to be written twice, once as a; name two files");
    fs::write(folder.path.join("c"), "old").expect("a file");
    fs::hard_link(folder.path.join("c"), folder.path.join("d")).expect("a second name");
    wrong(&folder, &pack("c", "d"), "c is to be written twice, once as d; name two files");
    assert_eq!(folder.text("c"), "old");
    wrong(
        &folder,
        &pack("/dev/fd/1", "/dev/stdout"),
        "/dev/fd/1 is to be written twice, once as /dev/stdout; name two files",
    );
}

/// What can't be written is found before anything is.
#[test]
fn places_that_are_no_files() {
    let folder = Folder::example().with("old.bin", "old");
    fs::create_dir(folder.path.join("d")).expect("a folder");
    symlink("round", folder.path.join("round")).expect("a link to itself");
    for (place, why) in [
        ("d", "it is a folder, and a file was wanted"),
        ("d/", "it is a folder, and a file was wanted"),
        ("new/", "it is no file's name"),
        ("", "it is no file's name"),
        ("no/where.csv", "No such file or directory (os error 2)"),
        ("models.csv/x", "Not a directory (os error 20)"),
        ("round", "Too many levels of symbolic links (os error 40)"),
    ] {
        let line = format!("{place}: can't be written: {why}");
        kept(&folder, &["pack", "--stored", "old.bin", "--input", "new.bin", "--names-out", place], 1, &line);
        assert_eq!(folder.text("old.bin"), "old");
    }
}

#[test]
fn links_are_followed_and_rights_are_kept() {
    let folder = Folder::example().with("real.csv", "old");
    let real = folder.path.join("real.csv");
    fs::set_permissions(&real, fs::Permissions::from_mode(0o640)).expect("rights");
    fs::create_dir(folder.path.join("x")).expect("a folder");
    symlink("../real.csv", folder.path.join("x/link")).expect("a link");
    symlink("x/new.csv", folder.path.join("fresh")).expect("a link that leads nowhere yet");
    let table = folder.told(&["table", "--csv", "-"]);
    folder.told(&["table", "--csv", "x/link"]);
    folder.told(&["table", "--csv", "fresh"]);
    assert_eq!((folder.text("real.csv"), folder.text("x/new.csv")), (table.clone(), table));
    assert!(fs::symlink_metadata(folder.path.join("x/link")).expect("a link").is_symlink());
    assert!(fs::symlink_metadata(folder.path.join("fresh")).expect("a link").is_symlink());
    assert_eq!(fs::metadata(&real).expect("a file").permissions().mode() & 0o777, 0o640);
    let longest = "n".repeat(255);
    folder.told(&["table", "--csv", &longest]);
    assert!(folder.files().contains(&longest));
    assert!(!folder.files().iter().any(|file| file.starts_with(".desk-")), "{:?}", folder.files());
}

/// A pipe gets the bytes and stays a pipe; so does a device, where one can be made.
#[test]
fn pipes_and_devices_are_written_to() {
    let folder = Folder::example();
    let path = |name: &str| folder.path.join(name);
    let made = |program: &str, words: &[&str]| {
        Command::new(program).args(words).current_dir(&folder.path).output().is_ok_and(|ended| ended.status.success())
    };
    let table = folder.told(&["table", "--csv", "-"]);
    assert!(made("mkfifo", &["pipe"]));
    let reader = std::thread::spawn({
        let pipe = path("pipe");
        move || fs::read_to_string(pipe).expect("what is sent")
    });
    folder.told(&["table", "--csv", "pipe"]);
    assert_eq!(reader.join().expect("a reader"), table);
    assert!(fs::metadata(path("pipe")).expect("a pipe").file_type().is_fifo());
    // Only the owner of the machine can make one; 1, 7 is always full.
    if made("mknod", &["full", "c", "1", "7"]) && fs::OpenOptions::new().write(true).open(path("full")).is_ok() {
        let line = "full: can't be written: No space left on device (os error 28)";
        kept(&folder, &["pack", "--stored", "new.bin", "--input", "full"], 1, line);
        assert!(fs::metadata(path("full")).expect("a device").file_type().is_char_device());
    }
}

/// Standard output by its name is the one that is open, with whatever was written before.
#[test]
fn standard_output_by_name() {
    let folder = Folder::example().with("all.txt", "before\n");
    let table = folder.told(&["table", "--csv", "-"]);
    assert_eq!(folder.told(&["table", "--csv", "/dev/stdout"]), table);
    let open = fs::OpenOptions::new().append(true).open(folder.path.join("all.txt")).expect("a file");
    let ended = folder.command(&["table", "--csv", "/dev/stdout"]).stdout(open).status().expect("the program runs");
    assert_eq!((ended.code(), folder.text("all.txt")), (Some(0), format!("before\n{table}")));
    let ran = folder.run(&["table", "--csv", "/dev/stderr"]);
    assert_eq!((ran.status, ran.out, ran.err), (0, String::new(), table));
}

/// Where the last of several can't be put in its place, those before it are as they were.
#[test]
fn drafts_are_taken_back() {
    let folder = Folder::new().with("old", "old");
    let target = |name: &str| Target::of(folder.path.join(name).to_str().expect("a path")).expect("a place");
    let (old, new, bad) = (target("old"), target("new"), target("bad"));
    let draft = |target, number| Draft::write(target, number, b"fresh").expect("written").expect("a draft");
    let drafts = [draft(&old, 0), draft(&new, 1), draft(&bad, 2)];
    fs::create_dir(folder.path.join("bad")).expect("a folder comes between");
    let fault = put_all(&drafts).expect_err("a folder is in the way");
    assert!(fault.to_string().ends_with("bad: can't be written: Is a directory (os error 21)"), "{fault}");
    drop(drafts);
    assert_eq!((folder.text("old").as_str(), folder.files()), ("old", vec!["bad".to_owned(), "old".to_owned()]));
    let drafts = [draft(&old, 0), draft(&new, 1)];
    put_all(&drafts).expect("put in place");
    drop(drafts);
    assert_eq!((folder.text("old").as_str(), folder.text("new").as_str()), ("fresh", "fresh"));
    assert_eq!(folder.files(), ["bad", "new", "old"]);
}

/// A terminal acts on no letter of a path.
#[test]
fn paths_are_told_visibly() {
    let ran = Folder::example().run(&["table", "--models", "m\u{1b}[31m\u{202e}.csv"]);
    let line = "desk: m\\u{1b}[31m\\u{202e}.csv: can't be read: No such file or directory (os error 2)\n";
    assert_eq!((ran.status, ran.err.as_str()), (1, line));
    let named = Folder::example();
    fs::rename(named.path.join("requests.csv"), named.path.join("r\u{1b}.csv")).expect("renamed");
    assert!(named.told(&["table", "--requests", "r\u{1b}.csv"]).starts_with("Request 42 of r\\u{1b}.csv.\n"));
}
