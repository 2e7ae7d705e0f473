//! What is handed over: text to standard output, and files that are whole or not there.
use crate::draft::{put_all, unwritten, Draft};
use crate::fault::{visible, Trouble};
use crate::target::{Kind, Stream, Target};
use std::fs::OpenOptions;
use std::io::{self, ErrorKind, Write};

/// Writes a text to standard output. Whoever closes it early, as `head` does, has seen enough.
pub fn print(text: &str) -> Result<(), Trouble> {
    let written = send(&mut io::stdout().lock(), visible(text).as_bytes());
    written.map_err(|error| Trouble::Refused(format!("standard output can't be written: {error}")))
}

/// Writes a line to standard error; where that is closed, nobody wants to know.
pub fn complain(line: &str) {
    let _ = writeln!(io::stderr(), "desk: {}", visible(&line.replace('\n', "\\n")));
}

/// Writes files, none of which may be one of those that were read. Every place is looked at before anything is written.
pub fn write_beside(read: &[&str], files: &[(&str, Vec<u8>)]) -> Result<(), Trouble> {
    let targets = files.iter().map(|(file, _)| Target::of(file)).collect::<Result<Vec<_>, _>>()?;
    for (place, target) in targets.iter().enumerate() {
        let told = &target.told;
        if let Some(same) = read.iter().find(|read| target.is_read(read)) {
            let which = if same == told { String::new() } else { format!(", as {same}") };
            return Err(Trouble::Usage(format!(
                "{told} is read here{which}, and would be written over; name another file"
            )));
        }
        if let Some(same) = targets[..place].iter().find(|other| target.is_same(other)) {
            let which = if same.told == *told { String::new() } else { format!(", once as {}", same.told) };
            return Err(Trouble::Usage(format!("{told} is to be written twice{which}; name two files")));
        }
    }
    write_all(&targets, files)
}

/// Drafts first, then what goes to pipes and can't be taken back, then the drafts to their places.
fn write_all(targets: &[Target], files: &[(&str, Vec<u8>)]) -> Result<(), Trouble> {
    let mut drafts = Vec::new();
    for (number, (target, (_, bytes))) in targets.iter().zip(files).enumerate() {
        drafts.extend(Draft::write(target, number, bytes)?);
    }
    for (target, (_, bytes)) in targets.iter().zip(files) {
        let sent = match &target.kind {
            Kind::Standard(Stream::Out) => send(&mut io::stdout().lock(), bytes),
            Kind::Standard(Stream::Err) => send(&mut io::stderr().lock(), bytes),
            Kind::Open(path) => OpenOptions::new().write(true).open(path).and_then(|mut open| send(&mut open, bytes)),
            Kind::Plain(..) | Kind::New(_) => Ok(()),
        };
        sent.map_err(|error| unwritten(target, &error))?;
    }
    Ok(put_all(&drafts)?)
}

fn send(to: &mut impl Write, bytes: &[u8]) -> io::Result<()> {
    match to.write_all(bytes).and_then(|()| to.flush()) {
        Err(error) if error.kind() != ErrorKind::BrokenPipe => Err(error),
        _ => Ok(()),
    }
}
