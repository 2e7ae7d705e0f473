//! Where a file is to be written: what stands there now, and whether two paths mean one file.
use crate::fault::Fault;
use std::fs::{self, Metadata};
use std::io::{self, ErrorKind};
use std::os::unix::fs::{FileTypeExt, MetadataExt};
use std::path::{Path, PathBuf};

/// A place that may be written to.
#[derive(Debug)]
pub struct Target {
    /// The path as it was told.
    pub told: String,
    pub kind: Kind,
    identity: Identity,
}

#[derive(Debug)]
pub enum Kind {
    /// This command's own standard output, or its standard error.
    Standard(Stream),
    /// A pipe or a device such as `/dev/null`: bytes are sent there, and nothing is replaced.
    Open(PathBuf),
    /// A plain file to be replaced, links followed.
    Plain(PathBuf, Metadata),
    /// A file that isn't there yet.
    New(PathBuf),
}

#[derive(Clone, Copy, Debug, PartialEq, Eq)]
pub enum Stream {
    Out,
    Err,
}

/// What a path means, however it is spelt: two names of one file, by links of either kind, have one identity.
#[derive(Clone, Debug, PartialEq, Eq)]
pub enum Identity {
    Standard(Stream),
    /// Device and number of something that is there.
    There(u64, u64),
    /// The full path of something that isn't.
    Path(PathBuf),
}

impl Target {
    /// What stands where a file is to be written. Refused: a folder, a file that may not be written, and what can't be reached.
    pub fn of(told: &str) -> Result<Target, Fault> {
        let fault = |error: io::Error| Fault::of_file(told, format!("can't be written: {error}"));
        let made = |kind, identity| Ok(Target { told: told.to_owned(), kind, identity });
        if let Some(stream) = standard(told) {
            return made(Kind::Standard(stream), Identity::Standard(stream));
        }
        match fs::metadata(told) {
            Ok(there) => made(kind_of(told, &there)?, there_identity(&there)),
            Err(error) if error.kind() == ErrorKind::NotFound => {
                let path = new_path(Path::new(told)).map_err(fault)?;
                made(Kind::New(path.clone()), Identity::Path(path))
            }
            Err(error) => Err(fault(error)),
        }
    }

    pub fn is_same(&self, other: &Target) -> bool {
        self.identity == other.identity
    }

    /// Whether writing here would write over a file that is read. A terminal or pipe may be both read and written.
    pub fn is_read(&self, read: &str) -> bool {
        match &self.kind {
            Kind::Standard(_) | Kind::Open(_) => false,
            Kind::Plain(..) | Kind::New(_) => identity_of(read).is_some_and(|identity| identity == self.identity),
        }
    }
}

/// The command's own streams are written as they stand open: opened again, a file behind them would be written from its beginning.
fn standard(told: &str) -> Option<Stream> {
    match told {
        "/dev/stdout" | "/dev/fd/1" | "/proc/self/fd/1" => Some(Stream::Out),
        "/dev/stderr" | "/dev/fd/2" | "/proc/self/fd/2" => Some(Stream::Err),
        _ => None,
    }
}

fn kind_of(told: &str, there: &Metadata) -> Result<Kind, Fault> {
    let kind = there.file_type();
    let fault = |what: String| Fault::of_file(told, format!("can't be written: {what}"));
    if kind.is_dir() {
        return Err(fault("it is a folder, and a file was wanted".to_owned()));
    }
    if kind.is_fifo() || kind.is_char_device() {
        return Ok(Kind::Open(PathBuf::from(told)));
    }
    if !kind.is_file() {
        return Err(fault("it is neither a file, a pipe nor a terminal".to_owned()));
    }
    // Renaming asks for a right on the folder alone: whether the file itself may be written has to be tried.
    fs::OpenOptions::new().write(true).open(told).map_err(|error| fault(error.to_string()))?;
    let path = fs::canonicalize(told).map_err(|error| fault(error.to_string()))?;
    Ok(Kind::Plain(path, there.clone()))
}

fn there_identity(there: &Metadata) -> Identity {
    Identity::There(there.dev(), there.ino())
}

/// What a path means; none where nothing can be said of it.
fn identity_of(path: &str) -> Option<Identity> {
    match fs::metadata(path) {
        Ok(there) => Some(there_identity(&there)),
        Err(_) => new_path(Path::new(path)).ok().map(Identity::Path),
    }
}

/// The full path of a file that isn't there: its folder's, and its name. A link that leads nowhere stands for where it leads.
fn new_path(path: &Path) -> io::Result<PathBuf> {
    const MOST_LINKS: usize = 40;
    let mut path = path.to_owned();
    for _ in 0..MOST_LINKS {
        let folder = path.parent().filter(|folder| !folder.as_os_str().is_empty()).unwrap_or(Path::new("."));
        let folder = fs::canonicalize(folder)?;
        let ends_in_name = !path.as_os_str().as_encoded_bytes().ends_with(b"/");
        let name = path.file_name().filter(|_| ends_in_name).ok_or_else(|| io::Error::other("it is no file's name"))?;
        let full = folder.join(name);
        match fs::read_link(&full) {
            Ok(leads_to) => path = folder.join(leads_to),
            Err(_) => return Ok(full),
        }
    }
    Err(io::Error::other("too many links lead from it"))
}
