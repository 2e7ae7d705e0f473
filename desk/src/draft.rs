//! Files written beside their places and put there together, so that each is whole or as it was before.
use crate::fault::Fault;
use crate::target::{Kind, Target};
use std::fs::{self, Metadata, OpenOptions};
use std::io::{self, Write};
use std::os::unix::fs::{chown, MetadataExt};
use std::path::{Path, PathBuf};

/// A file's new content beside its place; gone when it is dropped.
#[derive(Debug)]
pub struct Draft<'a> {
    target: &'a Target,
    place: &'a Path,
    draft: PathBuf,
    /// A second name of the file that stood there, until all drafts are put in place.
    kept: Option<PathBuf>,
}

impl<'a> Draft<'a> {
    /// Writes the content of a plain or new file beside its place; none for what isn't replaced.
    pub fn write(target: &'a Target, number: usize, bytes: &[u8]) -> Result<Option<Draft<'a>>, Fault> {
        let (place, before) = match &target.kind {
            Kind::Plain(place, before) => (place, Some(before)),
            Kind::New(place) => (place, None),
            Kind::Standard(_) | Kind::Open(_) => return Ok(None),
        };
        let beside = |what: &str| place.with_file_name(format!(".desk-{}-{number}.{what}", std::process::id()));
        let kept = before.map(|_| beside("kept"));
        // A draft is new: a link that someone else left under its name isn't followed.
        let file = OpenOptions::new().write(true).create_new(true).open(beside("part"));
        let mut file = file.map_err(|error| unwritten(target, &error))?;
        let draft = Draft { target, place, draft: beside("part"), kept };
        let written = file.write_all(bytes).and_then(|()| before.map_or(Ok(()), |before| draft.as_before(before)));
        written.map_err(|error| unwritten(target, &error))?;
        Ok(Some(draft))
    }

    /// The owner, where that is allowed, and the rights of the file that is replaced.
    fn as_before(&self, before: &Metadata) -> io::Result<()> {
        let now = fs::metadata(&self.draft)?;
        if (now.uid(), now.gid()) != (before.uid(), before.gid()) {
            let _ = chown(&self.draft, Some(before.uid()), Some(before.gid()));
        }
        fs::set_permissions(&self.draft, before.permissions())
    }

    /// Keeps what stands there under a second name; some file systems know no second names.
    fn keep(&self) -> io::Result<()> {
        let keep = |kept: &PathBuf| fs::hard_link(self.place, kept).or_else(|_| fs::rename(self.place, kept));
        self.kept.as_ref().map_or(Ok(()), keep)
    }

    fn put(&self) -> io::Result<()> {
        fs::rename(&self.draft, self.place)
    }

    /// What stood there before, back in its place.
    fn take_back(&self) {
        let _ = match &self.kept {
            Some(kept) => fs::rename(kept, self.place),
            None if self.draft.exists() => Ok(()),
            None => fs::remove_file(self.place),
        };
    }
}

impl Drop for Draft<'_> {
    fn drop(&mut self) {
        let _ = fs::remove_file(&self.draft);
        if let Some(kept) = self.kept.as_ref().filter(|_| self.place.is_file()) {
            let _ = fs::remove_file(kept);
        }
    }
}

/// Puts all drafts in their places; where one can't be, none is. One alone needs no second name: it is put there at once or not at all.
pub fn put_all(drafts: &[Draft]) -> Result<(), Fault> {
    let several = drafts.len() > 1;
    for (place, draft) in drafts.iter().enumerate() {
        let kept = if several { draft.keep() } else { Ok(()) };
        if let Err(error) = kept.and_then(|()| draft.put()) {
            drafts[..=place].iter().for_each(Draft::take_back);
            return Err(unwritten(draft.target, &error));
        }
    }
    Ok(())
}

pub fn unwritten(target: &Target, error: &io::Error) -> Fault {
    Fault::of_file(&target.told, format!("can't be written: {error}"))
}
