//! What `save` writes and what `open` reads.
use giehtamun::MAX_QUERY_SIZE;
use std::ffi::OsStr;
use std::fs::{self, File, Metadata};
use std::io::{self, ErrorKind, Write};
use std::os::unix::fs::MetadataExt;
use std::path::{Path, PathBuf};

/// The bytes of the longest file: the longest text, four for each of as many tokens, and twelve.
pub const LONGEST: usize = 5 * MAX_QUERY_SIZE + 12;

/// The bytes before the records, where a file has so many.
pub fn front(file: &[u8]) -> &[u8] {
    let offset = file.last_chunk::<12>().map_or(0, |trailer| u32::from_le_bytes(*trailer.first_chunk().unwrap()));
    &file[..file.len().min(offset as usize)]
}

/// Where a name leads, and what is there: a file that can be replaced, or nothing.
fn replaced(out: &Path) -> io::Result<(PathBuf, Option<Metadata>)> {
    match fs::metadata(out) {
        Ok(there) if there.is_file() => Ok((fs::canonicalize(out)?, Some(there))),
        Ok(_) => Err(io::Error::other("it is there and no file")),
        // A link that leads nowhere is there.
        Err(error) if error.kind() == ErrorKind::NotFound && fs::symlink_metadata(out).is_err() => Ok((out.to_path_buf(), None)),
        Err(error) => Err(error),
    }
}

/// A new file in the folder of another, under a name that nothing has.
fn beside(out: &Path) -> io::Result<(PathBuf, File)> {
    let names = (0..1000).map(|n| out.with_file_name(format!(".giehtamun-{}-{n}.part", std::process::id())));
    let mut made = names.map(|name| File::create_new(&name).map(|file| (name, file)));
    made.find(|made| !matches!(made, Err(error) if error.kind() == ErrorKind::AlreadyExists)).unwrap_or(Err(ErrorKind::AlreadyExists.into()))
}

/// Writes a file whole or not at all: beside it under another name, which then becomes its own. What stood there keeps its permissions.
pub fn write(from: &OsStr, out: &OsStr, bytes: &[u8]) -> io::Result<()> {
    let (out, there) = replaced(Path::new(out))?;
    let same = |a: &Metadata, b: &Metadata| (a.dev(), a.ino()) == (b.dev(), b.ino());
    let read = fs::metadata(if from == "-" { OsStr::new("/dev/stdin") } else { from });
    if there.as_ref().is_some_and(|there| read.is_ok_and(|read| same(&read, there))) {
        return Err(io::Error::other("it is the query's own file"));
    }
    let (part, mut file) = beside(&out)?;
    let kept = there.map_or(Ok(()), |there| file.set_permissions(there.permissions()));
    let written = kept.and_then(|()| file.write_all(bytes)).and_then(|()| file.sync_all()).and_then(|()| fs::rename(&part, &out));
    if written.is_err() {
        // The first error is the one to tell.
        let _ = fs::remove_file(&part);
    }
    written
}
