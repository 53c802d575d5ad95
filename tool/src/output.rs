//! Files are written as a whole or not at all: to a temporary file beside the place, which then takes its name.

use crate::console::{Console, standard_bytes};
use crate::dsp;
use crate::failure::Failure;
use crate::text::shown;
use std::ffi::{OsStr, OsString};
use std::fs::{self, File, Metadata, OpenOptions};
use std::io::{self, BufWriter, IsTerminal, Read, Write};
use std::os::unix::fs::{MetadataExt, OpenOptionsExt, fchown};
use std::path::{Path, PathBuf};

/// What is written.
#[derive(Clone, Copy, Debug, PartialEq, Eq)]
pub enum What {
    Image,
    Dsp,
    Recording,
    Picture,
}

impl What {
    fn name(self) -> &'static str {
        match self {
            What::Image => "a clip image",
            What::Dsp => "a .dsp file",
            What::Recording => "a recording",
            What::Picture => "a picture",
        }
    }
}

/// Where to write.
#[derive(Debug)]
pub struct Output {
    /// As messages name it.
    pub name: String,
    place: Place,
}

#[derive(Debug)]
enum Place {
    Standard,
    /// Something that is not a file of bytes (a pipe, a device): written in place.
    Special(PathBuf),
    /// A file, new or old.
    File(PathBuf),
}

impl Output {
    /// Looks at the place before the work begins. An input, or a file that may not be meant, is written over only by force.
    pub fn at(
        what: What,
        path: &OsStr,
        inputs: &[OsString],
        force: bool,
        console: &Console,
    ) -> Result<Self, Failure> {
        let name = if path == "-" { "standard output".into() } else { shown(path) };
        let fail = |error: io::Error| Failure::io("write", &name, &error);
        let place = match fs::metadata(path) {
            _ if path == "-" => standard(console)?,
            Ok(old) if old.is_dir() => return Err(fail(io::ErrorKind::IsADirectory.into())),
            Ok(old) if old.is_file() => {
                if !force {
                    may_replace(what, path, &name, &old, inputs)?;
                }
                // The real path, so that a link to the file stays a link.
                Place::File(fs::canonicalize(path).map_err(fail)?)
            }
            Ok(_) => Place::Special(path.into()),
            Err(_) => Place::File(new_file(path).map_err(fail)?),
        };
        if dsp::is_named(path) && what != What::Dsp {
            let is = what.name();
            console.note(format!("{name}: this is {is} and no .dsp file: `export` writes one"));
        }
        Ok(Self { name, place })
    }

    /// Writes it.
    pub fn write(
        &self,
        body: impl FnOnce(&mut dyn Write) -> io::Result<()>,
    ) -> Result<(), Failure> {
        let written = match &self.place {
            Place::Standard => return standard_bytes(body),
            Place::Special(path) => in_place(path, body),
            Place::File(path) => replace(path, body),
        };
        written.map_err(|error| Failure::io("write", &self.name, &error))
    }
}

/// Standard output, where nothing else goes there.
fn standard(console: &Console) -> Result<Place, Failure> {
    if console.json || console.command == "info" {
        Err(Failure::usage("standard output has the answer: the output '-' cannot go there too"))
    } else if io::stdout().is_terminal() {
        Err(Failure::usage("standard output is a terminal"))
    } else {
        Ok(Place::Standard)
    }
}

/// Whether an old file may be replaced without force.
fn may_replace(
    what: What,
    path: &OsStr,
    name: &str,
    old: &Metadata,
    inputs: &[OsString],
) -> Result<(), Failure> {
    let is_old = |input: &OsString| {
        fs::metadata(input).is_ok_and(|m| (m.dev(), m.ino()) == (old.dev(), old.ino()))
    };
    let refuse =
        |kind: &str| Err(Failure::usage(format!("{name} is {kind}: --force writes over it")));
    if inputs.iter().any(is_old) {
        return refuse("an input too");
    }
    if old.permissions().readonly() {
        let error = io::ErrorKind::PermissionDenied.into();
        return Err(Failure::io("write", name, &error)
            .with(": it is marked read-only; --force replaces it"));
    }
    match &first_bytes(path) {
        [b'R', b'I', b'F', b'F', ..] => refuse("a recording (a WAV file)"),
        [b'D', b'S', b'P', b'C', ..] if what != What::Image => refuse("a clip image"),
        bytes if dsp::begins(bytes) && what != What::Dsp => refuse("a .dsp file"),
        _ => Ok(()),
    }
}

/// The first bytes of a file; zeros where there are none.
fn first_bytes(path: &OsStr) -> [u8; 8] {
    let mut bytes = [0; 8];
    let _ = File::open(path).and_then(|mut file| file.read_exact(&mut bytes));
    bytes
}

/// The path of a new file: its folder is there.
fn new_file(path: &OsStr) -> io::Result<PathBuf> {
    let path = PathBuf::from(path);
    if path.file_name().is_none() {
        return Err(io::ErrorKind::InvalidInput.into());
    }
    if !fs::metadata(folder(&path))?.is_dir() {
        return Err(io::ErrorKind::NotADirectory.into());
    }
    Ok(path)
}

/// The folder of a path.
fn folder(path: &Path) -> &Path {
    match path.parent() {
        Some(parent) if !parent.as_os_str().is_empty() => parent,
        _ => Path::new("."),
    }
}

fn in_place(path: &Path, body: impl FnOnce(&mut dyn Write) -> io::Result<()>) -> io::Result<()> {
    let mut out = BufWriter::new(OpenOptions::new().write(true).open(path)?);
    body(&mut out)?;
    out.flush()
}

/// Writes a temporary file, to the disk, and gives it the name.
fn replace(path: &Path, body: impl FnOnce(&mut dyn Write) -> io::Result<()>) -> io::Result<()> {
    let old = fs::metadata(path).ok();
    let mode = old.as_ref().map_or(0o666, |old| old.mode() & 0o700);
    let (file, temporary) = Temporary::create(folder(path), mode)?;
    if let Some(old) = old {
        // Only root can give a file to another owner.
        let _ = fchown(&file, Some(old.uid()), Some(old.gid()));
        file.set_permissions(old.permissions())?;
    }
    let mut out = BufWriter::with_capacity(1 << 16, file);
    body(&mut out)?;
    out.into_inner()?.sync_all()?;
    temporary.rename(path)?;
    // The name has been given; a folder that cannot be flushed does not undo it.
    let _ = File::open(folder(path)).and_then(|folder| folder.sync_all());
    Ok(())
}

/// A temporary file's path; the file goes with it.
struct Temporary(Option<PathBuf>);

impl Temporary {
    /// A new file of a name that nothing has.
    fn create(folder: &Path, mode: u32) -> io::Result<(File, Self)> {
        let mut number = 0;
        loop {
            let path = folder.join(format!(".doilycairn-{}-{number}.part", std::process::id()));
            match OpenOptions::new().write(true).create_new(true).mode(mode).open(&path) {
                Ok(file) => return Ok((file, Self(Some(path)))),
                Err(e) if e.kind() == io::ErrorKind::AlreadyExists && number < 1000 => number += 1,
                Err(error) => return Err(error),
            }
        }
    }

    fn rename(mut self, path: &Path) -> io::Result<()> {
        if let Some(from) = &self.0 {
            fs::rename(from, path)?;
        }
        self.0 = None;
        Ok(())
    }
}

impl Drop for Temporary {
    fn drop(&mut self) {
        if let Some(path) = &self.0 {
            let _ = fs::remove_file(path);
        }
    }
}
