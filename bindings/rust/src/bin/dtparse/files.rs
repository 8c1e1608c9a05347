//! Which files are read: those that are given, and those below folders that are given.

use crate::name::STANDARD_INPUT;
use std::ffi::OsString;
use std::fs;
use std::io;
use std::os::unix::ffi::OsStrExt;
use std::path::{Path, PathBuf};

/// Something to read.
#[derive(Debug, PartialEq, Eq)]
pub enum Source {
    StandardInput,
    File(PathBuf),
    /// A folder that cannot be read or has no source below it, and why.
    BadFolder(PathBuf, String),
}

impl Source {
    /// Its name as it was given, or as it was found below a folder.
    pub fn name(&self) -> &[u8] {
        match self {
            Self::StandardInput => STANDARD_INPUT.as_bytes(),
            Self::File(path) | Self::BadFolder(path, _) => path.as_os_str().as_bytes(),
        }
    }
}

/// All that is to be read, in order.
pub struct Sources {
    pub list: Vec<Source>,
    /// Whether the output is that of several files; a folder stands for several, however many there are.
    pub several: bool,
}

pub fn find(given: &[OsString]) -> Sources {
    let is_folder = |name: &OsString| name != STANDARD_INPUT && Path::new(name).is_dir();
    let several = given.len() > 1 || given.iter().any(is_folder);
    let sources = |name: &OsString| match name {
        _ if name == STANDARD_INPUT => vec![Source::StandardInput],
        _ if is_folder(name) => below(Path::new(name)),
        _ => vec![Source::File(name.into())],
    };
    Sources { list: given.iter().flat_map(sources).collect(), several }
}

/// The sources below a folder, by the bytes of their paths.
fn below(folder: &Path) -> Vec<Source> {
    let mut found = Vec::new();
    let mut folders = vec![folder.to_path_buf()];
    while let Some(folder) = folders.pop() {
        if let Err(why) = look_into(&folder, &mut folders, &mut found) {
            found.push(Source::BadFolder(folder, why.to_string()));
        }
    }
    if found.is_empty() {
        let why = "no file below this folder ends in .dts or .dtsi";
        found.push(Source::BadFolder(folder.to_path_buf(), why.to_string()));
    }
    found.sort_by(|a, b| a.name().cmp(b.name()));
    found
}

/// The folders and the sources in a folder. A link to a folder is not followed, since it can lead back; a link to a file
/// is, and one to nothing is a source that cannot be read. What is no file, as a pipe, is no source.
fn look_into(folder: &Path, folders: &mut Vec<PathBuf>, found: &mut Vec<Source>) -> io::Result<()> {
    for entry in fs::read_dir(folder)? {
        let entry = entry?;
        let (path, kind) = (entry.path(), entry.file_type()?);
        if kind.is_dir() {
            folders.push(path);
        } else if is_source(&path) && fs::metadata(&path).is_ok_and(|target| !target.is_file()) {
            // a link to a folder, a pipe or a device
        } else if is_source(&path) {
            found.push(Source::File(path));
        }
    }
    Ok(())
}

fn is_source(path: &Path) -> bool {
    path.extension().is_some_and(|ending| ending == "dts" || ending == "dtsi")
}
