//! The inputs of a folder, and what else lies there.

use crate::report;
use crate::shown;
use std::collections::HashSet;
use std::fs::{self, DirEntry};
use std::io;
use std::path::{Path, PathBuf};

#[derive(Default)]
pub struct Folder {
    pub inputs: Vec<PathBuf>,
    others: Vec<PathBuf>,
    hidden: usize,
    folders: usize,
    parts: usize,
}

pub fn list(path: &Path) -> Result<Folder, String> {
    let mut folder = read(path).map_err(|error| format!("{} cannot be listed: {error}", shown::name(path)))?;
    folder.inputs.sort();
    let reports: HashSet<PathBuf> = folder.inputs.iter().map(|input| report::beside(input)).collect();
    folder.others.retain(|other| !reports.contains(other));
    Ok(folder)
}

fn read(path: &Path) -> io::Result<Folder> {
    let mut folder = Folder::default();
    for entry in fs::read_dir(path)? {
        folder.sort_in(&entry?)?;
    }
    Ok(folder)
}

impl Folder {
    fn sort_in(&mut self, entry: &DirEntry) -> io::Result<()> {
        let (path, kind) = (entry.path(), entry.file_type()?);
        let name = entry.file_name().to_string_lossy().into_owned();
        if report::is_part(&name) {
            self.parts += 1;
        } else if name.starts_with('.') {
            self.hidden += 1;
        } else if report::is_input(&path) {
            self.inputs.push(path);
        } else if kind.is_dir() || kind.is_symlink() && path.is_dir() {
            self.folders += 1;
        } else {
            self.others.push(path);
        }
        Ok(())
    }

    /// What was not looked at, if there is any. The reports of the inputs are not among it.
    pub fn not_looked_at(&self) -> Option<String> {
        let counts = [
            (self.others.len(), "file of another ending", "files of other endings"),
            (self.hidden, "hidden entry", "hidden entries"),
            (self.folders, "subfolder", "subfolders"),
            (
                self.parts,
                "part file (.batch-*.part) of a run that is under way or was killed",
                "part files (.batch-*.part) of runs that are under way or were killed",
            ),
        ];
        let said: Vec<String> = counts
            .iter()
            .filter(|(count, ..)| *count > 0)
            .map(|(count, one, many)| format!("{count} {}", if *count == 1 { one } else { many }))
            .collect();
        (!said.is_empty()).then(|| said.join(", "))
    }
}
