//! The listings of a folder.
use std::path::{Path, PathBuf};
use std::{fs, io};

/// NAME.listing, in the order of their names.
pub fn listings(dir: &Path) -> io::Result<Vec<PathBuf>> {
    let mut paths = Vec::new();
    for entry in fs::read_dir(dir)? {
        let path = entry?.path();
        if path.extension().is_some_and(|e| e == "listing") {
            paths.push(path);
        }
    }
    paths.sort();
    Ok(paths)
}
