//! Files that are written whole or not at all: a temporary beside, synced, renamed over the name.
use anyhow::{Context, Result};
use std::fs::File;
use std::io::Write;
use std::path::{Path, PathBuf};

fn folder_of(path: &Path) -> PathBuf {
    match path.parent() {
        Some(folder) if !folder.as_os_str().is_empty() => folder.into(),
        _ => PathBuf::from("."),
    }
}

fn prefix_of(path: &Path) -> String {
    format!(".{}.", path.file_name().map_or_else(|| "plate".into(), |n| n.to_string_lossy()))
}

/// Writes the parts one after another; each may be made when its turn comes, so that a large file is never held whole.
pub fn write_whole<Bytes: AsRef<[u8]>>(path: &Path, parts: impl IntoIterator<Item = Bytes>) -> Result<()> {
    let folder = folder_of(path);
    let said = || format!("{} cannot be written", path.display());
    let mut file = tempfile::Builder::new().prefix(&prefix_of(path)).suffix(".tmp").tempfile_in(&folder).with_context(said)?;
    for part in parts {
        file.write_all(part.as_ref()).with_context(said)?;
    }
    file.as_file().sync_all().with_context(said)?;
    // as any new file: readable by all, where the temporary was its owner's
    let mode = std::os::unix::fs::PermissionsExt::from_mode(0o644);
    file.as_file().set_permissions(mode).with_context(said)?;
    file.persist(path).with_context(said)?;
    File::open(&folder).and_then(|folder| folder.sync_all()).with_context(said)
}

/// Removes temporaries of this name that a killed program left.
pub fn clear_temporaries(path: &Path) {
    let prefix = prefix_of(path);
    let Ok(entries) = std::fs::read_dir(folder_of(path)) else { return };
    for entry in entries.flatten() {
        let name = entry.file_name();
        let name = name.to_string_lossy();
        if name.starts_with(&prefix) && name.ends_with(".tmp") {
            let _ = std::fs::remove_file(entry.path());
        }
    }
}
