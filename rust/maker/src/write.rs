//! Files written whole or not at all.

use std::fs::{self, File};
use std::io::{self, Write};
use std::path::{Path, PathBuf};

/// Puts these bytes where the paths say. All are written beside their paths and
/// renamed once every one of them is on the disk, so that a file which stands
/// there is as it was or replaced by a whole one. What is no file, as a pipe, is
/// written to.
pub fn write_whole(files: &[(&Path, &[u8])]) -> io::Result<()> {
    let mut written = Vec::new();
    let mut put = || {
        for (path, bytes) in files {
            // A link stays a link.
            let path = path.canonicalize().unwrap_or_else(|_| path.to_path_buf());
            if path.exists() && !path.is_file() {
                fs::write(path, bytes)?;
                continue;
            }
            let beside = beside(&path);
            let mut file = File::create_new(&beside)?;
            written.push((beside, path));
            file.write_all(bytes).and_then(|()| file.sync_all())?;
        }
        written.iter().try_for_each(|(beside, path)| fs::rename(beside, path))
    };
    let done = put();
    if done.is_err() {
        for (beside, _) in written {
            let _ = fs::remove_file(beside);
        }
    }
    done
}

/// A file of the same folder that nothing else uses.
fn beside(path: &Path) -> PathBuf {
    let mut name = path.file_name().unwrap_or_default().to_os_string();
    name.push(format!(".{}.new", std::process::id()));
    path.with_file_name(name)
}
