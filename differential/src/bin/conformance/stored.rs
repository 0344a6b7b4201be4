//! Files that are written, or only compared with what is made.

use std::fs;
use std::path::Path;

/// Whether the file is, or now is, what was made.
pub fn store(path: &Path, made: &[u8], check: bool) -> Result<bool, String> {
    let failed = |error: std::io::Error| format!("{}: {error}", path.display());
    if check {
        let same = fs::read(path).is_ok_and(|stored| stored == made);
        if !same {
            println!("{} is not what is made", path.display());
        }
        return Ok(same);
    }
    if let Some(folder) = path.parent() {
        fs::create_dir_all(folder).map_err(failed)?;
    }
    fs::write(path, made).map_err(failed)?;
    Ok(true)
}
