//! The kit that proved the library.

use std::env;
use std::path::PathBuf;

/// The folder of its compiler and linker. A kit for another processor has the emulator there too.
pub fn tools() -> Option<PathBuf> {
    Some(kit()?.join("toolchain/bin"))
}

/// The kit's folder: RATTLE_HOME names it, or it is the one that `rt` stands in.
fn kit() -> Option<PathBuf> {
    if let Some(home) = env::var_os("RATTLE_HOME") {
        return Some(home.into());
    }
    let folders = env::var_os("PATH")?;
    let rt = env::split_paths(&folders)
        .map(|folder| folder.join("rt"))
        .find(|rt| rt.is_file())?;
    let home = rt.canonicalize().ok()?;
    Some(home.parent()?.parent()?.to_path_buf())
}
