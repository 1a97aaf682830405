//! The library's code as Rust modules in cargo's folder for what is built: one file for each file of the sources.

use super::crates::{needed, Crate};
use super::translate::translate;
use std::fs;
use std::path::Path;
use std::time::SystemTime;

/// The crate that has the public functions.
const TOP: &str = "threadknoll";
/// The Rust module that all crates stand below.
const ROOT: &str = "crate::native";

/// Writes the modules of all crates below `repository` that the library needs; `native.rs` declares them. When a source was last changed.
pub fn write_modules(repository: &Path, out: &Path) -> Result<SystemTime, String> {
    let list = repository.join("crates.txt");
    println!("cargo::rerun-if-changed={}", list.display());
    let list = fs::read_to_string(&list).map_err(|e| format!("{}: {e}", list.display()))?;
    let mut declared = String::new();
    let mut changed = SystemTime::UNIX_EPOCH;
    for needed in needed(&list, TOP)? {
        let folder = out.join("native").join(&needed.name);
        let sources = repository.join("crates").join(&needed.name).join("src");
        changed = changed.max(write_crate(&sources, &needed, &folder)?);
        declared.push_str(&format!("#[path = {:?}]\npub mod {};\n", folder.join("lib.rs"), needed.name));
    }
    write(&out.join("native.rs"), &declared)?;
    Ok(changed)
}

fn write_crate(sources: &Path, of: &Crate, folder: &Path) -> Result<SystemTime, String> {
    println!("cargo::rerun-if-changed={}", sources.display());
    let mut changed = SystemTime::UNIX_EPOCH;
    let at = |path: &Path, e: std::io::Error| format!("{}: {e}", path.display());
    fs::create_dir_all(folder).map_err(|e| at(folder, e))?;
    for entry in fs::read_dir(sources).map_err(|e| at(sources, e))? {
        let path = entry.map_err(|e| at(sources, e))?.path();
        if path.extension().is_none_or(|e| e != "rt") {
            return Err(format!("{}: no Rattle text", path.display()));
        }
        changed = changed.max(fs::metadata(&path).and_then(|file| file.modified()).map_err(|e| at(&path, e))?);
        let text = fs::read_to_string(&path).map_err(|e| at(&path, e))?;
        let rust = translate(&text, &of.name, &of.depends_on, ROOT).map_err(|fault| format!("{}: {fault}", path.display()))?;
        let name = path.file_stem().expect("it has an extension");
        write(&folder.join(name).with_extension("rs"), &rust)?;
    }
    Ok(changed)
}

/// Leaves a file as it is where it has the text already, so that nothing is built again for it.
fn write(path: &Path, text: &str) -> Result<(), String> {
    if fs::read(path).is_ok_and(|there| there == text.as_bytes()) {
        return Ok(());
    }
    fs::write(path, text).map_err(|e| format!("{}: {e}", path.display()))
}
