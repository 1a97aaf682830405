//! Makes Rust modules of the library's sources, and links the archive where it is there and was made for this processor.

#[path = "build/crates.rs"]
mod crates;
#[path = "build/native.rs"]
mod native;
#[path = "build/tokens.rs"]
mod tokens;
#[path = "build/translate.rs"]
mod translate;

use std::path::PathBuf;
use std::time::SystemTime;

fn main() {
    println!("cargo::rerun-if-changed=build.rs");
    println!("cargo::rerun-if-changed=build");
    let here = PathBuf::from(set("CARGO_MANIFEST_DIR"));
    let repository = here.parent().expect("bench stands in the repository");
    let changed = native::write_modules(repository, &PathBuf::from(set("OUT_DIR"))).unwrap_or_else(|fault| {
        eprintln!("the library's sources are not understood: {fault}");
        std::process::exit(1);
    });
    link_archive(repository.join("target/staticlib"), changed);
}

/// A variable that cargo sets.
fn set(name: &str) -> String {
    std::env::var(name).unwrap_or_else(|_| panic!("cargo sets {name}"))
}

/// `../lib` compiles for x86-64 alone. An archive of other sources than these would be measured unseen.
fn link_archive(usual: PathBuf, sources_changed: SystemTime) {
    println!("cargo::rustc-check-cfg=cfg(archive)");
    if set("CARGO_CFG_TARGET_ARCH") != "x86_64" {
        return;
    }
    println!("cargo::rerun-if-env-changed=THREADKNOLL_LIBRARY");
    let folder = std::env::var("THREADKNOLL_LIBRARY").map(PathBuf::from).unwrap_or(usual);
    let file = folder.join("libthreadknoll.a");
    // cargo builds again and again for a file that is missing, so that its folder is watched then
    let watched = [&file, &folder].into_iter().find(|path| path.exists());
    if let Some(path) = watched {
        println!("cargo::rerun-if-changed={}", path.display());
    }
    let Ok(made) = std::fs::metadata(&file).and_then(|file| file.modified()) else {
        return;
    };
    if made < sources_changed {
        println!("cargo::warning=the archive is older than the sources: `../lib` makes it again");
    }
    println!("cargo::rustc-cfg=archive");
    println!("cargo::rustc-link-search=native={}", folder.display());
    println!("cargo::rustc-link-lib=static=threadknoll");
}
