//! Links target/staticlib/libfurzeladle.a. Where it is missing or older than the crates that it is made of, the Rattle
//! kit, by `tools/make`, proves and makes it first.
use std::path::{Path, PathBuf};
use std::process::{exit, Command};
use std::time::SystemTime;

/// When a file, or the newest below a folder, was last changed; what the kit made, in folders `out`, aside.
fn changed(path: &Path) -> Option<SystemTime> {
    let own = path.metadata().and_then(|about| about.modified()).ok();
    let below = std::fs::read_dir(path).into_iter().flatten().flatten();
    below
        .filter(|entry| entry.file_name() != "out")
        .filter_map(|entry| changed(&entry.path()))
        .chain(own)
        .max()
}

/// Proves and makes the library, or says in words what is missing.
fn make(root: &Path) {
    let staticlib = Command::new(root.join("tools/make"))
        .arg("furzeladle")
        .output();
    let why = match staticlib {
        Ok(made) if made.status.success() => return,
        Ok(_) => "`tools/make furzeladle` failed: run it in the repository's folder to see why".into(),
        Err(fault) => format!(
            "cannot run `tools/make` ({fault}): install the Rattle kit, which proves and makes the library, \
             or copy a made libfurzeladle.a to target/staticlib"
        ),
    };
    eprintln!("furzeladle: {why}");
    exit(1);
}

fn main() {
    let root = PathBuf::from(std::env::var("CARGO_MANIFEST_DIR").unwrap()).join("../..");
    let made = root.join("target/staticlib");
    let library = made.join("libfurzeladle.a");
    let sources = [root.join("crates"), root.join("crates.txt")];
    if changed(&library) < sources.iter().filter_map(|path| changed(path)).max() {
        make(&root);
    }
    println!("cargo:rustc-link-search=native={}", made.display());
    println!("cargo:rustc-link-lib=static=furzeladle");
    for path in sources.iter().chain([&library]) {
        println!("cargo:rerun-if-changed={}", path.display());
    }
}
