//! How the build scripts of rust/, compare/ and bench/ link the archives that `rt lib` leaves in crates/NAME/out.

use std::env;
use std::path::{Path, PathBuf};
use std::process;

/// The archives of the library, each by the name of its crate.
pub const LIBRARY: [&str; 5] =
    ["draugsten", "draugsten_dump", "draugsten_replay", "draugsten_tallies", "draugsten_locations"];

/// Links archives of the repository that the crate's folder is in.
pub fn link(names: &[&str]) {
    let folder = PathBuf::from(env::var_os("CARGO_MANIFEST_DIR").expect("cargo names the crate's folder"));
    let folder = folder.canonicalize().expect("the crate's folder is there");
    let root = folder.parent().expect("it is inside the repository");
    let crates = root.join("crates");
    link_each(&crates, names, |name| crates.join(name).join("out"), |missing| {
        let commands: Vec<String> = missing.iter().map(|name| format!("(cd {name} && rt lib --cpu x86-64)")).collect();
        format!("build them by: cd '{}' && {}", crates.display(), commands.join(" && "))
    });
}

/// Links archives that lie in one folder. If some are not there, it names them all, adds what to do about them, and ends with 1.
#[allow(dead_code)] // compare/ alone calls it
pub fn link_from(folder: &Path, names: &[&str], help: impl Fn(&[&str]) -> String) {
    link_each(folder, names, |_| folder.to_path_buf(), help);
}

/// Links archives, each of a folder of its own below one that is told where some are not there.
fn link_each(top: &Path, names: &[&str], folder: impl Fn(&str) -> PathBuf, help: impl Fn(&[&str]) -> String) {
    let archive = |name: &str| -> PathBuf { folder(name).join(format!("lib{name}.a")) };
    let missing: Vec<&str> = names.iter().copied().filter(|name| !archive(name).exists()).collect();
    if !missing.is_empty() {
        let files: Vec<String> = missing.iter().map(|name| format!("lib{name}.a")).collect();
        eprintln!("these archives are missing in {}: {}; {}", top.display(), files.join(", "), help(&missing));
        process::exit(1);
    }
    for name in names {
        println!("cargo:rustc-link-search=native={}", folder(name).display());
        println!("cargo:rerun-if-changed={}", archive(name).display());
        println!("cargo:rustc-link-lib=static={name}");
    }
}
