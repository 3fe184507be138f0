//! Links the archives under test: those of the repository, or those in the folder that DRAUGSTEN_ARCHIVES names.

use std::env;
use std::path::Path;

#[path = "../tools/archives.rs"]
mod archives;

fn main() {
    println!("cargo:rerun-if-changed=build.rs");
    println!("cargo:rerun-if-env-changed=DRAUGSTEN_ARCHIVES");
    if env::var_os("CARGO_FEATURE_WITHOUT_LIBRARY").is_some() {
        return;
    }
    match env::var_os("DRAUGSTEN_ARCHIVES") {
        Some(folder) => archives::link_from(Path::new(&folder), &archives::LIBRARY, |_| {
            String::from("DRAUGSTEN_ARCHIVES names this folder: put them there, or unset it")
        }),
        None => archives::link(&archives::LIBRARY),
    }
}
