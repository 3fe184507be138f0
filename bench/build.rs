//! Links the archives that are measured.

use std::env;

#[path = "../tools/archives.rs"]
mod archives;

fn main() {
    println!("cargo:rerun-if-changed=build.rs");
    let stands_in = env::var_os("CARGO_FEATURE_STAND_IN").is_some();
    let library: &[&str] = if stands_in { &[] } else { &archives::LIBRARY };
    archives::link(&[library, &["bench"]].concat());
}
