//! Links the proved archives.

#[path = "../tools/archives.rs"]
mod archives;

fn main() {
    println!("cargo:rerun-if-changed=build.rs");
    archives::link(&archives::LIBRARY);
}
