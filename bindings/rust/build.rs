//! Links the proved library, and again whenever its archive was written anew. `CONCHIBARU_LIB` names the folder that has
//! libdesk.a; else it is looked for where `rt lib` in crates/desk writes it. It is for x86-64.
use std::env;
use std::path::PathBuf;

fn main() {
    println!("cargo:rerun-if-env-changed=CONCHIBARU_LIB");
    let folder = env::var_os("CONCHIBARU_LIB").map_or_else(default_folder, PathBuf::from);
    let archive = folder.join("libdesk.a");
    println!("cargo:rerun-if-changed={}", archive.display());
    if !archive.is_file() {
        eprintln!("there is no {}: `rt lib` in crates/desk makes it", archive.display());
        std::process::exit(1);
    }
    println!("cargo:rustc-link-search=native={}", folder.display());
    println!("cargo:rustc-link-lib=static=desk");
}

fn default_folder() -> PathBuf {
    PathBuf::from(env::var_os("CARGO_MANIFEST_DIR").expect("cargo sets it")).join("../../crates/desk/out")
}
