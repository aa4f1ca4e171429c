//! Links the proved library, and again whenever its archive was written anew.
use std::path::Path;

fn main() {
    println!("cargo:rerun-if-env-changed=DESK");
    let archive = std::env::var("DESK").expect("DESK names the archive libdesk.a");
    let folder = Path::new(&archive).parent().expect("the archive stands in a folder");
    println!("cargo:rerun-if-changed={archive}");
    println!("cargo:rustc-link-search=native={}", folder.display());
    println!("cargo:rustc-link-lib=static=desk");
}
