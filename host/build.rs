//! With the feature `archive`, links the library's static archive: that in the folder named by
//! RUDDERFIG_ARCHIVE, or the one that `make lib` leaves beside the header.

use std::env;

fn main() {
    println!("cargo:rerun-if-env-changed=RUDDERFIG_ARCHIVE");
    if env::var_os("CARGO_FEATURE_ARCHIVE").is_none() {
        return;
    }
    let folder = env::var("RUDDERFIG_ARCHIVE")
        .unwrap_or_else(|_| format!("{}/../include", env::var("CARGO_MANIFEST_DIR").unwrap()));
    println!("cargo:rerun-if-changed={folder}/librudderfig.a");
    println!("cargo:rustc-link-search=native={folder}");
    println!("cargo:rustc-link-lib=static=rudderfig");
}
