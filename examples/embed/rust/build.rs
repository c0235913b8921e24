//! Where libmigwelun.a is: the folder that MIGWELUN_LIBRARY names, or where tools/build-library puts it.

use std::env;

fn main() {
    let here = env::var("CARGO_MANIFEST_DIR").expect("cargo names the folder");
    let folder = env::var("MIGWELUN_LIBRARY").unwrap_or(format!("{here}/../../../out"));
    println!("cargo:rerun-if-env-changed=MIGWELUN_LIBRARY");
    println!("cargo:rerun-if-changed={folder}/libmigwelun.a");
    println!("cargo:rustc-link-search=native={folder}");
    println!("cargo:rustc-link-lib=static=migwelun");
}
