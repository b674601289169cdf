//! Links the proved library, which `tools/native locker` writes to target/native in the repository's root. `LOCKER_LIBRARY`
//! names another folder that holds liblocker.a.

use std::env;
use std::path::PathBuf;

fn main() {
    println!("cargo:rerun-if-env-changed=LOCKER_LIBRARY");
    let here = PathBuf::from(env::var_os("CARGO_MANIFEST_DIR").expect("cargo names the package's folder"));
    let folder = match env::var_os("LOCKER_LIBRARY") {
        Some(named) => PathBuf::from(named),
        None => here.join("../../target/native"),
    };
    let library = folder.join("liblocker.a");
    assert!(
        library.is_file(),
        "{} is missing: run `tools/native locker` in the repository, or name its folder in LOCKER_LIBRARY",
        library.display()
    );
    println!("cargo:rerun-if-changed={}", library.display());
    println!("cargo:rustc-link-search=native={}", folder.display());
    println!("cargo:rustc-link-lib=static=locker");
}
