//! Says where the proved library is: SIMPLEV_LIB_DIR, or target/staticlib of the repository.

use std::env;
use std::path::PathBuf;

fn main() {
    let package = PathBuf::from(env::var("CARGO_MANIFEST_DIR").expect("set by cargo"));
    let folder = match env::var("SIMPLEV_LIB_DIR") {
        Ok(named) => PathBuf::from(named),
        Err(_) => package.join("../../target/staticlib"),
    };
    println!("cargo:rustc-link-search=native={}", folder.display());
    println!("cargo:rerun-if-changed={}", folder.join("libsimplev.a").display());
    println!("cargo:rerun-if-env-changed=SIMPLEV_LIB_DIR");
}
