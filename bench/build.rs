//! Links the static library that is measured. Its folder is a variable; a relative one is taken from this crate's own.
use std::env;
use std::path::PathBuf;

fn main() {
    let here = PathBuf::from(env::var("CARGO_MANIFEST_DIR").expect("the crate's folder is named"));
    let folder = env::var("AZEBIMORU_LIB").unwrap_or_else(|_| "../target/staticlib".to_string());
    let folder = here.join(folder);
    println!("cargo:rerun-if-env-changed=AZEBIMORU_LIB");
    println!("cargo:rerun-if-changed={}", folder.join("libazebimoru.a").display());
    println!("cargo:rustc-link-search=native={}", folder.display());
    println!("cargo:rustc-link-lib=static=azebimoru");
}
