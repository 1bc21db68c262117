//! Links the static library under test. Its folder is a variable, because the same tests run against any build of
//! it; a relative folder is taken from this crate's own, wherever the build was started. The library is for x86-64:
//! a test built for another machine goes without it, and can only start the program.
use std::env;
use std::path::PathBuf;

fn main() {
    let here = PathBuf::from(env::var("CARGO_MANIFEST_DIR").expect("the crate's folder is named"));
    let folder = env::var("AZEBIMORU_LIB").unwrap_or_else(|_| "../target/staticlib".to_string());
    let folder = here.join(folder);
    println!("cargo:rerun-if-env-changed=AZEBIMORU_LIB");
    println!("cargo:rerun-if-changed={}", folder.join("libazebimoru.a").display());
    if env::var("CARGO_CFG_TARGET_ARCH").as_deref() == Ok("x86_64") {
        println!("cargo:rustc-link-search=native={}", folder.display());
        println!("cargo:rustc-link-lib=static=azebimoru");
    }
}
