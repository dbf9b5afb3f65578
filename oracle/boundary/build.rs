//! Where the library is: target/staticlib of the repository, or the folder
//! that SILAMOGO_STATICLIB names.

use std::env;
use std::path::Path;

fn main() {
    let beside = Path::new(env!("CARGO_MANIFEST_DIR")).join("../../target/staticlib");
    let folder = env::var_os("SILAMOGO_STATICLIB").map_or(beside, Into::into);
    println!("cargo::rustc-link-search=native={}", folder.display());
    println!(
        "cargo::rerun-if-changed={}",
        folder.join("libsilamogo.a").display()
    );
    println!("cargo::rerun-if-env-changed=SILAMOGO_STATICLIB");
}
