//! Links libnoonpasture.a from the folder NOONPASTURE_LIB (a relative one counts from here).

use std::env;
use std::path::Path;

fn main() {
    println!("cargo:rerun-if-env-changed=NOONPASTURE_LIB");
    let folder = env::var("NOONPASTURE_LIB").unwrap_or("../../target/staticlib".into());
    let folder = Path::new(env!("CARGO_MANIFEST_DIR")).join(folder);
    println!("cargo:rerun-if-changed={}", folder.join("libnoonpasture.a").display());
    println!("cargo:rustc-link-search=native={}", folder.display());
    println!("cargo:rustc-link-lib=static=noonpasture");
}
