//! Builds `src/peers.cc` with g++, for the bench and the tests of `peers`.

use std::env;
use std::path::Path;
use std::process::Command;

fn run(command: &mut Command) {
    let status = command.status().unwrap_or_else(|error| panic!("{command:?}: {error}"));
    assert!(status.success(), "{command:?}: {status}");
}

fn main() {
    println!("cargo:rerun-if-changed=src/peers.cc");
    let folder = env::var("OUT_DIR").expect("cargo names a folder");
    let object = Path::new(&folder).join("peers.o");
    run(Command::new("g++").args(["-O2", "-fPIC", "-c", "src/peers.cc", "-o"]).arg(&object));
    run(Command::new("ar").arg("crs").arg(Path::new(&folder).join("libpeers.a")).arg(&object));
    println!("cargo:rustc-link-search=native={folder}");
    println!("cargo:rustc-link-lib=static=peers");
}
