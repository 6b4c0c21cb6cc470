// Says where the differential tests and the benchmark find libexports.a.
use std::path::PathBuf;

fn main() {
    let default = || PathBuf::from(env!("CARGO_MANIFEST_DIR")).join("../target/staticlib");
    let place = std::env::var_os("YOMBIRGE_STATICLIB").map_or_else(default, PathBuf::from);
    println!("cargo:rustc-link-search=native={}", place.display());
    println!("cargo:rerun-if-env-changed=YOMBIRGE_STATICLIB");
    println!("cargo:rerun-if-changed={}", place.join("libexports.a").display());
}
