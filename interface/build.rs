//! Links the proved library's archive, which `tools/library` puts there.

fn main() {
    let root = std::env::var("CARGO_MANIFEST_DIR").expect("cargo sets it");
    println!("cargo:rustc-link-search=native={root}/../target/staticlib");
    println!("cargo:rustc-link-lib=static=replay");
    println!("cargo:rerun-if-changed={root}/../target/staticlib/libreplay.a");
}
