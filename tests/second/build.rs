//! Says where the archive of the calls lies that `tools/build jiwasampu` writes.

fn main() {
    let root = std::env::var("CARGO_MANIFEST_DIR").expect("cargo sets it");
    println!("cargo:rustc-link-search=native={root}/../../target/staticlib");
    println!("cargo:rerun-if-changed=../../target/staticlib/libjiwasampu.a");
}
