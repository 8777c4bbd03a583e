//! Says where the archives lie that `tools/build` writes.

fn main() {
    let root = std::env::var("CARGO_MANIFEST_DIR").expect("cargo sets it");
    println!("cargo:rustc-link-search=native={root}/../target/staticlib");
    for name in ["jiwasampu", "bench_calls"] {
        println!("cargo:rerun-if-changed=../target/staticlib/lib{name}.a");
    }
}
