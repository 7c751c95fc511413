//! Links the product's static library and that of test exports, which `tools/archive` writes.

fn main() {
    let root = std::env::var("CARGO_MANIFEST_DIR").expect("cargo sets the folder of the package");
    println!("cargo:rustc-link-search=native={root}/../target/staticlib");
    for library in ["greenblr", "leaf_exports"] {
        println!("cargo:rustc-link-lib=static={library}");
        println!("cargo:rerun-if-changed={root}/../target/staticlib/lib{library}.a");
    }
}
