//! Links the proved library, which bench/library writes.

fn main() {
    let root = std::env::var("CARGO_MANIFEST_DIR").unwrap_or_default();
    let library = format!("{root}/../../target/staticlib");
    println!("cargo:rustc-link-search=native={library}");
    println!("cargo:rustc-link-lib=static=ripplehatch");
    println!("cargo:rerun-if-changed={library}/libripplehatch.a");
}
