//! Links build/libcarbink.a, which tools/lib builds; CARBINK_BUILD names another folder.
fn main() {
    let here = std::env::var("CARGO_MANIFEST_DIR").unwrap();
    let folder = std::env::var("CARBINK_BUILD").unwrap_or_else(|_| format!("{here}/../../build"));
    println!("cargo:rerun-if-env-changed=CARBINK_BUILD");
    println!("cargo:rerun-if-changed={folder}/libcarbink.a");
    println!("cargo:rustc-link-search=native={folder}");
    println!("cargo:rustc-link-lib=static=carbink");
}
