//! Links libsadrokki.a, as `rt lib` in crates/sadrokki writes it. SADROKKI_LIB names its folder, if it isn't this repository's.
fn main() {
    let here = std::env::var("CARGO_MANIFEST_DIR").unwrap();
    let lib = std::env::var("SADROKKI_LIB").unwrap_or(format!("{here}/../../crates/sadrokki/out"));
    println!("cargo:rustc-link-search=native={lib}");
    println!("cargo:rustc-link-lib=static=sadrokki");
    println!("cargo:rerun-if-env-changed=SADROKKI_LIB");
    println!("cargo:rerun-if-changed={lib}/libsadrokki.a");
}
