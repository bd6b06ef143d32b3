//! Where the proved library lies.
fn main() {
    let archive = concat!(env!("CARGO_MANIFEST_DIR"), "/../target/staticlib");
    println!("cargo:rustc-link-search=native={archive}");
    println!("cargo:rustc-link-lib=static=c_api");
    println!("cargo:rerun-if-changed={archive}/libc_api.a");
}
