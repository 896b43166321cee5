//! Takes in the archive that `make ffi` writes, out of the folder that CARTGLAZE_LIB names or the repository's own.
fn main() {
    let folder = std::env::var("CARTGLAZE_LIB").unwrap_or_else(|_| format!("{}/../target/staticlib", env!("CARGO_MANIFEST_DIR")));
    println!("cargo:rerun-if-env-changed=CARTGLAZE_LIB");
    println!("cargo:rerun-if-changed={folder}/libffi.a");
    println!("cargo:rustc-link-search=native={folder}");
    println!("cargo:rustc-link-lib=static=ffi");
}
