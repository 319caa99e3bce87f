// Where the static library is found: `rt lib` in crates/capi writes it into crates/capi/out.
fn main() {
    let here = std::env::var("CARGO_MANIFEST_DIR").expect("cargo sets CARGO_MANIFEST_DIR");
    let folder = format!("{here}/../../crates/capi/out");
    println!("cargo:rustc-link-search=native={folder}");
    println!("cargo:rustc-link-lib=static=capi");
    println!("cargo:rerun-if-changed={folder}/libcapi.a");
}
