// Links the proved library, built by `program/build`.
fn main() {
    let folder = std::env::var("BIJTERNE_LIB")
        .unwrap_or_else(|_| concat!(env!("CARGO_MANIFEST_DIR"), "/../target/staticlib").into());
    println!("cargo:rustc-link-search=native={folder}");
    println!("cargo:rustc-link-lib=static=exports");
    println!("cargo:rerun-if-changed={folder}/libexports.a");
    println!("cargo:rerun-if-env-changed=BIJTERNE_LIB");
}
