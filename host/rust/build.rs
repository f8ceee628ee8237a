//! Links the proved calls, which host/archive makes.
fn main() {
    let dir = std::env::var("CARGO_MANIFEST_DIR").expect("cargo") + "/../../target/staticlib";
    println!("cargo:rerun-if-changed={dir}/libvrc6.a");
    println!("cargo:rustc-link-search=native={dir}");
    println!("cargo:rustc-link-lib=static=vrc6");
}
