//! Only the bench and the comparison of headers link the proved board's archive; the rest builds without it.
fn main() {
    println!("cargo:rerun-if-changed=build.rs");
    if std::env::var_os("CARGO_FEATURE_BENCH").is_some() {
        let dir = std::env::var("CARGO_MANIFEST_DIR").expect("cargo") + "/../target/staticlib";
        println!("cargo:rerun-if-changed={dir}/libvrc6.a");
        println!("cargo:rustc-link-search=native={dir}");
    }
    if std::env::var_os("CARGO_FEATURE_BEFORE").is_some() {
        let dir = std::env::var("CARGO_MANIFEST_DIR").expect("cargo") + "/target/before";
        println!("cargo:rerun-if-changed={dir}/libvrc6_before.a");
        println!("cargo:rustc-link-search=native={dir}");
    }
}
