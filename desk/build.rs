//! Links the proved library of the processor that is built for, which `./library` writes.
fn main() {
    let here = std::env::var("CARGO_MANIFEST_DIR").unwrap();
    let target = match std::env::var("CARGO_CFG_TARGET_ARCH").unwrap().as_str() {
        "arm" => "armv7".to_string(),
        other => other.to_string(),
    };
    let libraries = format!("{here}/../target/library/{target}");
    println!("cargo:rustc-link-search=native={libraries}");
    println!("cargo:rustc-link-lib=static=face");
    println!("cargo:rerun-if-changed={libraries}/libface.a");
}
