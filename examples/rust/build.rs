//! Links the archive that `rt lib` writes in crates/exports_report.

fn main() {
    let root = std::path::Path::new(env!("CARGO_MANIFEST_DIR")).join("../..");
    println!("cargo:rustc-link-search=native={}", root.join("crates/exports_report/out").display());
    println!("cargo:rustc-link-lib=static=exports_report");
    println!("cargo:rerun-if-changed={}", root.join("crates/exports_report/out").display());
}
