//! Links the proved monitor, as `rt lib` in crates/c_report leaves it.

fn main() {
    let here = std::env::var("CARGO_MANIFEST_DIR").unwrap();
    println!("cargo:rustc-link-search=native={here}/../crates/c_report/out");
    println!("cargo:rustc-link-lib=static=c_report");
    println!("cargo:rerun-if-changed={here}/../crates/c_report/out/libc_report.a");
}
