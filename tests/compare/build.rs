//! Links the static library that `rt lib` in `crates/leads_c` makes, unless something stands in for it.

fn main() {
    if std::env::var_os("CARGO_FEATURE_STAND_IN").is_some() {
        return;
    }
    let library = concat!(env!("CARGO_MANIFEST_DIR"), "/../../crates/leads_c/out");
    println!("cargo:rustc-link-search=native={library}");
    println!("cargo:rustc-link-lib=static=leads_c");
    println!("cargo:rerun-if-changed={library}/libleads_c.a");
}
