// Links the static library that crates/door makes.
fn main() {
    let root = concat!(env!("CARGO_MANIFEST_DIR"), "/../../..");
    println!("cargo:rustc-link-search=native={root}/crates/door/out");
    println!("cargo:rustc-link-lib=static=door");
    println!("cargo:rerun-if-changed={root}/crates/door/out/libdoor.a");
}
