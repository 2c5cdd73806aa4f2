//! Links the proved library that `sh tests/archives` wrote. `JEMMYFERN_LIB` names another folder that holds it.
fn main() {
    println!("cargo:rerun-if-env-changed=JEMMYFERN_LIB");
    let beside = concat!(env!("CARGO_MANIFEST_DIR"), "/../../target/staticlib");
    let library = std::env::var("JEMMYFERN_LIB").unwrap_or_else(|_| beside.into());
    println!("cargo:rustc-link-search=native={library}");
    println!("cargo:rustc-link-lib=static=jemmyfern_c");
    println!("cargo:rerun-if-changed={library}/libjemmyfern_c.a");
}
