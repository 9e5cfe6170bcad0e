//! Links the proved library, which `bench/run` builds, and the C code that it calls for memory.
use std::env::var;

fn main() {
    let manifest = var("CARGO_MANIFEST_DIR").expect("cargo names the folder");
    let kit =
        var("RATTLE_LIB").expect("RATTLE_LIB names the folder of liblibc_c.a: use bench/run");
    let library = format!("{manifest}/../target/staticlib");
    println!("cargo:rustc-link-search=native={library}");
    println!("cargo:rustc-link-search=native={kit}");
    println!("cargo:rustc-link-lib=static=calls");
    println!("cargo:rustc-link-lib=static=libc_c");
    println!("cargo:rerun-if-changed={library}/libcalls.a");
    println!("cargo:rerun-if-env-changed=RATTLE_LIB");
}
