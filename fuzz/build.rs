//! Has programs call src/memory.rs for memory. tools/comparison/build.rs links the static libraries.
fn main() {
    println!("cargo:rerun-if-changed=build.rs");
    println!("cargo:rustc-link-arg-bins=-Wl,--wrap=malloc,--wrap=realloc,--wrap=free");
}
