//! Links libcfi_beside_gimli.a and the memory of the kit's library; `CFI_LIBRARIES` lists their folders.
fn main() {
    println!("cargo:rerun-if-env-changed=CFI_LIBRARIES");
    let folders =
        std::env::var("CFI_LIBRARIES").expect("CFI_LIBRARIES lists the libraries' folders");
    for folder in folders.split(':') {
        println!("cargo:rustc-link-search=native={folder}");
        println!("cargo:rerun-if-changed={folder}/libcfi_beside_gimli.a");
    }
    println!("cargo:rustc-link-lib=static=cfi_beside_gimli");
    println!("cargo:rustc-link-lib=static=libc_c");
}
