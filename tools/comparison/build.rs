//! Links the static libraries. `CFI_LIBRARIES` lists the folders of libcfi_c.a, libcfi_beside_gimli.a and
//! liblibc_c.a, with a colon between them.
fn main() {
    println!("cargo:rerun-if-env-changed=CFI_LIBRARIES");
    let folders =
        std::env::var("CFI_LIBRARIES").expect("CFI_LIBRARIES lists the libraries' folders");
    for folder in folders.split(':') {
        println!("cargo:rustc-link-search=native={folder}");
        for name in ["libcfi_c.a", "libcfi_beside_gimli.a"] {
            println!("cargo:rerun-if-changed={folder}/{name}");
        }
    }
    for name in ["cfi_c", "cfi_beside_gimli", "libc_c"] {
        println!("cargo:rustc-link-lib=static={name}");
    }
}
