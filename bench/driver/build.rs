//! Links libcfi_beside_gimli.a, and the C functions on which the toolchain's libraries stand.
use std::env;
use std::path::{Path, PathBuf};
use std::process::Command;

/// The folder of liblibc_c.a: beside the page that `rt doc` prints, in c/.
fn toolchain() -> PathBuf {
    let page = Command::new("rt").arg("doc").output().expect("rt is in reach").stdout;
    let page = String::from_utf8(page).expect("rt doc prints a path");
    Path::new(page.trim()).parent().expect("the page is in a folder").join("c")
}

fn main() {
    let library = env::var("CFI_BENCH_LIB").expect("CFI_BENCH_LIB names the folder of libcfi_beside_gimli.a");
    println!("cargo:rerun-if-env-changed=CFI_BENCH_LIB");
    println!("cargo:rerun-if-changed={library}/libcfi_beside_gimli.a");
    println!("cargo:rustc-link-search=native={library}");
    println!("cargo:rustc-link-lib=static=cfi_beside_gimli");
    println!("cargo:rustc-link-search=native={}", toolchain().display());
    println!("cargo:rustc-link-lib=static=libc_c");
}
