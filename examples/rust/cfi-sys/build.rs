//! Links the C library. `CFI_LIBRARIES` names the folders that have it, with a colon between them: `libcfi.a` or
//! `libcfi.so` of the packages, or `libcfi_c.a` and `liblibc_c.a` of a clone and its toolchain. Without the variable
//! `pkg-config` finds the package that is installed.
use std::env;
use std::path::Path;
use std::process::Command;

fn not_found() -> ! {
    eprintln!("error: the C library of gimli_cfi is not found.");
    eprintln!("Install the package libcfi-dev, so that `pkg-config cfi` works, or set CFI_LIBRARIES to the folder of libcfi.a.");
    std::process::exit(1)
}

fn main() {
    println!("cargo:rerun-if-env-changed=CFI_LIBRARIES");
    println!("cargo:rerun-if-env-changed=PKG_CONFIG_PATH");
    match env::var("CFI_LIBRARIES") {
        Ok(folders) => link_folders(&folders),
        Err(_) => link_package(),
    }
}

fn link_folders(folders: &str) {
    let has = |name: &str| folders.split(':').any(|folder| Path::new(folder).join(name).exists());
    for folder in folders.split(':') {
        println!("cargo:rustc-link-search=native={folder}");
        println!("cargo:rerun-if-changed={folder}");
    }
    if has("libcfi.a") {
        println!("cargo:rustc-link-lib=static=cfi");
    } else if has("libcfi_c.a") && has("liblibc_c.a") {
        println!("cargo:rustc-link-lib=static=cfi_c");
        println!("cargo:rustc-link-lib=static=libc_c");
    } else if has("libcfi.so") {
        println!("cargo:rustc-link-lib=dylib=cfi");
    } else {
        not_found();
    }
}

fn link_package() {
    let found = Command::new(env::var_os("PKG_CONFIG").unwrap_or_else(|| "pkg-config".into()))
        .args(["--libs", "cfi"])
        .env("PKG_CONFIG_ALLOW_SYSTEM_LIBS", "1")
        .output();
    let words = match &found {
        Ok(found) if found.status.success() => String::from_utf8_lossy(&found.stdout),
        _ => not_found(),
    };
    for word in words.split_whitespace() {
        if let Some(folder) = word.strip_prefix("-L") {
            println!("cargo:rustc-link-search=native={folder}");
        } else if let Some(library) = word.strip_prefix("-l") {
            println!("cargo:rustc-link-lib={library}");
        }
    }
}
