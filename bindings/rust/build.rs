//! Links libtl.a from the folder that TL_LIB names; else the one in `lib`, which the crate of a release has; else what pkg-config says
//! of `libtl`. Where there is none, the crate is still checked and documented; only a program isn't linked.
use std::path::Path;
use std::process::Command;

fn main() {
    println!("cargo:rerun-if-env-changed=TL_LIB");
    println!("cargo:rerun-if-env-changed=PKG_CONFIG_PATH");
    println!("cargo:rerun-if-env-changed=TL_REFUSALS");
    println!("cargo:rustc-check-cfg=cfg(tl_refusals)");
    if std::env::var_os("TL_REFUSALS").is_some() {
        println!("cargo:rustc-cfg=tl_refusals");
    }
    if let Some(folder) = given_folder().or_else(own_folder) {
        println!("cargo:rerun-if-changed={folder}/libtl.a");
        println!("cargo:rustc-link-search=native={folder}");
        println!("cargo:rustc-link-lib=static=tl");
        return;
    }
    match installed_folder() {
        Some(folder) => println!("cargo:rustc-link-search=native={folder}"),
        None => println!("cargo:warning=libtl is not found: set TL_LIB to the folder of libtl.a"),
    }
    println!("cargo:rustc-link-lib=tl");
}

// The folder that the environment names.
fn given_folder() -> Option<String> {
    std::env::var("TL_LIB").ok()
}

// The folder of this crate that has the library.
fn own_folder() -> Option<String> {
    let folder = format!("{}/lib", std::env::var("CARGO_MANIFEST_DIR").ok()?);
    Some(folder).filter(|it| Path::new(it).join("libtl.a").exists())
}

// The folder that pkg-config says the library is in.
fn installed_folder() -> Option<String> {
    let ran = Command::new("pkg-config")
        .args(["--variable=libdir", "libtl"])
        .output()
        .ok()?;
    let folder = String::from_utf8(ran.stdout).ok()?.trim().to_owned();
    Some(folder).filter(|it| ran.status.success() && !it.is_empty())
}
