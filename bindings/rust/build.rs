//! Finds the archive libspvk.a: in the folder that the environment's SPVK_LIB_DIR names, or where pkg-config says.

use std::env;
use std::process::Command;

/// The folder that pkg-config knows.
fn installed() -> Option<String> {
    let pkg_config = env::var("PKG_CONFIG").unwrap_or_else(|_| "pkg-config".into());
    let words = ["--variable=libdir", "spvk"];
    let said = Command::new(pkg_config).args(words).output().ok()?;
    let folder = String::from_utf8(said.stdout).ok()?.trim().to_owned();
    (said.status.success() && !folder.is_empty()).then_some(folder)
}

fn main() {
    println!("cargo:rerun-if-env-changed=SPVK_LIB_DIR");
    println!("cargo:rerun-if-env-changed=PKG_CONFIG_PATH");
    let folder = env::var("SPVK_LIB_DIR").ok().or_else(installed).expect(
        "libspvk.a is not found: install spvk where pkg-config sees it, or name its folder in SPVK_LIB_DIR",
    );
    println!("cargo:rerun-if-changed={folder}/libspvk.a");
    println!("cargo:rustc-link-search=native={folder}");
    println!("cargo:rustc-link-lib=static=spvk");
}
