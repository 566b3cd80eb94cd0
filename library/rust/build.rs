//! Finds libfarmap: in the folder that FARMAP_PREFIX names, or by pkg-config.

use std::env;
use std::path::PathBuf;
use std::process::Command;

fn by_pkg_config() -> Option<PathBuf> {
    let told = Command::new(env::var_os("PKG_CONFIG").unwrap_or_else(|| "pkg-config".into()))
        .args(["--variable=libdir", "farmap"])
        .output()
        .ok()?;
    let folder = String::from_utf8(told.stdout).ok()?;
    told.status.success().then(|| PathBuf::from(folder.trim()))
}

fn main() {
    println!("cargo:rerun-if-env-changed=FARMAP_PREFIX");
    println!("cargo:rerun-if-env-changed=PKG_CONFIG_PATH");
    let folder = match env::var_os("FARMAP_PREFIX") {
        Some(prefix) => PathBuf::from(prefix).join("lib"),
        None => by_pkg_config().unwrap_or_else(|| {
            panic!(
                "libfarmap was not found. Build it by `bin/build library`, and set FARMAP_PREFIX to the folder that this \
                 prints. Or set PKG_CONFIG_PATH to the folder of farmap.pc."
            )
        }),
    };
    let archive = folder.join("libfarmap.a");
    assert!(
        archive.is_file(),
        "there is no {}: FARMAP_PREFIX has to be the folder that `bin/build library` prints",
        archive.display()
    );
    println!("cargo:rerun-if-changed={}", archive.display());
    println!("cargo:rustc-link-search=native={}", folder.display());
    println!("cargo:rustc-link-lib=static=farmap");
}
