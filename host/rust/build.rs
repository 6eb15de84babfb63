//! Finds libzitskvoze.a: in ZITSKVOZE_LIB_DIR, else where `make -C host` puts it in this tree, else where pkg-config
//! says.
use std::env;
use std::path::{Path, PathBuf};
use std::process::Command;

fn has_archive(folder: &Path) -> bool {
    folder.join("libzitskvoze.a").is_file()
}

fn by_pkg_config() -> Option<PathBuf> {
    let output = Command::new("pkg-config").args(["--variable=libdir", "zitskvoze"]).output().ok()?;
    let folder = PathBuf::from(String::from_utf8(output.stdout).ok()?.trim());
    (output.status.success() && has_archive(&folder)).then_some(folder)
}

fn main() {
    println!("cargo:rerun-if-env-changed=ZITSKVOZE_LIB_DIR");
    let folder = match env::var_os("ZITSKVOZE_LIB_DIR") {
        Some(given) => PathBuf::from(given),
        None => {
            let built = Path::new(&env::var_os("CARGO_MANIFEST_DIR").expect("cargo sets it")).join("../build");
            if has_archive(&built) {
                built
            } else {
                by_pkg_config().unwrap_or(built)
            }
        }
    };
    if !has_archive(&folder) {
        eprintln!("{}/libzitskvoze.a is missing: run make -C host, or name its folder in ZITSKVOZE_LIB_DIR", folder.display());
        std::process::exit(1);
    }
    println!("cargo:rerun-if-changed={}/libzitskvoze.a", folder.display());
    println!("cargo:rustc-link-search=native={}", folder.display());
    println!("cargo:rustc-link-lib=static=zitskvoze");
}
