//! Links `libcimaroly.a` for the target's processor: that of the package's `lib/`, in the repository
//! that of `dist/`, or that of the folder that `CIMAROLY_LIB_DIR` names.

use std::env;
use std::path::{Path, PathBuf};

const ARCHIVE: &str = "libcimaroly.a";

fn main() {
    println!("cargo:rerun-if-env-changed=CIMAROLY_LIB_DIR");
    let folder = env::var_os("CIMAROLY_LIB_DIR").map_or_else(packaged, PathBuf::from);
    let archive = folder.join(ARCHIVE);
    println!("cargo:rerun-if-changed={}", archive.display());
    if !archive.is_file() {
        println!(
            "cargo:warning=there is no {} (there are builds for x86-64 and aarch64, and the WebAssembly \
             module in web/ runs anywhere): name another folder by CIMAROLY_LIB_DIR",
            archive.display()
        );
    }
    println!("cargo:rustc-link-search=native={}", folder.display());
    println!("cargo:rustc-link-lib=static=cimaroly");
}

/// The folder of the package that has the target's archive, or that of the repository.
fn packaged() -> PathBuf {
    let here = env::var_os("CARGO_MANIFEST_DIR").expect("cargo says where the package is");
    let processor =
        env::var("CARGO_CFG_TARGET_ARCH").expect("cargo says what the target's processor is");
    let machine = format!("{processor}-linux");
    let package = Path::new(&here);
    let own = package.join("lib").join(&machine);
    if own.join(ARCHIVE).is_file() {
        own
    } else {
        package.join("../../dist").join(machine)
    }
}
