//! Links the verified archive when it has been built, and says so with the cfg `library`.

use std::path::Path;

const FOLDER: &str = "../target/staticlib";

fn main() {
    let archive = format!("{FOLDER}/libcapi.a");
    println!("cargo:rustc-check-cfg=cfg(library)");
    println!("cargo:rerun-if-changed={archive}");
    if !Path::new(&archive).exists() {
        return;
    }
    // The linker runs in another folder, so the path has to be whole.
    let folder = Path::new(FOLDER)
        .canonicalize()
        .expect("the folder of the archive");
    println!("cargo:rustc-link-search=native={}", folder.display());
    println!("cargo:rustc-link-lib=static=capi");
    println!("cargo:rustc-cfg=library");
}
