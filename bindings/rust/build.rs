//! Links libmtrecover.a of the folder MTRECOVER_LIB; or else of the package's folder `lib`, where `tools/install` puts it; or
//! else of `out` at the top of the repository, where the gate leaves it.
use std::env;
use std::path::PathBuf;

fn main() {
    let package = PathBuf::from(env!("CARGO_MANIFEST_DIR"));
    let own = package.join("lib");
    let folder = match env::var_os("MTRECOVER_LIB") {
        Some(folder) => PathBuf::from(folder),
        None if own.exists() => own,
        None => package.join("../../out"),
    };
    let archive = folder.join("libmtrecover.a");
    println!("cargo:rerun-if-env-changed=MTRECOVER_LIB");
    println!("cargo:rerun-if-changed={}", archive.display());
    assert!(
        archive.exists(),
        "no {}: `tools/install --library PREFIX`, then set MTRECOVER_LIB=PREFIX/lib",
        archive.display()
    );
    println!("cargo:rustc-link-search=native={}", folder.display());
    println!("cargo:rustc-link-lib=static=mtrecover");
}
