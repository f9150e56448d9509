//! Finds the proved library and has it linked.

use std::env;
use std::path::{Path, PathBuf};
use std::process;

const NAME: &str = "libfanring.a";

fn main() {
    println!("cargo:rerun-if-changed=build.rs");
    println!("cargo:rerun-if-env-changed=FANRING_LIB");
    let place = place();
    let archive = if place.is_dir() { place.join(NAME) } else { place };
    let Ok(archive) = archive.canonicalize() else { complain(&archive) };
    let folder = archive.parent().unwrap_or(Path::new("."));
    let name = archive.file_name().expect("a file has a name");
    println!("cargo:rerun-if-changed={}", archive.display());
    println!("cargo:rustc-link-search=native={}", folder.display());
    println!("cargo:rustc-link-lib=static:+verbatim={}", name.to_string_lossy());
}

/// The archive or its folder: where `FANRING_LIB` says, or else where `./library` writes it.
fn place() -> PathBuf {
    if let Some(place) = env::var_os("FANRING_LIB") {
        return PathBuf::from(place);
    }
    let here = PathBuf::from(env::var_os("CARGO_MANIFEST_DIR").expect("cargo sets it"));
    here.join("../target/library").join(NAME)
}

fn complain(archive: &Path) -> ! {
    eprintln!("proved-fanring: the proved library is not there: {}", archive.display());
    eprintln!("Run ./library in the root of the repository, which proves it and writes target/library/{NAME},");
    eprintln!("or set FANRING_LIB to the full path of the archive or of its folder.");
    process::exit(1);
}
