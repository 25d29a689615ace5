//! Links the static library: the one whose whole path is TORFIANKA_LIB, or else
//! the repository's own.

use std::env;
use std::path::{Path, PathBuf};

const VARIABLE: &str = "TORFIANKA_LIB";
const OWN: &str = "../../target/staticlib/libtorfianka.a";

fn main() {
    println!("cargo:rerun-if-env-changed={VARIABLE}");
    let archive = archive();
    println!("cargo:rerun-if-changed={}", archive.display());
    let (Some(folder), Some(name)) = (archive.parent(), archive.file_name()) else {
        unreachable!("a file has a name and stands in a folder")
    };
    println!("cargo:rustc-link-search=native={}", folder.display());
    println!("cargo:rustc-link-lib=static:+verbatim={}", name.display());
}

fn archive() -> PathBuf {
    let path = match env::var_os(VARIABLE) {
        Some(path) => PathBuf::from(path),
        None => Path::new(env!("CARGO_MANIFEST_DIR")).join(OWN),
    };
    match path.canonicalize() {
        Ok(archive) if archive.is_file() => archive,
        _ => panic!(
            "no static library at {}: run bindings/archive, or let {VARIABLE} name it",
            path.display()
        ),
    }
}
