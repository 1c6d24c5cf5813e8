//! Links the static library of the calls and the reader, which the environment variable RENAME_LIB names; and beside it, if
//! RENAME_LIB_BEFORE names one, that of another release (`before-after.sh`).

use std::env;
use std::path::{Path, PathBuf};

const DEFAULT_LIBRARY: &str = "../../target/staticlib/libexports.a";

fn main() {
    println!("cargo:rerun-if-env-changed=RENAME_LIB");
    println!("cargo:rerun-if-env-changed=RENAME_LIB_BEFORE");
    println!("cargo:rerun-if-changed=build.rs");
    println!("cargo:rustc-check-cfg=cfg(before)");
    link(&library());
    if let Ok(before) = env::var("RENAME_LIB_BEFORE") {
        link(Path::new(&before));
        println!("cargo:rustc-cfg=before");
    }
}

fn link(library: &Path) {
    println!("cargo:rerun-if-changed={}", library.display());
    let (Some(folder), Some(name)) = (library.parent(), archive_name(library)) else {
        stop(&format!("this is no path to a libNAME.a: {}", library.display()));
    };
    if !library.is_file() {
        stop(&format!("there is no {}: 'bash tools/staticlib.sh' makes it, or RENAME_LIB names another", library.display()));
    }
    println!("cargo:rustc-link-search=native={}", folder.display());
    println!("cargo:rustc-link-lib=static={name}");
}

fn library() -> PathBuf {
    let package = PathBuf::from(env::var("CARGO_MANIFEST_DIR").expect("cargo sets CARGO_MANIFEST_DIR"));
    match env::var("RENAME_LIB") {
        Ok(path) => PathBuf::from(path),
        Err(_) => package.join(DEFAULT_LIBRARY),
    }
}

/// The NAME of a libNAME.a.
fn archive_name(library: &Path) -> Option<&str> {
    library.file_name()?.to_str()?.strip_prefix("lib")?.strip_suffix(".a")
}

fn stop(why: &str) -> ! {
    eprintln!("{why}");
    std::process::exit(1)
}
