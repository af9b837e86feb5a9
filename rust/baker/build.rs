//! Links the proved static library that the environment variable BAKER_LIB names. A relative path is
//! taken from the root of the repository. Without the library only who asks for it by the feature
//! `library-optional` is built.

use std::path::Path;
use std::process::exit;

const ABSENT: &str = "\
baker: the environment variable BAKER_LIB names no library. Make it with `tools/build` at the root of
the repository, and build with BAKER_LIB=target/staticlib/libbaker.a, a path from that root or an absolute one.";

fn main() {
    println!("cargo:rustc-check-cfg=cfg(baker_lib)");
    println!("cargo:rerun-if-env-changed=BAKER_LIB");
    let Some(given) = std::env::var_os("BAKER_LIB").filter(|given| !given.is_empty()) else {
        if std::env::var_os("CARGO_FEATURE_LIBRARY_OPTIONAL").is_some() {
            return;
        }
        fail(ABSENT);
    };
    let archive = Path::new(env!("CARGO_MANIFEST_DIR")).join("../..").join(given);
    let Ok(archive) = archive.canonicalize() else {
        fail(&format!("{ABSENT}\nIt is {}, and there is no such file.", archive.display()));
    };
    let name = archive.file_name().and_then(|name| name.to_str()).unwrap_or_default();
    let Some(name) = name.strip_prefix("lib").and_then(|name| name.strip_suffix(".a")) else {
        fail(&format!("{ABSENT}\nIt is {}, which is not named lib*.a.", archive.display()));
    };
    println!("cargo:rerun-if-changed={}", archive.display());
    println!("cargo:rustc-cfg=baker_lib");
    println!("cargo:rustc-link-search=native={}", archive.parent().unwrap().display());
    println!("cargo:rustc-link-lib=static={name}");
}

fn fail(why: &str) -> ! {
    eprintln!("{why}");
    exit(1)
}
