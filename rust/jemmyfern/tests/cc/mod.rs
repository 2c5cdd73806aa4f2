//! A C file of the repository, compiled against the header and linked with the library.

use std::path::{Path, PathBuf};
use std::process::Command;

/// A file of the repository.
pub fn kept(name: &str) -> PathBuf {
    Path::new(env!("CARGO_MANIFEST_DIR"))
        .join("../..")
        .join(name)
}

/// The library, where build.rs finds it too.
pub fn library() -> PathBuf {
    let folder =
        std::env::var("JEMMYFERN_LIB").map_or_else(|_| kept("target/staticlib"), PathBuf::from);
    folder.join("libjemmyfern_c.a")
}

/// A folder for this test alone.
pub fn folder(name: &str) -> PathBuf {
    let folder = std::env::temp_dir().join(format!("jemmyfern-{name}-{}", std::process::id()));
    std::fs::create_dir_all(&folder).expect("a folder");
    folder
}

/// The program of this C file, in `folder`. `standard` is C's.
pub fn compiled(source: &str, standard: &str, folder: &Path) -> PathBuf {
    let program = folder.join("program");
    let status = Command::new("cc")
        .arg(format!("-std={standard}"))
        .args(["-Wall", "-Wextra", "-Werror", "-O2", "-I"])
        .args([kept("include"), kept(source), library()])
        .arg("-o")
        .arg(&program)
        .status()
        .expect("a C compiler");
    assert!(status.success(), "{source}");
    program
}

/// What this C file's program prints, which must say that all is well. (The examples run theirs with arguments.)
#[allow(dead_code)]
pub fn printed(name: &str) -> String {
    let folder = folder(name);
    let program = compiled(&format!("tests/{name}.c"), "gnu11", &folder);
    let run = Command::new(&program).output().unwrap();
    std::fs::remove_dir_all(&folder).unwrap();
    assert!(run.status.success(), "{run:?}");
    String::from_utf8(run.stdout).unwrap()
}
