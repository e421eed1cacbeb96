//! The C programs of the host side, compiled against the header and the archive.

use std::env;
use std::path::{Path, PathBuf};
use std::process::{Command, Output};

const FLAGS: [&str; 5] = ["-std=c99", "-Wall", "-Wextra", "-Werror", "-pedantic"];

/// The repository's root.
pub fn root() -> PathBuf {
    PathBuf::from(env!("CARGO_MANIFEST_DIR")).join("../..")
}

/// The archive that the tests are linked with.
pub fn archive() -> PathBuf {
    let folder = match env::var_os("CONTROLLER_LIB_DIR") {
        Some(dir) => PathBuf::from(dir),
        None => root().join("crates/controller_c/out"),
    };
    folder.join("libcontroller_c.a")
}

/// Compiles a source file below the root, without a warning, into a folder, and
/// runs the program.
pub fn run(source: &str, folder: &str) -> Output {
    let name = Path::new(source).file_stem().expect("a file's name");
    let program = Path::new(folder).join(name);
    let compiled = Command::new("cc")
        .args(FLAGS)
        .arg("-I")
        .arg(root().join("include"))
        .arg(root().join(source))
        .arg(archive())
        .arg("-o")
        .arg(&program)
        .status()
        .expect("a C compiler, cc");
    assert!(compiled.success());
    let ran = Command::new(&program).output().expect("it runs");
    assert!(ran.status.success());
    ran
}
