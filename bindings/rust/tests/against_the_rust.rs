//! Holds this crate against the Rust that it stands in for: runs the tests of `against/`, a package of
//! its own that compiles the Rust's unchanged files. These are not part of the repository; where they
//! are not there, says so and is content.

use std::env;
use std::path::{Path, PathBuf};
use std::process::{Command, exit};

const HERE: &str = env!("CARGO_MANIFEST_DIR");

/// The folder of the Rust's files: `JOMINI`, or `shared` beside the repository.
fn rust_files() -> PathBuf {
    let beside = Path::new(HERE).join("../../../shared/docs/src/crates/jomini/src");
    let folder = env::var_os("JOMINI").map_or(beside, PathBuf::from);
    folder.canonicalize().unwrap_or(folder)
}

fn main() {
    let rust = rust_files();
    for needed in [rust.join("text/tape.rs"), Path::new(HERE).join("../../compare/Cargo.toml")] {
        if !needed.is_file() {
            println!(
                "against_the_rust: not compared with the Rust, since {} is not there; JOMINI can name \
                 the folder that holds the Rust's files",
                needed.display()
            );
            return;
        }
    }
    let manifest = Path::new(HERE).join("against/Cargo.toml");
    let target = Path::new(env!("CARGO_TARGET_TMPDIR")).join("against");
    let ended = Command::new(env!("CARGO"))
        .args(["test", "--release", "--offline", "--quiet", "--manifest-path"])
        .arg(manifest)
        .arg("--target-dir")
        .arg(target)
        .args(["--", "--nocapture"])
        .env("JOMINI", rust)
        .status();
    match ended {
        Ok(status) if status.success() => {}
        Ok(status) => {
            println!("against_the_rust: {status}");
            exit(1);
        }
        Err(error) => {
            println!("against_the_rust: {}: {error}", env!("CARGO"));
            exit(1);
        }
    }
}
