//! Finds the static library: in the folder that `TACKACORN_LIB_DIR` names, else where pkg-config says
//! that it is installed, else where `make` in this repository leaves it. Where it is not there, or where
//! it could not run, the build ends with a sentence.

use std::path::{Path, PathBuf};
use std::process::{self, Command};
use std::{env, fs};

const LIBRARY: &str = "libtackacorn.a";

/// The versions that have all calls of this crate, answer them as it says, and whose tapes it can read, as pkg-config
/// asks for them.
const VERSIONS: [&str; 2] = ["tackacorn >= 2.4.0", "tackacorn < 3"];

fn refuse(why: &str) -> ! {
    println!("cargo::error={why}");
    process::exit(2);
}

fn main() {
    println!("cargo::rerun-if-changed=build.rs");
    for variable in ["TACKACORN_LIB_DIR", "PKG_CONFIG", "PKG_CONFIG_PATH", "PKG_CONFIG_LIBDIR"] {
        println!("cargo::rerun-if-env-changed={variable}");
    }
    let target = env::var("TARGET").expect("cargo names the target");
    if !(target.starts_with("x86_64-") && target.contains("linux")) {
        refuse(&format!("the proved library is for x86-64 Linux alone, and this is {target}"));
    }
    let folder = named().or_else(installed).or_else(built).unwrap_or_else(|| {
        refuse(&format!(
            "{LIBRARY} is not there: run `make` in the repository of Tackacorn, or let \
             TACKACORN_LIB_DIR name the folder that holds it"
        ))
    });
    println!("cargo::rerun-if-changed={}", folder.join(LIBRARY).display());
    println!("cargo::rustc-link-search=native={}", folder.display());
    println!("cargo::rustc-link-lib=static=tackacorn");
}

/// The folder, if it holds the library.
fn holding(folder: PathBuf) -> Option<PathBuf> {
    folder.join(LIBRARY).is_file().then_some(folder)
}

/// The folder that the caller names, which must hold the library.
fn named() -> Option<PathBuf> {
    let folder = env::var_os("TACKACORN_LIB_DIR")?;
    let shown = folder.display().to_string();
    let found = fs::canonicalize(folder).ok().and_then(holding);
    Some(found.unwrap_or_else(|| {
        refuse(&format!("TACKACORN_LIB_DIR names {shown}, where no {LIBRARY} is"))
    }))
}

/// The folder of an installed library of a version that fits.
fn installed() -> Option<PathBuf> {
    let pkg_config = env::var_os("PKG_CONFIG").unwrap_or("pkg-config".into());
    let fits = Command::new(&pkg_config).arg("--exists").args(VERSIONS).status().ok()?;
    let asked = Command::new(&pkg_config).args(["--variable=libdir", "tackacorn"]).output().ok()?;
    let folder = String::from_utf8(asked.stdout).ok()?;
    if fits.success() { holding(PathBuf::from(folder.trim())) } else { None }
}

/// The folder of the repository into which `make` builds.
fn built() -> Option<PathBuf> {
    let here = env::var_os("CARGO_MANIFEST_DIR")?;
    fs::canonicalize(Path::new(&here).join("../../build")).ok().and_then(holding)
}
