//! Writes the five `mod` lines of the Rust under comparison, with the place where its files lie.
//! `JOMINI` names the folder; without it, `shared/` stands beside the repository. A file that is not
//! there ends the build with a sentence.

use std::{env, fs, path::Path, process};

const FILES: [(&str, &str); 5] = [
    ("data", "data.rs"),
    ("operator", "text/operator.rs"),
    ("scalar", "scalar.rs"),
    ("tape", "text/tape.rs"),
    ("util", "util.rs"),
];

fn main() {
    println!("cargo:rerun-if-env-changed=JOMINI");
    let here = env::var("CARGO_MANIFEST_DIR").unwrap();
    let beside = format!("{here}/../../../shared/docs/src/crates/jomini/src");
    let folder = env::var("JOMINI").unwrap_or(beside);
    let mut modules = String::new();
    for (name, file) in FILES {
        let Ok(path) = fs::canonicalize(Path::new(&folder).join(file)) else {
            println!(
                "cargo::error=the Rust's {file} is not in {folder}; JOMINI can name the folder that \
                 holds the Rust's five files"
            );
            process::exit(2);
        };
        println!("cargo:rerun-if-changed={}", path.display());
        modules += &format!("#[path = {path:?}]\nmod {name};\n");
    }
    fs::write(Path::new(&env::var("OUT_DIR").unwrap()).join("five.rs"), modules).unwrap();
}
