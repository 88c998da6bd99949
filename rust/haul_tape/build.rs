//! Says where the static library is. Without it the crate can be checked and documented, but not
//! built: what links it ends with an error of the compiler, beside the warning given here.

use std::env;
use std::path::{self, Path, PathBuf};

fn main() {
    println!("cargo::rerun-if-env-changed=HAUL_TAPE_LIB_DIR");
    let directory = match env::var_os("HAUL_TAPE_LIB_DIR") {
        Some(directory) => PathBuf::from(directory),
        None => Path::new(env!("CARGO_MANIFEST_DIR")).join("../../target/staticlib"),
    };
    // the compiler runs in another directory than this program
    let directory = path::absolute(&directory).unwrap_or(directory);
    let library = directory.join("libhaul_tape.a");
    println!("cargo::rerun-if-changed={}", library.display());
    if !library.is_file() {
        println!(
            "cargo::warning=there is no {}, so nothing that uses it can be linked: build it with \
             `tools/build haul_tape`, or name its directory in HAUL_TAPE_LIB_DIR",
            library.display()
        );
    }
    println!("cargo::rustc-link-search=native={}", directory.display());
    println!("cargo::rustc-link-lib=static=haul_tape");
}
