//! Writes the conformance kit, from the library. Every item is checked against the twin on the way.

use haul_tape_differential::kit;
use std::fs;
use std::io;
use std::path::Path;

fn main() -> io::Result<()> {
    let directory = Path::new(env!("CARGO_MANIFEST_DIR")).join("../../conformance");
    fs::create_dir_all(directory.join("tapes"))?;
    let files = kit::files();
    for file in &files {
        fs::write(directory.join(&file.name), &file.bytes)?;
    }
    let bytes: usize = files.iter().map(|file| file.bytes.len()).sum();
    println!("{} files, {bytes} bytes", files.len());
    Ok(())
}
