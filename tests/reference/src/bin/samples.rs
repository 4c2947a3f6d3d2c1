// Writes the sample files to a folder.

use std::path::PathBuf;
use std::process::exit;
use std::{env, fs};

use reference::samples::samples;

fn main() {
    let folder = match env::args_os().nth(1) {
        Some(folder) => PathBuf::from(folder),
        None => {
            eprintln!("usage: samples FOLDER");
            exit(2);
        }
    };
    for sample in samples() {
        if let Err(error) = fs::write(folder.join(sample.name), &sample.bytes) {
            eprintln!("{}: {error}", folder.join(sample.name).display());
            exit(1);
        }
    }
}
