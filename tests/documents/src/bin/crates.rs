// Writes crates.txt: each crate with all crates below it.

use std::fs;
use std::process::exit;

use documents::listing::{exporting, listing, named};
use documents::root;

fn main() {
    let named = named();
    let path = root().join("crates.txt");
    if let Err(error) = fs::write(&path, listing(&named, &exporting())) {
        eprintln!("{}: {}", path.display(), error);
        exit(1);
    }
    println!("crates.txt: {} crates", named.len());
}
