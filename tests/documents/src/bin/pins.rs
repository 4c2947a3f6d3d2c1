// Renews the files of pins: the exported contracts, the theorems, and what they rest on.

use std::process::exit;

use documents::pins::{Sources, CONTRACTS, DEFINITIONS, THEOREMS};

fn main() {
    let sources = Sources::load();
    for kind in [CONTRACTS, THEOREMS, DEFINITIONS] {
        if let Err(error) = kind.renew(&sources) {
            eprintln!("{}: {}", kind.path().display(), error);
            exit(1);
        }
        println!(
            "tests/documents/{}: {} pins",
            kind.file,
            kind.pinned().len()
        );
    }
}
