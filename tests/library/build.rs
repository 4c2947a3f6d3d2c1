// Links the proved libraries, from PELZHONDY_TARGET or the repository's target/, and sets a feature
// for each routine that they define.

use std::env;
use std::path::{Path, PathBuf};
use std::process::{exit, Command};

/// A library's routines, without their prefix, and whether they have landed: if so each must be
/// defined, else it may be missing, and what needs it is left out.
const LIBRARIES: [(&str, &[(&str, bool)]); 2] = [
    (
        "workbench",
        &[
            ("read", true),
            ("locate", true),
            ("cyclic", true),
            ("judge", true),
            ("verdict", true),
            ("judge_lines", true),
            ("find", true),
            ("trace", true),
        ],
    ),
    (
        "receiver",
        &[
            ("open", true),
            ("hand_in", true),
            ("step", true),
            ("drain", true),
            ("get", true),
        ],
    ),
];

const PREFIX: &str = "pelzhondy_";

fn stop(message: String) -> ! {
    eprintln!("{message}");
    exit(1)
}

/// The routines that an archive defines, without their prefix.
fn defined(archive: &Path) -> Vec<String> {
    let listing = Command::new("nm")
        .args(["-g", "--defined-only", "-P"])
        .arg(archive)
        .output();
    let listing = match listing {
        Ok(output) if output.status.success() => output.stdout,
        _ => stop(format!("nm cannot read {}", archive.display())),
    };
    String::from_utf8_lossy(&listing)
        .lines()
        .filter_map(|line| line.split(' ').next())
        .filter_map(|symbol| symbol.strip_prefix(PREFIX))
        .map(str::to_string)
        .collect()
}

fn main() {
    let target = match env::var_os("PELZHONDY_TARGET") {
        Some(folder) => PathBuf::from(folder),
        None => {
            let here = PathBuf::from(env::var_os("CARGO_MANIFEST_DIR").unwrap_or_default());
            here.join("../../target")
        }
    };
    let folder = target.join("staticlib");
    println!("cargo:rerun-if-env-changed=PELZHONDY_TARGET");
    println!("cargo:rustc-link-search=native={}", folder.display());
    for (library, routines) in LIBRARIES {
        let archive = folder.join(format!("lib{library}.a"));
        println!("cargo:rerun-if-changed={}", archive.display());
        let there = if archive.is_file() {
            println!("cargo:rustc-link-lib=static={library}");
            defined(&archive)
        } else {
            Vec::new()
        };
        for (routine, landed) in routines {
            if there.iter().any(|name| name == routine) {
                println!("cargo:rustc-cfg=feature=\"{routine}\"");
            } else if *landed {
                stop(format!(
                    "no {PREFIX}{routine} in {}: run 'make libraries' first",
                    archive.display()
                ));
            }
        }
    }
}
