// Where the gate's other parts leave what is tested here.

use std::env;
use std::path::{Path, PathBuf};

fn repository() -> PathBuf {
    Path::new(env!("CARGO_MANIFEST_DIR")).join("../..")
}

/// PELZHONDY_TARGET, or the repository's target/.
pub fn target() -> PathBuf {
    env::var_os("PELZHONDY_TARGET").map_or_else(|| repository().join("target"), PathBuf::from)
}

/// The judging program.
pub fn program() -> PathBuf {
    target().join("bin/judge")
}

pub fn samples() -> PathBuf {
    repository().join("samples")
}
