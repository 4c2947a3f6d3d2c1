// The sample files of the repository: they are those of the list, and their page shows what the
// program prints for each.

use std::fs;
use std::path::PathBuf;

use crate::program::output;
use crate::samples::samples;

fn folder() -> PathBuf {
    PathBuf::from(env!("CARGO_MANIFEST_DIR")).join("../../samples")
}

#[test]
fn the_files_are_those_of_the_list() {
    let mut there: Vec<String> = fs::read_dir(folder())
        .unwrap()
        .map(|entry| entry.unwrap().file_name().into_string().unwrap())
        .filter(|name| name != "README.md")
        .collect();
    there.sort();
    let mut listed: Vec<&str> = samples().iter().map(|sample| sample.name).collect();
    listed.sort_unstable();
    assert_eq!(there, listed, "'make samples' writes them");
    for sample in samples() {
        let bytes = fs::read(folder().join(sample.name)).unwrap();
        assert_eq!(bytes, sample.bytes, "{}", sample.name);
    }
}

#[test]
fn the_page_shows_each_output() {
    let page = fs::read_to_string(folder().join("README.md")).unwrap();
    for sample in samples() {
        let shown = format!("\n    {}:\n", sample.name);
        let lines = output(&sample.bytes);
        let lines: Vec<String> = lines.lines().map(|line| format!("    {line}\n")).collect();
        let expected = shown + &lines.concat();
        assert!(page.contains(&expected), "{expected}");
    }
}
