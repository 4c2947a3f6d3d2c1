// What the documents name, and what the crates have: references, definitions, edits, routines. And
// what is pinned of the crates: contracts, theorems and their definitions. And which crates need which.

use std::collections::{BTreeMap, BTreeSet};
use std::fs;
use std::path::{Path, PathBuf};

pub mod antt;
pub mod code;
pub mod listing;
pub mod pins;

#[cfg(test)]
mod tests;

/// The repository.
pub fn root() -> PathBuf {
    Path::new(env!("CARGO_MANIFEST_DIR")).join("../..")
}

pub fn text(path: &Path) -> String {
    fs::read_to_string(path).unwrap_or_else(|error| panic!("{}: {}", path.display(), error))
}

/// The entries of a folder, sorted; none if there is no such folder.
pub fn entries(folder: &Path) -> Vec<PathBuf> {
    let mut found: Vec<PathBuf> = match fs::read_dir(folder) {
        Ok(entries) => entries
            .map(|entry| entry.expect("an entry").path())
            .collect(),
        Err(_) => Vec::new(),
    };
    found.sort();
    found
}

pub fn stem(path: &Path) -> String {
    path.file_stem()
        .expect("a name")
        .to_string_lossy()
        .into_owned()
}

/// The crates, by crates.txt.
pub fn crates() -> Vec<String> {
    text(&root().join("crates.txt"))
        .lines()
        .filter(|line| !line.starts_with('#'))
        .filter_map(|line| line.split_once(':'))
        // A static library has a second word there.
        .filter_map(|(name, _)| name.split_whitespace().next())
        .map(str::to_string)
        .collect()
}

/// The must-fail edits of all crates, as (crate, name).
pub fn edits() -> BTreeSet<(String, String)> {
    let mut found = BTreeSet::new();
    for name in crates() {
        for path in entries(&root().join("crates").join(&name).join("must-fail")) {
            found.insert((name.clone(), stem(&path)));
        }
    }
    found
}

/// A reference of a document: `PATH: NAME, NAME` or `PATH:LINE: NAME`.
pub struct Reference {
    pub path: String,
    pub line: Option<usize>,
    pub names: Vec<String>,
}

/// The references between backticks of a text. A path starts with a crate or with tests/.
pub fn references(text: &str) -> Vec<Reference> {
    let known: BTreeSet<String> = crates().into_iter().chain(["tests".to_string()]).collect();
    let mut found = Vec::new();
    for line in text.lines() {
        for (i, quoted) in line.split('`').enumerate() {
            let first = quoted.split('/').next().unwrap_or("");
            if i % 2 == 0 || !quoted.contains('/') || !known.contains(first) {
                continue;
            }
            let (place, names) = quoted.split_once(": ").unwrap_or((quoted, ""));
            let (path, line) = match place.split_once(':') {
                Some((path, line)) => (path, line.parse().ok()),
                None => (place, None),
            };
            found.push(Reference {
                path: path.to_string(),
                line,
                names: names
                    .split(", ")
                    .filter(|name| !name.is_empty())
                    .map(String::from)
                    .collect(),
            });
        }
    }
    found
}

/// Where a reference's path leads.
pub fn target(path: &str) -> PathBuf {
    if path.starts_with("tests/") {
        root().join(path)
    } else {
        root().join("crates").join(path)
    }
}

fn is_antt(path: &Path) -> bool {
    path.extension()
        .map_or(false, |extension| extension == "antt")
}

/// What a file defines: each name with its first line, counted from 1.
pub fn definitions(path: &Path) -> BTreeMap<String, usize> {
    let mut found = BTreeMap::new();
    // A member of a record or data type counts as its own only.
    let mut in_type = false;
    for (i, line) in text(path).lines().enumerate() {
        let name = if is_antt(path) {
            antt::declared_name(line)
        } else {
            code_name(line)
        };
        let indented = line.starts_with(' ') || line.is_empty();
        in_type = if indented {
            in_type
        } else {
            antt::begins_type(line)
        };
        if let Some(name) = name.filter(|_| !(indented && in_type)) {
            found.entry(name).or_insert(i + 1);
        }
    }
    found
}

/// The name of the function, type or constant that a line of code begins.
fn code_name(line: &str) -> Option<String> {
    let mut words = line.trim_start().split(' ').peekable();
    while let Some(word) = words.next() {
        match word {
            "pub" | "pub(crate)" | "pub(super)" | "extern" | "\"C\"" => {}
            "const" if words.peek() == Some(&"fn") => {}
            "fn" | "struct" | "enum" | "const" | "static" | "trait" | "mod" => {
                let name = words.next()?;
                let end = name.find(|c: char| !c.is_alphanumeric() && c != '_');
                return Some(name[..end.unwrap_or(name.len())].to_string());
            }
            _ => return None,
        }
    }
    None
}

/// Whether a file has a name: a definition, or a member of one, as `Record.field`. A member is
/// looked for in the declaration of its own record, data type, struct or enum only.
pub fn has(path: &Path, name: &str) -> bool {
    match name.split_once('.') {
        Some((outer, member)) => has_member(&text(path), is_antt(path), outer, member),
        None => definitions(path).contains_key(name),
    }
}

pub fn has_member(source: &str, antt: bool, outer: &str, member: &str) -> bool {
    if antt {
        let declared = antt::declarations(source);
        let mut members = declared
            .iter()
            .filter(|d| d.name == outer)
            .flat_map(|d| d.members());
        members.any(|name| name == member)
    } else {
        let inside = code::type_text(source, outer).unwrap_or_default();
        inside
            .split(|c| "{(".contains(c))
            .skip(1)
            .any(|part| code::uses(part, member) > 0)
    }
}

/// The public functions and methods of a library, exported ones included, each with its file.
pub fn public_functions(name: &str) -> Vec<(String, String)> {
    let mut found = Vec::new();
    for path in entries(&root().join("crates").join(name).join("src")) {
        let file = path
            .file_name()
            .expect("a name")
            .to_string_lossy()
            .into_owned();
        if file.ends_with(".rt") && file != "main.rt" {
            let of = format!("{}/src/{}", name, file);
            let all = public_in(&text(&path)).into_iter();
            found.extend(all.map(|function| (of.clone(), function)));
        }
    }
    found
}

/// The public functions and methods of code.
pub fn public_in(source: &str) -> Vec<String> {
    let is = |line: &&str| {
        let line = line.strip_prefix("    ").unwrap_or(line);
        line.starts_with("pub fn ") || line.starts_with("pub extern \"C\" fn ")
    };
    source.lines().filter(is).filter_map(code_name).collect()
}

/// Applies an edit as `rt` does, and says what is wrong with it.
pub fn fault_of(crate_name: &str, edit: &str) -> Option<String> {
    let folder = root().join("crates").join(crate_name);
    let (mut file, mut old) = (String::new(), String::new());
    let mut changed: BTreeMap<String, String> = BTreeMap::new();
    for line in text(&folder.join("must-fail").join(format!("{}.edit", edit))).lines() {
        if let Some(rest) = line.strip_prefix("file: ") {
            file = rest.to_string();
        } else if let Some(rest) = line.strip_prefix("old: ") {
            old = rest.to_string();
        } else if let Some(rest) = line.strip_prefix("new:") {
            let new = rest.strip_prefix(' ').unwrap_or(rest);
            if !folder.join(&file).is_file() {
                return Some(format!("there is no {}", file));
            }
            let before = changed
                .remove(&file)
                .unwrap_or_else(|| text(&folder.join(&file)));
            let times = before.matches(&old).count();
            if times != 1 {
                return Some(format!("'{}' stands {} times in {}", old, times, file));
            }
            if old == new {
                return Some("it changes nothing".to_string());
            }
            changed.insert(file.clone(), before.replace(&old, new));
        }
    }
    changed
        .is_empty()
        .then(|| "it has no 'old:' and 'new:'".to_string())
}
