// crates.txt: each crate with all crates below it, from what the texts of the crates name, and which are
// static libraries, from what they export. So a line names all that its crate needs and nothing else, and
// no line is kept by hand.

use std::collections::{BTreeMap, BTreeSet};
use std::path::{Path, PathBuf};

use crate::antt::without_comment;
use crate::code::{functions, is_part_of_name, without_comments};
use crate::{entries, root, text};

const HEAD: &str = "# NAME: the crates below it\n\
                    # Written by 'make crates' from what the crates name.\n";

/// The groups in order. A crate's group is its name up to the first `_`.
const GROUPS: [&str; 13] = [
    "relation",
    "model",
    "file",
    "rule",
    "judge",
    "find",
    "log",
    "cache",
    "run",
    "bench",
    "receiver",
    "workbench",
    "exports",
];

/// The kit's crates that code can name, beside std. They stand behind all others.
const KIT: [&str; 1] = ["io"];

/// Behind the name of a crate that is a static library.
const MARK: &str = " staticlib";

pub type Names = BTreeSet<String>;

/// Each crate with others.
pub type Crates = BTreeMap<String, Names>;

/// The crates that are there, each with those that it names. What holds no file but what rt made in out/
/// is no crate: such a folder is left behind where a crate was renamed.
pub fn named() -> Crates {
    let mut found = Crates::new();
    let is_file = |path: &PathBuf| path.is_file() || !files(path).is_empty();
    for folder in entries(&root().join("crates")) {
        let mut parts = entries(&folder).into_iter();
        if parts.any(|part| file_name(&part) != "out" && is_file(&part)) {
            found.insert(file_name(&folder), names_of(&folder));
        }
    }
    let known: Names = found.keys().cloned().chain(KIT.map(String::from)).collect();
    for (name, others) in &mut found {
        others.retain(|other| other != name && known.contains(other));
    }
    found
}

/// The crates that export a function to C: these are static libraries.
pub fn exporting() -> Names {
    let exports = |folder: &PathBuf| {
        files(&folder.join("src"))
            .iter()
            .filter(|path| file_name(path).ends_with(".rt"))
            .any(|path| functions(&text(path)).iter().any(|f| f.exported))
    };
    let folders = entries(&root().join("crates")).into_iter();
    folders
        .filter(exports)
        .map(|folder| file_name(&folder))
        .collect()
}

/// What can be names of crates in the sources of one.
fn names_of(folder: &Path) -> Names {
    let sources = ["src", "specs", "proofs"].map(|part| files(&folder.join(part)));
    let sources = sources.into_iter().flatten();
    sources
        .flat_map(|path| named_in(&file_name(&path), &text(&path)))
        .collect()
}

fn file_name(path: &Path) -> String {
    path.file_name()
        .expect("a name")
        .to_string_lossy()
        .into_owned()
}

/// The files below a folder.
fn files(folder: &Path) -> Vec<PathBuf> {
    let inside = |path: PathBuf| {
        if path.is_dir() {
            files(&path)
        } else {
            vec![path]
        }
    };
    entries(folder).into_iter().flat_map(inside).collect()
}

/// What can be names of crates in a file: `Rattle.NAME.` in specifications, proofs and the ghost lines of
/// code, and in code the beginnings of paths, `NAME::`, but of those whose first name a `use` line brings
/// in, as `use std::io;` brings in `io`. Comments do not count.
pub fn named_in(file: &str, source: &str) -> Names {
    let mut found = Names::new();
    if file.ends_with(".rt") {
        let code = without_comments(source);
        let brought = brought_in(&code);
        let paths = paths(&code).filter(|name| !brought.contains(*name));
        found.extend(modules(&code).chain(paths).map(String::from));
    } else if file.ends_with(".antt") {
        for line in source.lines() {
            found.extend(modules(without_comment(line)).map(String::from));
        }
    }
    found
}

fn modules(text: &str) -> impl Iterator<Item = &str> {
    text.split("Rattle.").skip(1).filter_map(|rest| {
        let end = rest.find(|c| !is_part_of_name(c))?;
        rest[end..].starts_with('.').then(|| &rest[..end])
    })
}

/// The last names of the paths in the `use` lines of code.
fn brought_in(code: &str) -> BTreeSet<&str> {
    let lines = code.lines().filter_map(|line| line.strip_prefix("use "));
    let paths = lines.flat_map(|line| line.split(['{', '}', ',', ';']));
    paths
        .filter_map(|path| path.rsplit(|c| !is_part_of_name(c)).next())
        .filter(|name| !name.is_empty())
        .collect()
}

fn paths(code: &str) -> impl Iterator<Item = &str> {
    code.match_indices("::").filter_map(|(end, _)| {
        let before = code[..end].trim_end_matches(is_part_of_name);
        // Else it is not the path's first name.
        (!before.ends_with(['.', ':'])).then(|| &code[before.len()..end])
    })
}

/// The crates below one: those that it names, and all that these name in turn.
fn below(named: &Crates, name: &str) -> Names {
    let mut found = Names::new();
    let mut todo = vec![name];
    while let Some(next) = todo.pop() {
        for other in named.get(next).into_iter().flatten() {
            if found.insert(other.clone()) {
                todo.push(other);
            }
        }
    }
    found
}

/// An order in which each crate stands behind all those below it. Of the crates that can be next it is
/// the one of the first group; in a group the one with the fewest below it, then the first by name.
fn order(below: &Crates) -> Vec<&str> {
    let group = |name: &str| {
        GROUPS
            .iter()
            .position(|&group| name.split('_').next() == Some(group))
    };
    let mut left: Vec<&str> = below.keys().map(String::as_str).collect();
    left.sort_by_key(|&name| (group(name).unwrap_or(GROUPS.len()), below[name].len(), name));
    let mut found = Vec::new();
    while !left.is_empty() {
        let can_be_next = |name: &&str| !left.iter().any(|&other| below[*name].contains(other));
        match left.iter().position(can_be_next) {
            Some(next) => found.push(left.remove(next)),
            None => panic!("some of these name each other: {}", left.join(" ")),
        }
    }
    found
}

/// What crates.txt is to be, by what each crate names and which export to C.
pub fn listing(named: &Crates, exporting: &Names) -> String {
    let below: Crates = named
        .keys()
        .map(|name| (name.clone(), below(named, name)))
        .collect();
    let order = order(&below);
    let mut whole = HEAD.to_string();
    for &name in &order {
        let others = order
            .iter()
            .chain(&KIT)
            .filter(|&&other| below[name].contains(other));
        let line: Vec<&str> = others.copied().collect();
        let mark = if exporting.contains(name) { MARK } else { "" };
        whole.push_str(format!("{}{}: {}", name, mark, line.join(" ")).trim_end());
        whole.push('\n');
    }
    whole
}

/// The crates of such a text, each with its mark, if it has one, and with those that stand behind it.
fn listed(whole: &str) -> Crates {
    let names = |others: &str| others.split_whitespace().map(String::from).collect();
    let lines = whole.lines().filter(|line| !line.starts_with('#'));
    let crates = lines.filter_map(|line| line.split_once(':'));
    crates
        .map(|(name, others)| (name.to_string(), names(others)))
        .collect()
}

/// Takes the marks from the names of crates, and gives those that had one.
fn without_marks(crates: &mut Crates) -> Names {
    let of = |name: &String| name.strip_suffix(MARK).map(String::from);
    let marked: Names = crates.keys().filter_map(of).collect();
    for name in &marked {
        let others = crates.remove(&format!("{}{}", name, MARK));
        crates.insert(name.clone(), others.unwrap_or_default());
    }
    marked
}

/// What is wrong with such a text, by what each crate names and which export to C.
pub fn faults_in(whole: &str, named: &Crates, exporting: &Names) -> Vec<String> {
    let right = listing(named, exporting);
    let (mut found, mut wanted) = (listed(whole), listed(&right));
    let mut faults = Vec::new();
    let (marked, to_be) = (without_marks(&mut found), without_marks(&mut wanted));
    let is_none = |name| {
        format!(
            "{} is listed as a static library, and exports nothing",
            name
        )
    };
    let is_one = |name| format!("{} exports, and is not listed as a static library", name);
    faults.extend(marked.difference(&to_be).map(is_none));
    faults.extend(to_be.difference(&marked).map(is_one));
    for name in found
        .keys()
        .chain(wanted.keys())
        .collect::<BTreeSet<&String>>()
    {
        match (found.get(name), wanted.get(name)) {
            (Some(has), Some(needs)) => {
                let spare = |other| format!("{} names {} and does not need it", name, other);
                let missing = |other| format!("{} needs {}", name, other);
                faults.extend(has.difference(needs).map(spare));
                faults.extend(needs.difference(has).map(missing));
            }
            (Some(_), None) => {
                faults.push(format!("{} is listed, and there is no such crate", name))
            }
            _ => faults.push(format!("{} is not listed", name)),
        }
    }
    if faults.is_empty() && whole != right {
        let same = whole
            .lines()
            .zip(right.lines())
            .take_while(|(one, two)| one == two)
            .count();
        faults.push(format!(
            "line {} is not what 'make crates' writes",
            same + 1
        ));
    }
    faults
}
