// What is pinned: the exported contracts, the theorems' statements, and all definitions that these
// rest on. A change of any of them fails the gate until the files beside this crate's Cargo.toml
// are renewed, so that nothing is weakened unseen.

use std::collections::{BTreeMap, BTreeSet};
use std::fs;
use std::path::PathBuf;

use crate::antt::{declarations, imports, words, Declaration};
use crate::code::{evened, functions, type_text, Function};
use crate::{crates, entries, root, text};

/// What is pinned under a name.
pub type Pins = BTreeMap<String, String>;

/// One of the files of pins.
pub struct Kind {
    pub file: &'static str,
    head: &'static str,
    pub of: fn(&Sources) -> Pins,
}

pub const CONTRACTS: Kind = Kind {
    file: "contracts.txt",
    head: "# The exported routines, and the one that makes the program's text: crate, name, signature, contract, and the modules of the names in it.",
    of: contracts,
};

pub const THEOREMS: Kind = Kind {
    file: "theorems.txt",
    head: "# The theorem files: file, name, and a hash of each declaration.",
    of: theorems,
};

pub const DEFINITIONS: Kind = Kind {
    file: "definitions.txt",
    head: "# What contracts and theorems rest on: file, name, and a hash of each definition.",
    of: definitions,
};

const HOW: &str = "# Written by 'make pins'. Look at each line that changes: it is a promise.";

impl Kind {
    pub fn path(&self) -> PathBuf {
        root().join("tests/documents").join(self.file)
    }

    /// The pins as the file has them.
    pub fn pinned(&self) -> Pins {
        let mut found: Pins = Pins::new();
        let mut last = String::new();
        for line in text(&self.path())
            .lines()
            .filter(|line| !line.starts_with('#'))
        {
            if let Some(more) = line.strip_prefix("    ") {
                let whole = found.entry(last.clone()).or_default();
                if !whole.is_empty() {
                    whole.push('\n');
                }
                whole.push_str(more);
            } else if let Some((name, hash)) = line.rsplit_once(": ") {
                found.insert(name.to_string(), hash.to_string());
            } else if !line.is_empty() {
                last = line.to_string();
            }
        }
        found
    }

    /// Writes the pins of the present sources.
    pub fn renew(&self, sources: &Sources) -> std::io::Result<()> {
        let mut whole = format!("{}\n{}\n", self.head, HOW);
        for (name, value) in (self.of)(sources) {
            if value.contains(' ') {
                whole.push_str(&format!(
                    "\n{}\n    {}\n",
                    name,
                    value.replace('\n', "\n    ")
                ));
            } else {
                whole.push_str(&format!("{}: {}\n", name, value));
            }
        }
        fs::write(self.path(), whole)
    }

    /// How the sources differ from the pins.
    pub fn differences(&self, sources: &Sources) -> Vec<String> {
        let (pinned, found) = (self.pinned(), (self.of)(sources));
        let names: BTreeSet<&String> = pinned.keys().chain(found.keys()).collect();
        names
            .into_iter()
            .filter_map(|name| {
                let what = match (pinned.get(name), found.get(name)) {
                    (Some(one), Some(two)) if one == two => return None,
                    (Some(_), Some(_)) => "changed",
                    (Some(_), None) => "is gone",
                    _ => "is new",
                };
                Some(format!(
                    "{} {}: look at it, then renew {} by 'make pins'",
                    name, what, self.file
                ))
            })
            .collect()
    }
}

/// The texts of code and specifications, by their paths below crates/.
#[derive(Clone)]
pub struct Sources(BTreeMap<String, String>);

impl Sources {
    pub fn load() -> Sources {
        let mut found = BTreeMap::new();
        for name in crates() {
            // Worked runs stand beside their computations.
            let folders = match name.as_str() {
                "run_examples" => vec!["src", "proofs"],
                _ => vec!["src", "specs"],
            };
            for folder in folders {
                for path in entries(&root().join("crates").join(&name).join(folder)) {
                    let file = path
                        .file_name()
                        .expect("a name")
                        .to_string_lossy()
                        .into_owned();
                    if file.ends_with(".rt") || file.ends_with(".antt") {
                        found.insert(format!("{}/{}/{}", name, folder, file), text(&path));
                    }
                }
            }
        }
        Sources(found)
    }

    pub fn get(&self, path: &str) -> &str {
        self.0.get(path).map_or("", String::as_str)
    }

    /// The same, with one text in place of another.
    pub fn with(&self, path: &str, text: String) -> Sources {
        let mut changed = self.clone();
        changed.0.insert(path.to_string(), text);
        changed
    }

    /// The paths of all code.
    pub fn code(&self) -> impl Iterator<Item = &String> {
        self.0.keys().filter(|path| path.ends_with(".rt"))
    }

    /// The files whose declarations are theorems, with all that these are put together from.
    pub fn theorem_files(&self) -> Vec<&String> {
        let is = |path: &&String| {
            path.ends_with("/specs/Theorem.antt")
                || *path == "bench/specs/Sheet.antt"
                || *path == "file_encoding/specs/Examples.antt"
                || *path == "judge_cases/specs/Examples.antt"
                || *path == "judge_rows/specs/Examples.antt"
                || *path == "run_examples/proofs/Examples.antt"
        };
        self.0.keys().filter(is).collect()
    }
}

/// The library that an exporting crate is the C side of: that of NAME_c is NAME.
pub fn library_of(name: &str) -> &str {
    name.strip_suffix("_c").unwrap_or(name)
}

/// The exported routines, each with the file it stands in.
pub fn exported(sources: &Sources) -> Vec<(String, Function)> {
    let mut found = Vec::new();
    for path in sources.code() {
        let all = functions(sources.get(path)).into_iter();
        found.extend(all.filter(|f| f.exported).map(|f| (path.clone(), f)));
    }
    found
}

/// Those whose contracts users read: the exported ones, and the one that makes the program's text.
pub fn promised(sources: &Sources) -> Vec<(String, Function)> {
    let mut found = exported(sources);
    let path = "judge/src/main.rt";
    let program = functions(sources.get(path)).into_iter();
    found.extend(
        program
            .filter(|f| f.name == "render")
            .map(|f| (path.to_string(), f)),
    );
    found
}

pub fn crate_of(path: &str) -> &str {
    path.split('/').next().unwrap_or("")
}

/// The used names that a source imports, each with its module.
pub fn modules(source: &str, text: &str) -> BTreeSet<String> {
    let known = imports(source);
    words(text)
        .filter_map(|word| known.get(word).map(|module| format!("{}.{}", module, word)))
        .collect()
}

pub fn contracts(sources: &Sources) -> Pins {
    let mut found = Pins::new();
    for (path, function) in promised(sources) {
        let mut lines = vec![function.signature.clone()];
        let mut whole = String::new();
        for (kind, text) in &function.clauses {
            lines.push(format!("{} {{ {} }}", kind, text));
            whole.push_str(text);
        }
        lines.extend(
            modules(sources.get(&path), &whole)
                .iter()
                .map(|m| format!("with {}", m)),
        );
        found.insert(
            format!("{} {}", crate_of(&path), function.name),
            lines.join("\n"),
        );
    }
    found
}

pub fn theorems(sources: &Sources) -> Pins {
    let mut found = Pins::new();
    for path in sources.theorem_files() {
        let source = sources.get(path);
        for declaration in declarations(source) {
            let name = format!("{} {}", path, declaration.name);
            found.insert(name, hash_of(source, &declaration.text));
        }
    }
    found
}

/// A hash of a declaration and of the modules that its names come from.
fn hash_of(source: &str, text: &str) -> String {
    let modules: Vec<String> = modules(source, text).into_iter().collect();
    format!(
        "{:016x}",
        fnv1a(&format!("{} | {}", evened(text), modules.join(" ")))
    )
}

/// The 64-bit hash FNV-1a.
pub fn fnv1a(text: &str) -> u64 {
    text.bytes().fold(0xCBF2_9CE4_8422_2325, |hash, byte| {
        (hash ^ u64::from(byte)).wrapping_mul(0x100_0000_01B3)
    })
}

/// The definitions that contracts and theorems rest on, however far: a name is followed to where
/// it is declared, in the same file or by way of an import.
pub fn definitions(sources: &Sources) -> Pins {
    let parsed: BTreeMap<&str, Parsed> = sources
        .0
        .iter()
        .map(|(path, text)| (path.as_str(), Parsed::new(path, text)))
        .collect();
    let mut found = Pins::new();
    let mut todo = Vec::new();
    for (path, function) in promised(sources) {
        for (_, text) in &function.clauses {
            todo.extend(words(text).filter_map(|word| parsed[path.as_str()].imported(word)));
        }
    }
    let theorem_files = sources.theorem_files();
    for path in &theorem_files {
        let all = &parsed[path.as_str()].declarations;
        todo.extend(all.iter().map(|d| (path.to_string(), d.name.clone())));
    }
    let mut seen = BTreeSet::new();
    while let Some((path, name)) = todo.pop() {
        let source = match parsed.get(path.as_str()) {
            Some(source) => source,
            None => continue,
        };
        let (name, text) = match source.declared(&name) {
            Some(declared) => declared,
            None => panic!("{}: {} is not declared there", path, name),
        };
        if !seen.insert((path.clone(), name.clone())) {
            continue;
        }
        if !theorem_files.iter().any(|file| **file == path) {
            found.insert(format!("{} {}", path, name), hash_of(source.text, &text));
        }
        for word in words(&text) {
            if source.declared(word).is_some() {
                todo.push((path.clone(), word.to_string()));
            } else {
                todo.extend(source.imported(word));
            }
        }
    }
    found
}

/// A source with what it declares and imports.
struct Parsed<'a> {
    text: &'a str,
    is_code: bool,
    declarations: Vec<Declaration>,
    /// Each name, of a member too, with the index of its declaration.
    names: BTreeMap<String, usize>,
    imports: BTreeMap<String, String>,
}

impl<'a> Parsed<'a> {
    fn new(path: &str, text: &'a str) -> Parsed<'a> {
        let is_code = path.ends_with(".rt");
        let declarations = if is_code {
            Vec::new()
        } else {
            declarations(text)
        };
        let mut names = BTreeMap::new();
        for (i, declaration) in declarations.iter().enumerate() {
            for member in declaration.members() {
                names.entry(member).or_insert(i);
            }
        }
        for (i, declaration) in declarations.iter().enumerate() {
            names.insert(declaration.name.clone(), i);
        }
        let mut imports = imports(text);
        for line in text.lines().filter(|_| is_code) {
            let path = line
                .strip_prefix("use ")
                .and_then(|line| line.strip_suffix(';'));
            let (module, names) = match path.and_then(|path| path.split_once("::")) {
                // What std declares has no module of declarations here.
                Some((module, names)) if module != "std" => (module, names),
                _ => continue,
            };
            let names = names.trim_start_matches('{').trim_end_matches('}');
            for name in names.split(',').map(str::trim) {
                let module = format!("Rattle.{}.specs.declared.{}", module, name);
                imports.insert(name.to_string(), module);
            }
        }
        Parsed {
            text,
            is_code,
            declarations,
            names,
            imports,
        }
    }

    /// What declares a name in this source, and its text.
    fn declared(&self, name: &str) -> Option<(String, String)> {
        if self.is_code {
            return type_text(self.text, name).map(|text| (name.to_string(), text));
        }
        let declaration = &self.declarations[*self.names.get(name)?];
        Some((declaration.name.clone(), declaration.text.clone()))
    }

    /// Where an imported name of the project is declared: the file, and the name there. A type of
    /// the code, and its variants, are declared in the code.
    fn imported(&self, name: &str) -> Option<(String, String)> {
        let (owner, rest) = self
            .imports
            .get(name)?
            .strip_prefix("Rattle.")?
            .split_once('.')?;
        if let Some(rest) = rest.strip_prefix("specs.declared.") {
            let declared = rest.split('.').next()?;
            return Some((format!("{}/src/lib.rt", owner), declared.to_string()));
        }
        Some((
            format!("{}/{}.antt", owner, rest.replace('.', "/")),
            name.to_string(),
        ))
    }
}
