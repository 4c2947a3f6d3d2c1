// The declarations of specifications and proofs, and where the names in them come from.

use std::collections::BTreeMap;

use crate::code::evened;

/// What is declared under one name: its type and its equations, or a record or data type with all
/// that stands inside. Comments are left out.
pub struct Declaration {
    pub name: String,
    /// Its first line, counted from 1.
    pub line: usize,
    pub text: String,
}

/// A line without its comment.
pub fn without_comment(line: &str) -> &str {
    let starts = |i: &usize| *i == 0 || line[..*i].ends_with(' ');
    let comment = line.match_indices("--").map(|(i, _)| i).find(starts);
    line[..comment.unwrap_or(line.len())].trim_end()
}

/// The name that a line declares: `pub NAME : ..`, `record NAME ..`.
pub fn declared_name(line: &str) -> Option<String> {
    let mut rest = line.trim_start();
    let mut record = false;
    loop {
        let (word, after) = rest.split_once(' ')?;
        match word {
            "pub" | "unfoldable" | "abbrev" | "ruleset" => rest = after,
            "record" | "data" => {
                record = true;
                rest = after;
            }
            _ => {
                let declares = after.starts_with(": ") || after.starts_with("= ");
                return (record || declares).then(|| word.to_string());
            }
        }
    }
}

/// Whether a text begins a record or a data type.
pub fn begins_type(text: &str) -> bool {
    let is_type = |word| word == "record" || word == "data";
    text.split(' ')
        .take_while(|&word| word != ":" && word != "=")
        .any(is_type)
}

/// The declarations of a source, in order.
pub fn declarations(source: &str) -> Vec<Declaration> {
    let mut found: Vec<Declaration> = Vec::new();
    let mut in_use = false;
    for (i, line) in source.lines().enumerate() {
        let line = without_comment(line);
        let indented = line.starts_with(' ');
        if line.is_empty() || line.starts_with("pub mod ") {
            continue;
        }
        if line.starts_with("use ") || in_use {
            in_use = line.contains('{') && !line.contains('}') || in_use && !line.contains('}');
            continue;
        }
        let name = declared_name(line).filter(|_| !indented);
        match (name, found.last_mut()) {
            (Some(name), Some(last)) if last.name == name => push(last, line),
            (Some(name), _) => found.push(Declaration {
                name,
                line: i + 1,
                text: line.to_string(),
            }),
            (None, Some(last)) => push(last, line),
            (None, None) => {}
        }
    }
    found
}

fn push(declaration: &mut Declaration, line: &str) {
    declaration.text.push('\n');
    declaration.text.push_str(line);
}

impl Declaration {
    /// The fields of a record, or the constructors of a data type.
    pub fn members(&self) -> Vec<String> {
        if !begins_type(&self.text) {
            return Vec::new();
        }
        let inside = || self.text.lines().skip(1);
        let indent = |line: &str| line.len() - line.trim_start().len();
        let least = inside().map(indent).min().unwrap_or(0);
        inside()
            .filter(|line| indent(line) == least)
            .filter_map(declared_name)
            .collect()
    }

    /// The type, if this is one declared name with a type.
    pub fn declared_type(&self) -> String {
        let head = self.text.split("\n").take_while(|line| {
            let first = line.split(' ').next().unwrap_or("");
            first != self.name && first != "unfolding"
        });
        let head = evened(&head.collect::<Vec<&str>>().join(" "));
        head.split_once(" : ")
            .map_or(String::new(), |(_, text)| text.to_string())
    }
}

/// The words of a text that can be names.
pub fn words(text: &str) -> impl Iterator<Item = &str> {
    text.split(|c: char| c.is_whitespace() || "(){}[];,.:".contains(c))
        .filter(|w| !w.is_empty())
}

/// Where the names of a source come from, by its `use` lines: a name with its module. An operator
/// such as `◌≡◌` is known by what stands between the gaps.
pub fn imports(source: &str) -> BTreeMap<String, String> {
    let mut found = BTreeMap::new();
    let mut lines = source.lines();
    while let Some(line) = lines.next() {
        let line = line.strip_prefix("ghost ").unwrap_or(line);
        let path = match line.strip_prefix("use ") {
            Some(path) => path,
            None => continue,
        };
        let mut whole = path.to_string();
        while whole.contains('{') && !whole.contains('}') {
            whole.push_str(lines.next().unwrap_or("}"));
        }
        let whole = whole.trim_end().trim_end_matches(';');
        if let Some((module, names)) = whole.split_once(".{") {
            for name in names.trim_end_matches('}').split(',').map(str::trim) {
                found.insert(name.trim_matches('◌').to_string(), module.to_string());
            }
        } else if let Some((module, name)) = whole.split_once(" as ") {
            found.insert(name.trim().to_string(), module.to_string());
        }
    }
    found
}
