// The functions and types of the proved code: signatures, contracts and bodies, without comments.

/// A function, each part with its blank space made even.
pub struct Function {
    pub name: String,
    /// Called from C: `pub extern "C" fn` under `#[unsafe(no_mangle)]`.
    pub exported: bool,
    pub signature: String,
    /// Names and types.
    pub parameters: Vec<(String, String)>,
    /// `requires` and `ensures`, with its own name where it has one, each with its text.
    pub clauses: Vec<(String, String)>,
    pub body: String,
}

impl Function {
    pub fn clauses_of(&self, kind: &str) -> Vec<&str> {
        self.clauses
            .iter()
            .filter(|(k, _)| k.split(' ').next() == Some(kind))
            .map(|(_, text)| text.as_str())
            .collect()
    }
}

/// A text with every stretch of blank space made one blank.
pub fn evened(text: &str) -> String {
    text.split_whitespace().collect::<Vec<&str>>().join(" ")
}

/// Code without its comments; what stands between quotes stays.
pub fn without_comments(source: &str) -> String {
    let mut found = String::new();
    for line in source.lines() {
        let mut quoted = false;
        let mut end = line.len();
        for (i, c) in line.char_indices() {
            quoted ^= c == '"';
            if !quoted && line[i..].starts_with("//") {
                end = i;
                break;
            }
        }
        found.push_str(&line[..end]);
        found.push('\n');
    }
    found
}

pub fn is_part_of_name(c: char) -> bool {
    c.is_alphanumeric() || c == '_'
}

/// Where the bracket `<` at `from` is closed; the arrow of a function's type closes none.
fn closing_angle(text: &str, from: usize) -> usize {
    let mut depth = 0;
    let mut before = ' ';
    for (i, c) in text[from..].char_indices() {
        depth += i32::from(c == '<') - i32::from(c == '>' && before != '-');
        if depth == 0 {
            return from + i;
        }
        before = c;
    }
    panic!("no end of the parameters of types at {from}");
}

/// Where the bracket that opens at `from` is closed.
fn closing(text: &str, from: usize) -> usize {
    let mut depth = 0;
    let mut quoted = false;
    for (i, c) in text[from..].char_indices() {
        quoted ^= c == '"';
        if quoted {
            continue;
        }
        depth += i32::from("({[".contains(c)) - i32::from(")}]".contains(c));
        if depth == 0 {
            return from + i;
        }
    }
    panic!(
        "no end of what begins at {}",
        &text[from..].chars().take(60).collect::<String>()
    );
}

/// The parts between the commas that stand in no bracket.
fn parts(text: &str) -> Vec<String> {
    let mut found = vec![String::new()];
    let mut depth = 0;
    for c in text.chars() {
        depth += i32::from("({[".contains(c)) - i32::from(")}]".contains(c));
        if c == ',' && depth == 0 {
            found.push(String::new());
        } else {
            found.last_mut().expect("a part").push(c);
        }
    }
    found
        .iter()
        .map(|part| evened(part))
        .filter(|part| !part.is_empty())
        .collect()
}

/// Where a word stands by itself.
fn places(text: &str, word: &str) -> Vec<usize> {
    text.match_indices(word)
        .map(|(i, _)| i)
        .filter(|&i| {
            let before = text[..i].chars().next_back();
            let after = text[i + word.len()..].chars().next();
            !before.map_or(false, is_part_of_name) && !after.map_or(false, is_part_of_name)
        })
        .collect()
}

/// The functions of a source, in order.
pub fn functions(source: &str) -> Vec<Function> {
    let text = without_comments(source);
    places(&text, "fn")
        .into_iter()
        .filter_map(|at| function(&text, at))
        .collect()
}

fn function(text: &str, at: usize) -> Option<Function> {
    let name_end = at + 2 + text[at + 2..].find(|c| "(<".contains(c))?;
    let name = text[at + 2..name_end].trim().to_string();
    if name.is_empty() || !name.chars().all(is_part_of_name) {
        return None;
    }
    let types_end = if text[name_end..].starts_with('<') {
        closing_angle(text, name_end) + 1
    } else {
        name_end
    };
    let types = &text[name_end..types_end];
    let open = types_end + text[types_end..].find('(')?;
    let line = text[..at].rfind('\n').map_or(0, |i| i + 1);
    let kind = evened(&text[line..at + 2]);
    let marked = text[..line].trim_end().ends_with("#[unsafe(no_mangle)]");
    let close = closing(text, open);
    let parameters = parts(&text[open + 1..close]);
    let mut result = None;
    let mut clauses = Vec::new();
    let mut from = close + 1;
    loop {
        let brace = from + text[from..].find('{')?;
        let end = closing(text, brace);
        let mut head: Vec<&str> = text[from..brace].split_whitespace().collect();
        let begins_clause = |word: &&str| *word == "requires" || *word == "ensures";
        // Behind the word there can be the clause's own name.
        let start = head.len().saturating_sub(2);
        let clause = head[start..].iter().position(begins_clause);
        let clause = clause.map(|i| head.split_off(start + i).join(" "));
        if result.is_none() {
            result = Some(head.join(" "));
        }
        let inner = &text[brace + 1..end];
        match clause {
            Some(words) => clauses.push((words, evened(inner))),
            None => {
                let exported = marked && kind == "pub extern \"C\" fn";
                let signature = format!("{} {}{}({})", kind, name, types, parameters.join(", "));
                return Some(Function {
                    name,
                    exported,
                    signature: evened(&format!("{} {}", signature, result.unwrap_or_default())),
                    parameters: parameters
                        .iter()
                        .filter_map(|part| part.split_once(": "))
                        .map(|(name, kind)| (name.to_string(), kind.to_string()))
                        .collect(),
                    clauses,
                    body: evened(inner),
                });
            }
        }
        from = end + 1;
    }
}

/// The declaration of a struct or an enum, from its kind to its end.
pub fn type_text(source: &str, name: &str) -> Option<String> {
    let text = without_comments(source);
    places(&text, name).into_iter().find_map(|at| {
        let before = text[..at].trim_end();
        let kind = ["struct", "enum"]
            .into_iter()
            .find(|kind| before.ends_with(kind))?;
        let open = at + text[at..].find(|c| "{(;".contains(c))?;
        let end = if text[open..].starts_with(';') {
            open
        } else {
            closing(&text, open)
        };
        Some(evened(&format!("{} {}", kind, &text[at..=end])))
    })
}

/// The calls of a text: whom, and with which arguments. A path counts by its last name.
pub fn calls(text: &str) -> Vec<(String, Vec<String>)> {
    let mut found = Vec::new();
    for (open, _) in text.match_indices('(') {
        let start = text[..open].rfind(|c| !is_part_of_name(c)).map_or(0, |i| {
            i + text[i..].chars().next().map_or(1, char::len_utf8)
        });
        if start < open {
            let arguments = parts(&text[open + 1..closing(text, open)]);
            found.push((text[start..open].to_string(), arguments));
        }
    }
    found
}

/// How often a name stands in a text.
pub fn uses(text: &str, name: &str) -> usize {
    places(text, name).len()
}
