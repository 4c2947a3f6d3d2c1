use std::collections::BTreeMap;

use super::*;
use crate::antt::declarations as antt_declarations;
use crate::code::{calls, functions, uses, without_comments, Function};
use crate::listing::{exporting, faults_in, listing, named, named_in, Crates, Names};
use crate::pins::{
    crate_of, exported, library_of, modules, promised, Sources, CONTRACTS, DEFINITIONS, THEOREMS,
};

const DOCUMENTS: [&str; 7] = [
    "README.md",
    "docs/ARCHITECTURE.md",
    "docs/PROMISES.md",
    "docs/WHOLE-RUNS.md",
    "docs/DECISIONS.md",
    "docs/PROVING.md",
    "docs/LANDINGS.md",
];

/// The documents that are there, each with its text.
fn documents() -> impl Iterator<Item = (&'static str, String)> {
    let there = |document: &&str| root().join(document).exists();
    DOCUMENTS
        .into_iter()
        .filter(there)
        .map(|document| (document, text(&root().join(document))))
}

fn none(faults: Vec<String>) {
    assert!(faults.is_empty(), "{}", faults.join("\n"));
}

/// An edit that no longer fits its crate would be found only after all crates are proved.
#[test]
fn edits_fit() {
    let mut faults = Vec::new();
    for (name, edit) in edits() {
        if let Some(fault) = fault_of(&name, &edit) {
            faults.push(format!("{}/must-fail/{}.edit: {}", name, edit, fault));
        }
    }
    none(faults);
}

#[test]
fn references_lead_somewhere() {
    let mut faults = Vec::new();
    for (document, whole) in documents() {
        for reference in references(&whole) {
            let path = target(&reference.path);
            let folder = reference.path.ends_with("/must-fail");
            if !path.exists() && !path.with_extension("antt").exists() {
                faults.push(format!("{}: there is no {}", document, reference.path));
                continue;
            }
            for name in &reference.names {
                let there = if folder {
                    path.join(format!("{}.edit", name)).exists()
                } else {
                    has(&path, name)
                };
                if !there {
                    faults.push(format!("{}: {} has no {}", document, reference.path, name));
                } else if let Some(line) = reference.line {
                    let right = definitions(&path)[name];
                    if line != right {
                        faults.push(format!("{}: {} is in line {}", document, name, right));
                    }
                }
            }
        }
    }
    none(faults);
}

#[test]
fn every_edit_is_named() {
    let mut named = BTreeSet::new();
    for reference in references(&text(&root().join("docs/PROMISES.md"))) {
        if let Some(name) = reference.path.strip_suffix("/must-fail") {
            named.extend(
                reference
                    .names
                    .iter()
                    .map(|edit| (name.to_string(), edit.clone())),
            );
        }
    }
    none(
        edits()
            .difference(&named)
            .map(|(name, edit)| format!("{}/{}", name, edit))
            .collect(),
    );
}

/// A member is looked for in its own record, and not in the rest of the file.
#[test]
fn members_belong_to_their_own() {
    let specs = "pub record One : Type 0 where\n  pub first : ℕ → ℕ\n      → second : ℕ\n\n\
                 pub data Two : Type 0 where\n  third : Two\n\nfourth : ℕ\nfourth = 4\n";
    for (outer, member, there) in [
        ("One", "first", true),
        ("One", "second", false),
        ("One", "third", false),
        ("Two", "third", true),
        ("Two", "first", false),
        ("fourth", "first", false),
        ("Five", "first", false),
    ] {
        assert_eq!(
            has_member(specs, true, outer, member),
            there,
            "{}.{}",
            outer,
            member
        );
    }
    let code =
        "struct One {\n    first: u8, // third\n}\n\nenum Two {\n    Third { fourth: u8 },\n}\n";
    for (outer, member, there) in [
        ("One", "first", true),
        ("One", "third", false),
        ("One", "Third", false),
        ("Two", "Third", true),
        ("Two", "first", false),
    ] {
        assert_eq!(
            has_member(code, false, outer, member),
            there,
            "{}.{}",
            outer,
            member
        );
    }
}

/// The rows of docs/PROMISES.md whose first cell begins so.
fn rows<'a>(promises: &'a str, start: &'a str) -> impl Iterator<Item = &'a str> {
    promises.lines().filter(move |line| line.starts_with(start))
}

/// The edits that a row names, as (crate, name).
fn edits_of(row: &str) -> Vec<(String, String)> {
    let mut found = Vec::new();
    for reference in references(row) {
        if let Some(name) = reference.path.strip_suffix("/must-fail") {
            found.extend(
                reference
                    .names
                    .iter()
                    .map(|edit| (name.to_string(), edit.clone())),
            );
        }
    }
    found
}

/// Each exported routine's library has a row of its name with two or more edits of that library: what its
/// own contract refuses, whatever the crates below promise. Each theorem file has rows with an edit.
#[test]
fn exported_routines_have_two_edits() {
    let promises = text(&root().join("docs/PROMISES.md"));
    let sources = Sources::load();
    let mut faults = Vec::new();
    for (path, function) in exported(&sources) {
        let own = library_of(crate_of(&path));
        let start = format!("| `{}: {}` |", library_path(&path), function.name);
        let named: BTreeSet<(String, String)> =
            rows(&promises, &start).flat_map(edits_of).collect();
        let count = named.iter().filter(|(name, _)| name == own).count();
        if count < 2 {
            faults.push(format!("{}: {} edits of {}", function.name, count, own));
        }
    }
    for path in sources.theorem_files() {
        let start = format!("| `{}: ", path);
        if rows(&promises, &start).flat_map(edits_of).count() == 0 {
            faults.push(format!("{}: no edit", path));
        }
    }
    none(faults);
}

/// The code of the library that an exporting crate's is the C side of.
fn library_path(path: &str) -> String {
    let name = crate_of(path);
    path.replacen(name, library_of(name), 1)
}

/// What is against it that the exported routines are those of the libraries under C's calling convention: one
/// that has another signature or contract, or does more than call that one, or is not there.
fn exported_otherwise(sources: &Sources) -> Vec<String> {
    let mut faults = Vec::new();
    let mut told = BTreeSet::new();
    for (path, function) in exported(sources) {
        let library = library_path(&path);
        let of = format!("{}: {}", path, function.name);
        if library == path {
            faults.push(format!("{} is the C side of no library", path));
        }
        let source = sources.get(&library);
        let mut same = functions(source)
            .into_iter()
            .filter(|f| f.name == function.name);
        let routine = match (same.next(), same.next()) {
            (Some(routine), None) => routine,
            _ => {
                faults.push(format!("{} has no routine of {} to itself", of, library));
                continue;
            }
        };
        told.insert((library.clone(), function.name.clone()));
        let signature = function
            .signature
            .replacen("pub extern \"C\" fn", "pub fn", 1);
        if signature != routine.signature {
            faults.push(format!("{} has another signature than its library's", of));
        }
        let names = |path: &str, f: &Function| {
            let clauses: Vec<&str> = f.clauses.iter().map(|(_, text)| text.as_str()).collect();
            modules(sources.get(path), &clauses.join(" "))
        };
        if function.clauses != routine.clauses
            || names(&path, &function) != names(&library, &routine)
        {
            faults.push(format!("{} has another contract than its library's", of));
        }
        let given: Vec<&str> = function
            .parameters
            .iter()
            .map(|(name, _)| name.as_str())
            .collect();
        let call = format!(
            "{}::{}({})",
            library_of(crate_of(&path)),
            function.name,
            given.join(", ")
        );
        if function.body != call {
            faults.push(format!("{} does more or less than call its library's", of));
        }
    }
    let libraries: BTreeSet<String> = told.iter().map(|(path, _)| path.clone()).collect();
    for path in libraries {
        for name in public_in(sources.get(&path)) {
            if !told.contains(&(path.clone(), name.clone())) {
                faults.push(format!("{}: {} is not exported", path, name));
            }
        }
    }
    faults
}

#[test]
fn exported_routines_are_those_of_the_libraries() {
    none(exported_otherwise(&Sources::load()));
}

/// Each of these would have C's routine say or do something else than the library's.
#[test]
fn another_routine_for_c_is_noticed() {
    let sources = Sources::load();
    for (path, old, new) in [
        (
            "workbench/src/lib.rt",
            "ensures { result ≡ coded (read_answer file.now) }",
            "ensures { result ≡ result }",
        ),
        (
            "workbench_c/src/lib.rt",
            "ensures { result ≡ coded (cyclic_answer file.now) }",
            "ensures { result ≡ coded (read_answer file.now) }",
        ),
        (
            "workbench_c/src/lib.rt",
            "Rattle.model.specs.Answer.{coded}",
            "Rattle.model.specs.Elsewhere.{coded}",
        ),
        (
            "workbench_c/src/lib.rt",
            "pelzhondy_verdict(file: &[u8], test: u64)",
            "pelzhondy_verdict(file: &[u8], test: u32)",
        ),
        (
            "workbench_c/src/lib.rt",
            "workbench::pelzhondy_trace(initial, main, buffer)",
            "workbench::pelzhondy_trace(main, initial, buffer)",
        ),
        (
            "workbench_c/src/lib.rt",
            "workbench::pelzhondy_read(file)",
            "file_calls::read_counts(file)",
        ),
        (
            "workbench_c/src/lib.rt",
            "workbench::pelzhondy_judge(file, test)",
            "workbench::pelzhondy_verdict(file, test)",
        ),
        (
            "receiver_c/src/lib.rt",
            "receiver::pelzhondy_step(state, disk)",
            "receiver::pelzhondy_step(state, disk);\n    0",
        ),
        (
            "receiver_c/src/lib.rt",
            "#[unsafe(no_mangle)]\npub extern \"C\" fn pelzhondy_get",
            "pub fn pelzhondy_get",
        ),
        (
            "receiver/src/lib.rt",
            "pub fn pelzhondy_get",
            "pub fn pelzhondy_get_too",
        ),
    ] {
        let changed = edited(&sources, path, old, new);
        assert_ne!(exported_otherwise(&changed), [""; 0], "{} for {}", new, old);
    }
}

#[test]
fn public_routines_have_a_row() {
    let promises = text(&root().join("docs/PROMISES.md"));
    let mut faults = Vec::new();
    for name in crates() {
        for (path, function) in public_functions(&name) {
            let start = format!("| `{}: {}` |", path, function);
            if rows(&promises, &start).next().is_none() {
                faults.push(format!("{}: {}", path, function));
            }
        }
    }
    none(faults);
}

#[test]
fn every_theorem_is_listed() {
    let promises = text(&root().join("docs/PROMISES.md"));
    let mut faults = Vec::new();
    for name in crates() {
        let path = format!("{}/specs/Theorem.antt", name);
        if target(&path).exists() && !promises.contains(&format!("| `{}: ", path)) {
            faults.push(path);
        }
    }
    none(faults);
}

/// With one of them changed the gate fails until the pins are renewed.
#[test]
fn exported_contracts_are_pinned() {
    let sources = Sources::load();
    let mut faults = CONTRACTS.differences(&sources);
    for (_, function) in exported(&sources) {
        if !function.clauses_of("requires").is_empty() {
            faults.push(format!(
                "{} has a requires: it must refuse instead",
                function.name
            ));
        }
        if function.clauses_of("ensures").is_empty() {
            faults.push(format!("{} has no ensures", function.name));
        }
    }
    none(faults);
}

#[test]
fn theorems_are_pinned() {
    none(THEOREMS.differences(&Sources::load()));
}

/// A contract or a theorem is as strong as what it rests on.
#[test]
fn their_definitions_are_pinned() {
    none(DEFINITIONS.differences(&Sources::load()));
}

/// A contract that says nothing, of each routine in turn.
#[test]
fn a_weaker_contract_is_noticed() {
    const WEAK: &str = "result ≡ result";
    let sources = Sources::load();
    let all = promised(&sources);
    assert_eq!(all.len(), 14);
    for (path, function) in all {
        let ensures = function.clauses_of("ensures")[0].to_string();
        let before = sources.get(&path);
        let at = before
            .find(&format!("fn {}(", function.name))
            .expect("the routine");
        let changed = before[at..].replacen(&ensures, WEAK, 1);
        let name = format!("{} {}", path.split('/').next().unwrap_or(""), function.name);
        let weak = sources.with(&path, format!("{}{}", &before[..at], changed));
        let found = CONTRACTS.differences(&weak);
        let expected = format!("{} changed: ", name);
        assert!(
            found.len() == 1 && found[0].starts_with(&expected),
            "{}: {:?}",
            name,
            found
        );
    }
}

/// The sources with one more word in each of these declarations.
fn with_more(sources: &Sources, names: &[&String]) -> Sources {
    let mut changed = sources.clone();
    for name in names {
        let (path, declared) = name.split_once(' ').expect("a file and a name");
        let declarations = antt_declarations(sources.get(path));
        let declaration = declarations
            .iter()
            .find(|d| d.name == declared)
            .expect(name);
        let mut lines: Vec<String> = changed.get(path).lines().map(String::from).collect();
        lines[declaration.line - 1].push_str(" ⊤");
        changed = changed.with(path, lines.join("\n"));
    }
    changed
}

/// Each theorem with one more word in it, all definitions below with one more, and a name taken
/// from another module.
#[test]
fn another_statement_is_noticed() {
    let sources = Sources::load();
    for name in THEOREMS.pinned().keys() {
        let found = THEOREMS.differences(&with_more(&sources, &[name]));
        let expected = format!("{} changed: ", name);
        assert!(
            found.len() == 1 && found[0].starts_with(&expected),
            "{}: {:?}",
            name,
            found
        );
    }
    let pinned = DEFINITIONS.pinned();
    let names: Vec<&String> = pinned
        .keys()
        .filter(|name| name.contains(".antt "))
        .collect();
    let found = DEFINITIONS.differences(&with_more(&sources, &names));
    let expected = names.iter().map(|name| format!("{} changed: ", name));
    assert_eq!(found.len(), names.len());
    assert!(
        expected
            .zip(&found)
            .all(|(start, line)| line.starts_with(&start)),
        "{:?}",
        found
    );
    let path = "run_laws/specs/Theorem.antt";
    let other = sources
        .get(path)
        .replace("Schedule.{label_at, Valid}", "Elsewhere.{label_at, Valid}");
    let found = THEOREMS.differences(&sources.with(path, other));
    assert!(
        found
            .iter()
            .any(|line| line.starts_with(&format!("{} Safe changed", path))),
        "{:?}",
        found
    );
}

/// Each theorem has a term of that type among the proofs. A theorem is a declaration of type `Type 0` in
/// a theorem file, or of `Type 1` where it is no family of types, or a record of facts there; in the
/// bench sheet these are three records.
#[test]
fn every_theorem_is_proved() {
    // The types that proofs have, each with the module that its name comes from.
    let mut proved = BTreeSet::new();
    for name in crates() {
        for proof in entries(&root().join("crates").join(name).join("proofs")) {
            if is_antt(&proof) {
                let source = text(&proof);
                let imports = antt::imports(&source);
                for declaration in antt_declarations(&source) {
                    let of = declaration.declared_type();
                    let module = imports.get(&of).cloned();
                    proved.insert((module.unwrap_or_default(), of));
                }
            }
        }
    }
    let sources = Sources::load();
    let mut faults = Vec::new();
    for path in sources.theorem_files() {
        let module = format!(
            "Rattle.{}",
            path.trim_end_matches(".antt").replace('/', ".")
        );
        for declaration in antt_declarations(sources.get(path)) {
            let is_theorem = match declaration.declared_type().as_str() {
                "Type 0" => true,
                "Type 1" => !declaration.text.trim_end().ends_with("Type 0"),
                "Type 0 where" => declaration.text.starts_with("pub record "),
                _ => false,
            };
            let listed = !path.ends_with("/Sheet.antt")
                || ["Sheet", "Unstarred", "Requested"].contains(&declaration.name.as_str());
            if is_theorem && listed && !proved.contains(&(module.clone(), declaration.name.clone()))
            {
                faults.push(format!(
                    "{}: no proof has the type {}",
                    path, declaration.name
                ));
            }
        }
    }
    none(faults);
}

/// Who is lent a disk to write to, and to whom it passes it on. Nobody else writes to it.
const DISK_PASSED_ON: [(&str, &str, &[&str]); 8] = [
    ("receiver_c", "pelzhondy_step", &["pelzhondy_step"]),
    ("receiver_c", "pelzhondy_drain", &["pelzhondy_drain"]),
    ("receiver", "pelzhondy_step", &["look", "step_sound"]),
    ("receiver", "pelzhondy_drain", &["look", "drain_sound"]),
    ("cache_stores", "store_block", &["put_word"]),
    ("cache_steps", "store_write", &["store_block"]),
    ("cache_steps", "step_sound", &["store_write"]),
    ("cache_steps", "drain_sound", &["step_sound"]),
];

/// Who calls what leads to a store.
const CALLERS: [(&str, &[(&str, &str)]); 6] = [
    ("store_block", &[("cache_steps", "store_write")]),
    ("store_write", &[("cache_steps", "step_sound")]),
    (
        "step_sound",
        &[
            ("receiver", "pelzhondy_step"),
            ("cache_steps", "drain_sound"),
        ],
    ),
    ("drain_sound", &[("receiver", "pelzhondy_drain")]),
    ("pelzhondy_step", &[("receiver_c", "pelzhondy_step")]),
    ("pelzhondy_drain", &[("receiver_c", "pelzhondy_drain")]),
];

/// What is against it that only a step stores to a disk, and a drain only by steps: a function that
/// has a disk to write to and is not known to, or does more than pass it on, or another caller.
fn stores_elsewhere(sources: &Sources) -> Vec<String> {
    let mut faults = Vec::new();
    let mut lent = BTreeSet::new();
    let mut callers = BTreeSet::new();
    for path in sources.code() {
        let name = path.split('/').next().unwrap_or("");
        let source = sources.get(path);
        let mut calls_made = 0;
        for function in functions(source) {
            let of = format!("{}::{}", name, function.name);
            let made = calls(&function.body);
            for (callee, _) in CALLERS {
                let count = made.iter().filter(|(called, _)| called == callee).count();
                calls_made += count;
                callers.extend((0..count).map(|i| format!("{} calls {} ({})", of, callee, i + 1)));
            }
            let is_disk = |(name, kind): &(String, String)| name == "disk" && kind == "&mut [u8]";
            if function.parameters.iter().any(is_disk) {
                let given = made
                    .iter()
                    .filter(|(_, with)| with.iter().any(|a| a == "disk"));
                let given: Vec<&str> = given.map(|(callee, _)| callee.as_str()).collect();
                // A use that is no argument of its own could be a store.
                if uses(&function.body, "disk") != given.len() {
                    faults.push(format!("{} does more with its disk than pass it on", of));
                }
                lent.insert(format!("{} passes its disk to {:?}", of, given));
            }
        }
        // A call outside of what is taken for a function would not be seen.
        let whole = without_comments(source);
        let named: usize = CALLERS.iter().map(|(callee, _)| uses(&whole, callee)).sum();
        let declared = CALLERS
            .iter()
            .map(|(callee, _)| uses(&whole, &format!("fn {}", callee)));
        if named != calls_made + declared.sum::<usize>() {
            faults.push(format!("{} names one of them other than in a call", path));
        }
    }
    let known = DISK_PASSED_ON
        .iter()
        .map(|(name, function, to)| format!("{}::{} passes its disk to {:?}", name, function, to));
    faults.extend(lent.symmetric_difference(&known.collect()).cloned());
    let known = CALLERS.iter().flat_map(|(callee, by)| {
        by.iter()
            .map(move |(name, function)| format!("{}::{} calls {} (1)", name, function, callee))
    });
    faults.extend(callers.symmetric_difference(&known.collect()).cloned());
    faults
}

/// The sources with another text in place of the first that is so.
fn edited(sources: &Sources, path: &str, old: &str, new: &str) -> Sources {
    let before = sources.get(path);
    assert!(before.contains(old), "{} has no {}", path, old);
    sources.with(path, before.replacen(old, new, 1))
}

/// What the benchmark has copies of.
const COPIED: [(&str, &str); 6] = [
    ("relation", "highest"),
    ("relation", "without"),
    ("judge_schedules", "is_valid"),
    ("judge_schedules", "with_rows"),
    ("judge_schedules", "bring"),
    ("judge_schedules", "complete"),
];

/// Who asks whether a schedule is valid, up to the one who does it once for a test, and how.
const ASKED: [(&str, &str, &str, &str); 3] = [
    (
        "judge_schedules",
        "bring",
        "is_valid",
        "while !is_valid(rows, n, set) { set = with_rows(rows, n, set); }",
    ),
    (
        "judge_schedules",
        "complete",
        "bring",
        "for i in 0..n { rows[i] = bring(rows, n, i); }",
    ),
    (
        "judge_suspects",
        "suspects",
        "complete",
        "judge_schedules::complete(rows, n);",
    ),
];

/// The body of a function, if there is one of that name and no other.
fn body_of(source: &str, name: &str) -> Option<String> {
    let mut named = functions(source)
        .into_iter()
        .filter(|function| function.name == name);
    let found = named.next();
    found
        .filter(|_| named.next().is_none())
        .map(|function| function.body)
}

/// What is against it that the turns counted are those of the code: copies with other words, a
/// question asked in another way, or one more of them.
fn turns_elsewhere(sources: &Sources) -> Vec<String> {
    let mut faults = Vec::new();
    let copies = text(&target("tests/benchmark/src/turns.rs"));
    let code = |name: &str| sources.get(&format!("{}/src/lib.rt", name)).to_string();
    for (name, function) in COPIED {
        let body = body_of(&code(name), function);
        if body.is_none() || body != body_of(&copies, function) {
            faults.push(format!("{}::{} is not what was copied", name, function));
        }
    }
    for (name, function, question, words) in ASKED {
        let body = body_of(&code(name), function).unwrap_or_default();
        if !body.contains(words) || uses(&body, question) != 1 {
            faults.push(format!(
                "{}::{} does not ask {} once, and so",
                name, function, question
            ));
        }
        // Another function could ask as well.
        for path in sources.code() {
            let all = functions(sources.get(path));
            let made: usize = all
                .iter()
                .map(|function| uses(&function.body, question))
                .sum();
            let known = path.split('/').next() == Some(name);
            if made != usize::from(known) {
                faults.push(format!("{} asks {} {} times", path, question, made));
            }
        }
    }
    faults
}

#[test]
fn the_turns_counted_are_those_of_the_code() {
    none(turns_elsewhere(&Sources::load()));
}

/// Each of these would begin other turns than those counted.
#[test]
fn other_turns_are_noticed() {
    let sources = Sources::load();
    for (name, old, new) in [
        ("relation", "63 - mask.leading_zeros()", "0 * mask"),
        ("relation", "mask & !other", "mask & other"),
        (
            "judge_schedules",
            "if row & s != row {",
            "if row & s > row {",
        ),
        (
            "judge_schedules",
            "            return false;",
            "            broken = true;",
        ),
        (
            "judge_schedules",
            "set |= rows[i];",
            "set |= 1 << i;",
        ),
        (
            "judge_schedules",
            "while !is_valid(rows, n, set) {",
            "while !is_valid(rows, n, 0) || !is_valid(rows, n, set) {",
        ),
        (
            "judge_schedules",
            "bring(rows, n, i);",
            "bring(rows, n, 0);",
        ),
        (
            "judge_suspects",
            "judge_schedules::complete(rows, n);",
            "judge_schedules::complete(rows, m);",
        ),
        (
            "judge_suspects",
            "judge_schedules::complete(rows, n);",
            "judge_schedules::complete(rows, n);\n    judge_schedules::complete(rows, n);",
        ),
        (
            "judge_search",
            "let s = *rank % relation::SMALL_SETS;",
            "let s = *rank % relation::SMALL_SETS;\n    judge_schedules::is_valid(rows, n, s);",
        ),
        (
            "judge_counting",
            "{\n    let ",
            "{\n    judge_schedules::is_valid(rows, n, 0);\n    let ",
        ),
        (
            "find_table",
            "{\n    let ",
            "{\n    judge_schedules::complete(rows, n);\n    let ",
        ),
    ] {
        let changed = edited(&sources, &format!("{}/src/lib.rt", name), old, new);
        assert_ne!(turns_elsewhere(&changed), [""; 0], "{} for {}", new, old);
    }
}

/// What is done once for a file, or once for a test of it, or once for a state, and who does it: each of
/// these is done once too, up to the routines that nothing of the kit calls.
const DONE_ONCE: [(&str, &[&str]); 55] = [
    (
        "read",
        &[
            "file_calls::read_counts",
            "file_calls::locate_test",
            "file_calls::cyclic_rules",
            "find_call::find_in",
            "judge_cases::open_file",
            "receiver::open_from",
        ],
    ),
    (
        "file_rules",
        &[
            "file_calls::cyclic_rules",
            "judge_cases::open_file",
            "receiver::open_from",
        ],
    ),
    (
        "is_cyclic",
        &[
            "cache_opening::open_with",
            "cache_soundness::decode",
            "file_calls::cyclic_rules",
            "find_choice::better_of",
            "judge_cases::open_file",
        ],
    ),
    ("open_with", &["receiver::open_from"]),
    ("open_from", &["receiver::pelzhondy_open"]),
    (
        "open_file",
        &["judge_cases::select", "judge_text::judge_lines"],
    ),
    ("select", &["judge_cases::judge", "judge_cases::decide"]),
    (
        "load_test",
        &[
            // The finder loads each test twice: here for its labels.
            "find_candidates::collect",
            "find_table::mark_test",
            "judge_cases::judge_test",
            "judge_cases::decide_test",
        ],
    ),
    (
        "load_checks",
        &[
            "find_table::mark_test",
            "judge_cases::judge_test",
            "judge_cases::decide_test",
        ],
    ),
    (
        "judge_test",
        &["judge_cases::judge", "judge_text::put_case"],
    ),
    // The verdict's preparations, and its search.
    ("complete", &["judge_suspects::suspects"]),
    ("mark", &["judge_suspects::suspects"]),
    ("list_ones", &["judge_suspects::suspects"]),
    ("list_twos", &["judge_suspects::suspects"]),
    ("suspects", &["judge_search::smallest_bad"]),
    ("search_by", &["judge_search::smallest_bad"]),
    ("smallest_bad", &["judge_cases::decide_test"]),
    ("decide_test", &["judge_cases::decide"]),
    ("judge", &["workbench::pelzhondy_judge"]),
    ("decide", &["workbench::pelzhondy_verdict"]),
    ("put_case", &["judge_text::put_cases"]),
    ("put_cases", &["judge_text::judge_lines"]),
    (
        "judge_lines",
        &["judge::render", "workbench::pelzhondy_judge_lines"],
    ),
    ("render", &["judge::judge_input"]),
    ("judge_input", &["judge::main"]),
    ("collect", &["find_call::find_among"]),
    ("mark_test", &["find_table::mark_all"]),
    ("mark_all", &["find_call::choice"]),
    ("choice", &["find_call::find_among"]),
    ("find_among", &["find_call::find_in"]),
    ("find_in", &["find_call::find"]),
    ("find", &["workbench::pelzhondy_find"]),
    ("read_counts", &["workbench::pelzhondy_read"]),
    ("locate_test", &["workbench::pelzhondy_locate"]),
    ("cyclic_rules", &["workbench::pelzhondy_cyclic"]),
    // A state's layout, rules and stored writes, then its writes in columns and their needs.
    ("is_framed", &["cache_soundness::decode"]),
    ("stored_mask", &["cache_soundness::decode"]),
    ("state_rules", &["cache_soundness::decode"]),
    ("fill_columns", &["cache_soundness::needs_hold"]),
    ("prepare", &["cache_soundness::needs_hold"]),
    ("decode", &["cache_handin::hand_fault", "cache_steps::look"]),
    (
        "needs_hold",
        &["cache_handin::hand_fault", "cache_steps::look"],
    ),
    ("hand_fault", &["receiver::pelzhondy_hand_in"]),
    (
        "look",
        &["receiver::pelzhondy_step", "receiver::pelzhondy_drain"],
    ),
    // The libraries' routines, each by its C side.
    ("pelzhondy_read", &["workbench_c::pelzhondy_read"]),
    ("pelzhondy_locate", &["workbench_c::pelzhondy_locate"]),
    ("pelzhondy_cyclic", &["workbench_c::pelzhondy_cyclic"]),
    ("pelzhondy_judge", &["workbench_c::pelzhondy_judge"]),
    ("pelzhondy_verdict", &["workbench_c::pelzhondy_verdict"]),
    (
        "pelzhondy_judge_lines",
        &["workbench_c::pelzhondy_judge_lines"],
    ),
    ("pelzhondy_find", &["workbench_c::pelzhondy_find"]),
    ("pelzhondy_open", &["receiver_c::pelzhondy_open"]),
    ("pelzhondy_hand_in", &["receiver_c::pelzhondy_hand_in"]),
    ("pelzhondy_step", &["receiver_c::pelzhondy_step"]),
    ("pelzhondy_drain", &["receiver_c::pelzhondy_drain"]),
];

/// Those that go from test to test; the others have no loop before the call.
const FROM_TEST_TO_TEST: [&str; 3] = [
    "find_candidates::collect",
    "find_table::mark_all",
    "judge_text::put_cases",
];

/// Who asks for rings among rules that are neither a file's nor a state's: a set of candidates.
const OF_OTHER_RULES: [&str; 1] = ["find_choice::better_of"];

/// Calls of others that have the name of one of these.
const OF_OTHERS: [&str; 3] = ["input.read(", "cache_stores::mark(", "= suspects(held)"];

/// What is against it that a file is scanned, its rules loaded and asked for rings, a test loaded and
/// prepared, and a state decoded once: a caller that is not known to, one that does it twice, or in a
/// loop, or one that is not called once itself, for all that is known.
fn done_again(sources: &Sources) -> Vec<String> {
    let mut faults = Vec::new();
    let mut found = BTreeSet::new();
    let mut outermost: BTreeSet<String> = OF_OTHER_RULES.map(String::from).into();
    for path in sources.code() {
        let name = path.split('/').next().unwrap_or("");
        for function in functions(sources.get(path)) {
            let of = format!("{}::{}", name, function.name);
            if function.exported || function.name == "main" {
                outermost.insert(of.clone());
            }
            let body = OF_OTHERS
                .iter()
                .fold(function.body, |body, other| body.replace(other, ""));
            let made = calls(&body);
            for (what, _) in DONE_ONCE {
                let count = made.iter().filter(|(called, _)| called == what).count();
                found.extend((0..count).map(|i| format!("{} calls {} ({})", of, what, i + 1)));
                let before = body.split(&format!("{}(", what)).next().unwrap_or("");
                let loops = ["while", "loop", "for"].iter();
                let looped = loops.map(|word| uses(before, word)).sum::<usize>() > 0;
                if count > 0 && looped && !FROM_TEST_TO_TEST.contains(&of.as_str()) {
                    faults.push(format!("{} calls {} in a loop, or behind one", of, what));
                }
            }
        }
    }
    let mut known = BTreeSet::new();
    for (what, by) in DONE_ONCE {
        for of in by {
            known.insert(format!("{} calls {} (1)", of, what));
            let asked = |(what, _): &(&str, _)| of.ends_with(&format!("::{}", what));
            if !outermost.contains(*of) && !DONE_ONCE.iter().any(asked) {
                faults.push(format!("who calls {} is not listed", of));
            }
        }
    }
    faults.extend(found.symmetric_difference(&known).cloned());
    faults
}

#[test]
fn files_and_states_are_decoded_once() {
    none(done_again(&Sources::load()));
}

/// Each of these would scan, load or ask once more.
#[test]
fn decoding_again_is_noticed() {
    let sources = Sources::load();
    for (path, old, new) in [
        (
            "judge_text/src/lib.rt",
            "let j = judge_cases::judge_test(",
            "let opened = judge_cases::open_file(file);\n    let j = judge_cases::judge_test(",
        ),
        (
            "judge_text/src/lib.rt",
            "match judge_cases::open_file(file) {",
            "while false {}\n    match judge_cases::open_file(file) {",
        ),
        (
            "judge_cases/src/lib.rt",
            "if rule_cycles::is_cyclic(rules) {",
            "if rule_cycles::is_cyclic(rules) && rule_cycles::is_cyclic(rules) {",
        ),
        (
            "judge_cases/src/lib.rt",
            "let opened = open_file(file)?;",
            "let read = file_reader::read(file);\n    let opened = open_file(file)?;",
        ),
        (
            "find_table/src/lib.rt",
            "        mark_test(",
            "        judge_loading::load_test(file, tests[t]);\n        mark_test(",
        ),
        (
            "find_call/src/lib.rt",
            "match choice(",
            "let rules = file_loading::file_rules(file, 0);\n    match choice(",
        ),
        (
            "find_call/src/lib.rt",
            "match choice(",
            "let again = find_candidates::collect(file, tests, n);\n    match choice(",
        ),
        (
            "judge_text/src/lib.rt",
            "let j = judge_cases::judge_test(",
            "judge_cases::judge(file, k);\n    let j = judge_cases::judge_test(",
        ),
        (
            "workbench/src/lib.rt",
            "    find_call::find(",
            "    judge_cases::judge(file, 1);\n    find_call::find(",
        ),
        (
            "judge_search/src/lib.rt",
            "    search_by(&list[..many],",
            "    judge_suspects::suspects(&mut list, rows, stores, n, checks, m);\n    search_by(&list[..many],",
        ),
        (
            "judge_search/src/lib.rt",
            "let many = judge_suspects::suspects(",
            "while false {}\n    let many = judge_suspects::suspects(",
        ),
        (
            "judge_suspects/src/lib.rt",
            "let marks = mark(",
            "let marks = mark(stores, n, checks, 0);\n    let marks = mark(",
        ),
        (
            "judge_suspects/src/lib.rt",
            "now = self.list_row(",
            "judge_schedules::complete(rows, n);\n            now = self.list_row(",
        ),
        (
            "judge_cases/src/lib.rt",
            "    judge_counting::count_all(",
            "    judge_search::smallest_bad(&mut rows, base, &stores, 0, checks, 0);\n    judge_counting::count_all(",
        ),
        (
            "receiver/src/lib.rt",
            "match cache_steps::look(&mut rows, state, disk) {\n        Ok(stored) => cache_steps::drain_sound(",
            "cache_steps::look(&mut rows, state, disk);\n    match cache_steps::look(&mut rows, state, disk) {\n        Ok(stored) => cache_steps::drain_sound(",
        ),
        (
            "cache_steps/src/lib.rt",
            "        done = with_stored(done, step_sound(",
            "        let again = cache_soundness::decode(state);\n        done = with_stored(done, step_sound(",
        ),
        (
            "cache_handin/src/lib.rt",
            "    let dependents = cache_needs::dependents(",
            "    cache_needs::prepare(rows, alike, ranks, belows, addresses, names, epochs, n);\n    let dependents = cache_needs::dependents(",
        ),
        (
            "cache_soundness/src/lib.rt",
            "    cache_needs::prepare(",
            "    let rules = cache_contents::state_rules(state);\n    cache_needs::prepare(",
        ),
    ] {
        let changed = edited(&sources, path, old, new);
        assert_ne!(done_again(&changed), [""; 0], "{} for {}", new, old);
    }
}

/// The numbers of a state's layout by name, and who uses them. (Its size is also a length to ask for.)
const LAYOUT: [(&str, &[&str]); 4] = [
    ("RULES_START", &["cache_contents::rule_place"]),
    (
        "WRITES_START",
        &["cache_contents::write_place", "cache_layout::is_framed"],
    ),
    ("ENTRY_LENGTH", &["cache_contents::write_place"]),
    ("FLAG_PLACE", &["cache_contents::flag_place"]),
];

/// Its numbers as numerals. (The rules' start, 4, is also the length of a word.)
const LAYOUT_NUMERALS: [&str; 4] = ["1024", "164", "12", "11"];

/// What is against it that the layout of a state stands in one place: another use of one of its
/// numbers, or one as a numeral in a crate that knows states.
fn layout_elsewhere(sources: &Sources) -> Vec<String> {
    let mut faults = Vec::new();
    let mut found = BTreeSet::new();
    let others = |path: &&String| *path != "cache_model/src/lib.rt";
    for path in sources.code().filter(others) {
        let name = path.split('/').next().unwrap_or("");
        let source = sources.get(path);
        let whole = without_comments(source);
        for (number, _) in LAYOUT {
            let mut used = 0;
            for function in functions(source) {
                let count = uses(&function.body, number);
                used += count;
                let of = format!("{}::{} uses {}", name, function.name, number);
                found.extend((0..count).map(|i| format!("{} ({})", of, i + 1)));
            }
            // A use outside of what is taken for a function would not be seen.
            if used != uses(&whole, number) {
                faults.push(format!("{} names {} in no function", path, number));
            }
        }
        if named_in(path, source).contains("cache_model") {
            let numerals = LAYOUT_NUMERALS.iter().filter(|n| uses(&whole, n) > 0);
            faults.extend(numerals.map(|n| format!("{} has the numeral {}", path, n)));
        }
    }
    let known = LAYOUT.iter().flat_map(|(number, by)| {
        by.iter()
            .map(move |of| format!("{} uses {} (1)", of, number))
    });
    faults.extend(found.symmetric_difference(&known.collect()).cloned());
    faults
}

#[test]
fn the_layout_stands_in_one_place() {
    none(layout_elsewhere(&Sources::load()));
}

/// Each of these would say a second time where something stands.
#[test]
fn another_layout_is_noticed() {
    let sources = Sources::load();
    for (path, old, new) in [
        (
            "cache_layout/src/lib.rt",
            "cache_contents::flag_place(i)",
            "cache_contents::write_place(i) + cache_model::FLAG_PLACE",
        ),
        (
            "cache_layout/src/lib.rt",
            "cache_contents::write_place(writes)",
            "164 + 12 * writes",
        ),
        (
            "cache_contents/src/lib.rt",
            "let at = write_place(i);",
            "let at = cache_model::WRITES_START + cache_model::ENTRY_LENGTH * i;",
        ),
        (
            "cache_stores/src/lib.rt",
            "file_writing::put(state, flag, 0);",
            "file_writing::put(state, at + 11, 0);",
        ),
        (
            "cache_steps/src/lib.rt",
            "// Write i is stored",
            "const LAST: usize = cache_model::FLAG_PLACE + 1;\n\n// Write i is stored",
        ),
        (
            "cache_opening/src/lib.rt",
            "    state.fill(0);",
            "    state[..1024].fill(0);",
        ),
        (
            "receiver/src/lib.rt",
            "state.len() != cache_model::STATE_SIZE",
            "state.len() != 1024",
        ),
    ] {
        let changed = edited(&sources, path, old, new);
        assert_ne!(layout_elsewhere(&changed), [""; 0], "{} for {}", new, old);
    }
}

#[test]
fn only_steps_store() {
    none(stores_elsewhere(&Sources::load()));
}

/// Each of these would store other than by a step.
#[test]
fn another_store_is_noticed() {
    let sources = Sources::load();
    for (path, old, new) in [
        (
            "cache_steps/src/lib.rt",
            "(done, step_sound(",
            "(done, store_write(",
        ),
        (
            "cache_steps/src/lib.rt",
            "    store_write(",
            "    // store_write(",
        ),
        (
            "cache_steps/src/lib.rt",
            "    store_write(",
            "    store_write(state, disk, 0);\n    store_write(",
        ),
        (
            "cache_steps/src/lib.rt",
            "    store_write(",
            "    disk[0] = 0;\n    store_write(",
        ),
        (
            "cache_steps/src/lib.rt",
            "    store_write(",
            "    let d = disk;\n    store_write(",
        ),
        ("cache_steps/src/lib.rt", "disk: &[u8]", "disk: &mut [u8]"),
        (
            "receiver/src/lib.rt",
            "    cache_stores::append(",
            "    cache_stores::store_block(state, w);\n    cache_stores::append(",
        ),
        (
            "cache_stores/src/lib.rt",
            "pub fn append(",
            "pub fn append(disk: &mut [u8], ",
        ),
    ] {
        let changed = edited(&sources, path, old, new);
        assert_ne!(stores_elsewhere(&changed), [""; 0], "{} for {}", new, old);
    }
}

/// With a crate more or less, or one that names others, crates.txt is renewed by 'make crates'.
#[test]
fn the_crates_listed_are_those_needed() {
    let whole = text(&root().join("crates.txt"));
    none(faults_in(&whole, &named(), &exporting()));
}

/// Where each crate first stands in a drawing: its line, and its place there.
fn drawn(drawing: &str, named: &Crates) -> BTreeMap<String, (usize, usize)> {
    let mut places = BTreeMap::new();
    for (row, line) in drawing.lines().enumerate() {
        let words = line.split(|c: char| !(c.is_ascii_lowercase() || c == '_'));
        for word in words.filter(|word| named.contains_key(*word)) {
            let column = word.as_ptr() as usize - line.as_ptr() as usize;
            places.entry(word.to_string()).or_insert((row, column));
        }
    }
    places
}

/// What is wrong with a drawing: a crate that is not in it, or that stands below what it names.
fn faults_drawn(drawing: &str, named: &Crates) -> Vec<String> {
    let places = drawn(drawing, named);
    let mut faults = Vec::new();
    for (name, below) in named {
        match places.get(name) {
            None => faults.push(format!("{} is not drawn", name)),
            Some(place) => {
                let above =
                    |other: &&String| places.get(*other).map_or(false, |there| there < place);
                let told = below
                    .iter()
                    .filter(above)
                    .map(|other| format!("{} is drawn below {}", name, other));
                faults.extend(told);
            }
        }
    }
    faults
}

fn drawing() -> String {
    let page = text(&root().join("docs/ARCHITECTURE.md"));
    page.split("```").nth(1).expect("a drawing").to_string()
}

/// The page says that what a crate stands on is drawn below it, or to its right.
#[test]
fn the_drawing_is_of_the_crates() {
    none(faults_drawn(&drawing(), &named()));
}

#[test]
fn another_drawing_is_noticed() {
    for (old, new) in [
        ("find_sets", "find"),
        ("judge_cases", "judge_disks"),
        ("log_puts ", "log_trace"),
        ("log_trace", "log_puts "),
    ] {
        let changed = drawing().replacen(old, new, 1);
        assert_ne!(
            faults_drawn(&changed, &named()),
            [""; 0],
            "{} for {}",
            new,
            old
        );
    }
}

/// Those of them that export to C.
fn some_exporting() -> Names {
    ["exports".to_string()].into()
}

/// Crates that name others, in no order.
fn some_crates() -> Crates {
    let crates: [(&str, &[&str]); 7] = [
        ("exports", &["log_get"]),
        ("file_calls", &["rule_match"]),
        ("file_text", &["model"]),
        ("log_get", &["judge", "file_text"]),
        ("judge", &["model", "io"]),
        ("model", &[]),
        ("rule_match", &["model"]),
    ];
    let names = |others: &[&str]| others.iter().map(|other| other.to_string()).collect();
    crates
        .into_iter()
        .map(|(name, others)| (name.to_string(), names(others)))
        .collect()
}

#[test]
fn crates_stand_behind_those_below_them() {
    let expected = [
        "model:",
        "file_text: model",
        "rule_match: model",
        "file_calls: model rule_match",
        "judge: model io",
        "log_get: model file_text judge io",
        "exports staticlib: model file_text judge log_get io",
    ];
    let whole = listing(&some_crates(), &some_exporting());
    let lines: Vec<&str> = whole
        .lines()
        .filter(|line| !line.starts_with('#'))
        .collect();
    assert_eq!(lines, expected);
}

#[test]
fn another_list_of_crates_is_noticed() {
    let faults = |whole: &str| faults_in(whole, &some_crates(), &some_exporting());
    let right = listing(&some_crates(), &some_exporting());
    assert_eq!(faults(&right), [""; 0]);
    for (old, new, fault) in [
        ("file_text: model\n", "", "file_text is not listed"),
        (
            "model:\n",
            "model:\nlens: model\n",
            "lens is listed, and there is no such crate",
        ),
        (
            "log_get: model file_text",
            "log_get: model",
            "log_get needs file_text",
        ),
        ("judge: model io\n", "judge: model\n", "judge needs io"),
        (
            "rule_match: model\n",
            "rule_match: model log_get\n",
            "rule_match names log_get and does not need it",
        ),
        (
            "model:\nfile_text: model\n",
            "file_text: model\nmodel:\n",
            "line 3 is not what 'make crates' writes",
        ),
        (
            "file_calls: model rule_match",
            "file_calls: rule_match model",
            "line 6 is not what 'make crates' writes",
        ),
        (
            "exports staticlib: model",
            "exports: model",
            "exports exports, and is not listed as a static library",
        ),
        (
            "rule_match: model\n",
            "rule_match staticlib: model\n",
            "rule_match is listed as a static library, and exports nothing",
        ),
        (
            "exports staticlib: model file_text",
            "exports staticlib: model",
            "exports needs file_text",
        ),
    ] {
        assert_eq!(right.matches(old).count(), 1, "{}", old);
        assert_eq!(faults(&right.replace(old, new)), [fault]);
    }
}

#[test]
#[should_panic(expected = "name each other: judge log_get exports")]
fn crates_that_name_each_other_are_noticed() {
    let mut crates = some_crates();
    crates
        .get_mut("judge")
        .expect("a crate")
        .insert("exports".to_string());
    listing(&crates, &some_exporting());
}

/// Comments name no crate, and neither does what is no path's beginning.
#[test]
fn crates_are_named_in_modules_and_paths() {
    let code = "use one::Two; // three::four\nghost use Rattle.five.specs.Six.{seven};\n\
                // Rattle.eight.specs\nlet n = nine::ten::eleven(\"//\", twelve.len::<u8>());\n";
    let specs = "use Rattle.one.specs.Two.{three}\n-- Rattle.four.specs\n\
                 use Rattle.five.specs.Six as Six\nsix : nine::ten\n";
    let brought = "use std::one;\nuse two::{Three, four};\nlet n = one::five() + four::six();\n\
                   let m = seven::one(two::eight(), Three::nine());\n";
    for (file, source, expected) in [
        ("lib.rt", code, vec!["five", "nine", "one"]),
        ("lib.rt", brought, vec!["seven", "std", "two"]),
        ("Six.antt", specs, vec!["five", "one"]),
        ("stdin", code, vec![]),
    ] {
        let found: Vec<String> = named_in(file, source).into_iter().collect();
        assert_eq!(found, expected, "{}", file);
    }
}
