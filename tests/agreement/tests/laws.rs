//! No statement that nothing holds: every definition under specs/ and every law under proofs/ is used, by its own file or by one that names it in a `use`. What nothing uses can be
//! weakened unseen.

use std::collections::HashSet;
use std::fs;
use std::path::{Path, PathBuf};

/// They stand at the end: each shows by itself that a contract says its call's definition, or that a statement is of every list.
const PINS: [&str; 33] = [
    "open_says",
    "step_says",
    "transport_says",
    "setting_says",
    "greatest_says",
    "write_says",
    "of_every_list",
    "after_definitions",
    "steps_of_definitions",
    "open_owes_nothing",
    "open_clause",
    "step_owes_nothing",
    "step_clause",
    "transport_owes_nothing",
    "transport_clause",
    "setting_owes_nothing",
    "setting_clause",
    "greatest_owes_nothing",
    "greatest_clause",
    "write_owes_nothing",
    "write_clause",
    "open_pre",
    "open_post",
    "step_pre",
    "step_post",
    "transport_pre",
    "transport_post",
    "setting_pre",
    "setting_post",
    "greatest_pre",
    "greatest_post",
    "write_pre",
    "write_post",
];

/// Laws that no proof cites any more. Before one goes, docs/DESIGN-PASS.md has to name what states it.
const IDLE: [&str; 2] = ["no_further_within", "square_low"];

struct Source {
    /// from the folder of the crates on, as `flux/proofs/CrossingLaws.antt`
    path: String,
    text: String,
}

fn collect(folder: &Path, root: &Path, into: &mut Vec<Source>) {
    let entries = fs::read_dir(folder).unwrap_or_else(|e| panic!("{}: {e}", folder.display()));
    for entry in entries {
        let path: PathBuf = entry.expect("an entry").path();
        if path.is_dir() {
            if !path.ends_with("out") {
                collect(&path, root, into);
            }
        } else if path.extension().is_some_and(|e| e == "antt" || e == "rt") {
            let name = path.strip_prefix(root).expect("below the root");
            into.push(Source {
                path: name.to_string_lossy().into_owned(),
                text: fs::read_to_string(&path).expect("text"),
            });
        }
    }
}

fn sources() -> Vec<Source> {
    let root = Path::new(env!("CARGO_MANIFEST_DIR")).join("../../crates");
    let mut all = Vec::new();
    collect(&root, &root, &mut all);
    all
}

fn is_use(line: &str) -> bool {
    let line = line.trim_start();
    line.starts_with("use ") || line.starts_with("ghost use ")
}

/// What a file imports: crate, module and name, as `flux proofs.CrossingLaws water_flux_dry`.
fn imports(text: &str, into: &mut HashSet<String>) {
    for line in text.lines().filter(|l| is_use(l)) {
        let Some((_, rest)) = line.split_once("Rattle.") else {
            continue;
        };
        let Some((path, names)) = rest.split_once(".{") else {
            continue;
        };
        let (krate, module) = path.split_once('.').expect("a module");
        for name in names.trim_end_matches(|c| c == ';' || c == '}').split(',') {
            let name = name.trim().split(' ').next().expect("a name");
            into.insert(format!("{krate} {module} {name}"));
        }
    }
}

fn words(line: &str) -> impl Iterator<Item = &str> {
    let code = line.split("--").next().expect("a part");
    code.split(|c: char| c.is_whitespace() || "(){},;.[]".contains(c))
        .filter(|w| !w.is_empty())
}

fn indentation(line: &str) -> usize {
    line.len() - line.trim_start().len()
}

/// The public names that a file declares, without the fields of its records.
fn declared(text: &str) -> Vec<&str> {
    let mut names = Vec::new();
    let mut record = None;
    for line in text.lines().filter(|l| !l.trim().is_empty()) {
        let depth = indentation(line);
        if record.is_some_and(|r| depth > r) {
            continue;
        }
        record = None;
        let mut words = words(line);
        let mut word = words.next();
        while matches!(word, Some("unfoldable" | "abbrev")) {
            word = words.next();
        }
        if word != Some("pub") {
            continue;
        }
        match words.next() {
            Some("record" | "data") => {
                record = Some(depth);
                names.extend(words.next());
            }
            Some("mod" | "use") | None => {}
            Some(name) => names.push(name),
        }
    }
    names
}

/// The name that a line declares or begins a clause of. Deeper lines belong to the one before them.
fn begins(line: &str) -> Option<&str> {
    if indentation(line) > 2 || !words(line).any(|w| matches!(w, ":" | "=" | "where")) {
        return None;
    }
    words(line).find(|w| !matches!(*w, "unfoldable" | "abbrev" | "pub" | "record" | "data"))
}

/// Used in its own file, outside its own clauses.
fn used_here(text: &str, name: &str) -> bool {
    let mut current = "";
    for line in text.lines().filter(|l| !is_use(l)) {
        current = begins(line).unwrap_or(current);
        if current != name && words(line).any(|w| w == name) {
            return true;
        }
    }
    false
}

#[test]
fn every_definition_and_law_is_used() {
    let all = sources();
    let mut imported = HashSet::new();
    for source in &all {
        imports(&source.text, &mut imported);
    }
    let mut looked_at = 0;
    let mut unused = Vec::new();
    for source in &all {
        let parts: Vec<&str> = source.path.split('/').collect();
        let [krate, kind @ ("specs" | "proofs"), file] = parts[..] else {
            continue;
        };
        let module = file.trim_end_matches(".antt");
        for name in declared(&source.text) {
            looked_at += 1;
            let import = format!("{krate} {kind}.{module} {name}");
            if !PINS.contains(&name)
                && !IDLE.contains(&name)
                && !imported.contains(&import)
                && !used_here(&source.text, name)
            {
                unused.push(format!("{} {name}", source.path));
            }
        }
    }
    assert!(looked_at > 500, "only {looked_at} names were found");
    assert!(unused.is_empty(), "nothing uses {unused:#?}");
}

/// The word itself, beside the theorem `AsksNothing`, which goes by names: no function of the C interface requires anything, and each ensures something, as an
/// export just what the function does that it calls.
#[test]
fn the_c_functions_require_nothing() {
    let all = sources();
    let ensured = [
        ("jemmyfern_c/src/lib.rt", "pub fn jemmyfern_"),
        ("jemmyfern_c_c/src/lib.rt", "pub extern \"C\" fn jemmyfern_"),
    ]
    .map(|(path, function)| {
        let source = all.iter().find(|s| s.path == path).expect(path);
        let lines = source.text.lines().map(str::trim_start);
        let starting =
            |word: &str| -> Vec<&str> { lines.clone().filter(|l| l.starts_with(word)).collect() };
        assert_eq!(starting(function).len(), 6, "{path}");
        assert_eq!(starting("ensures ").len(), 6, "{path}");
        assert_eq!(starting("requires ").len(), 0, "{path}");
        starting("ensures ")
    });
    assert_eq!(ensured[0], ensured[1], "an export has another contract");
}
