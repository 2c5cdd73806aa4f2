//! The larger of u+a and 0 and of u−a and 0 (document 02, point 5): the code that finds them, with what it calls, has no fork, neither in its source nor as
//! it is compiled, and gives that number everywhere. The step of the library, into which it is compiled, is looked at in rust/jemmyfern/tests/path.rs.

use agreement::{rightgoing, Rightgoing, FASTEST};
use std::collections::BTreeMap;
use std::path::{Path, PathBuf};
use std::process::Command;

const FORKS: [&str; 7] = ["if", "match", "loop", "while", "for", "&&", "||"];

fn kept(name: &str) -> PathBuf {
    Path::new(env!("CARGO_MANIFEST_DIR"))
        .join("../..")
        .join(name)
}

/// The text of a crate's module without its comments.
fn source(path: &str) -> String {
    let (krate, module) = path.split_once("::").expect("a crate and a module");
    let file = kept(&format!("crates/{krate}/src/{module}.rt"));
    let text = std::fs::read_to_string(&file).unwrap_or_else(|e| panic!("{file:?}: {e}"));
    let bare = |line: &str| line.split("//").next().unwrap().to_string() + "\n";
    text.lines().map(bare).collect()
}

/// The code of a function, without its contract.
fn body(path: &str, name: &str) -> String {
    let text = source(path);
    body_in(&text, name).to_string()
}

fn body_in<'a>(text: &'a str, name: &str) -> &'a str {
    let (before, from) = text.split_once(&format!("fn {name}(")).expect(name);
    // a method stands further in
    let line = before.rsplit('\n').next().unwrap();
    let margin = &line[..line.len() - line.trim_start().len()];
    let first = format!("\n{margin}{{\n");
    let (head, from) = from.split_once(&first).expect("its first brace");
    assert!(!head.contains("fn "), "{name} has no contract");
    let last = format!("\n{margin}}}\n");
    let (body, _) = from.split_once(&last).expect("its last brace");
    body
}

fn of_a_name(c: char) -> bool {
    c.is_ascii_alphanumeric() || c == '_'
}

/// What is called in a body: each name with a parenthesis right after it. A call of another form is not followed, and so not let pass.
fn called(body: &str) -> Vec<String> {
    let before = body.split('(').rev().skip(1);
    let name = |text: &str| {
        assert!(!text.ends_with(['!', '>', ')', ']']), "a call in {body}");
        text.rsplit(|c| !of_a_name(c)).next().unwrap().to_string()
    };
    let names = before.map(name).filter(|name| !name.is_empty());
    names
        .filter(|name| !FORKS.contains(&name.as_str()))
        .collect()
}

/// Each name that a module brings in, by its path.
fn used(text: &str) -> Vec<String> {
    let each = |item: &str| match item.split_once("::{") {
        Some((path, names)) => {
            let names = names.trim_end_matches('}').split(',');
            names.map(|name| format!("{path}::{name}")).collect()
        }
        None => vec![item.to_string()],
    };
    let items = text.split("\nuse ").skip(1);
    let items = items.filter_map(|text| text.split_once(';'));
    items
        .flat_map(|(item, _)| each(&item.split_whitespace().collect::<String>()))
        .collect()
}

/// The module of an item that a module brings in.
fn module_of(path: &str, item: &str) -> String {
    let (from, _) = item.rsplit_once("::").expect("a module and a name");
    match from.strip_prefix("super::") {
        Some(module) => format!("{}::{module}", path.split("::").next().unwrap()),
        None => from.to_string(),
    }
}

/// The module that a name called in this module comes from: itself, one that it is brought in from, or that of a type that is brought in, whose method it is.
/// What is none of these is the library's own or a derive's, and has no text here.
fn home(path: &str, name: &str) -> Option<String> {
    let text = source(path);
    let has = |text: &str| text.contains(&format!("fn {name}("));
    if has(&text) {
        return Some(path.to_string());
    }
    let used = used(&text);
    let named = used.iter().find(|u| u.ends_with(&format!("::{name}")));
    if let Some(item) = named {
        return Some(module_of(path, item));
    }
    let of_a_type = used.iter().map(|item| module_of(path, item));
    of_a_type
        .filter(|module| module.contains("::"))
        .find(|module| has(&source(module)))
}

/// A function and all that it calls, each with its body; what has no text is named as `std`'s.
fn with_called(path: &str, name: &str) -> BTreeMap<String, String> {
    let mut found = BTreeMap::new();
    let mut open = vec![(path.to_string(), name.to_string())];
    while let Some((path, name)) = open.pop() {
        let body = body(&path, &name);
        let names = called(&body);
        if found.insert(format!("{path}::{name}"), body).is_none() {
            for c in names {
                match home(&path, &c) {
                    Some(module) => open.push((module, c)),
                    None => drop(found.insert(format!("std::{c}"), String::new())),
                }
            }
        }
    }
    found
}

/// The forks in a text, each as often as it is there.
fn forks(text: &str) -> Vec<&'static str> {
    let names: Vec<&str> = text.split(|c| !of_a_name(c)).collect();
    let times = |fork: &str| match fork {
        "&&" | "||" => text.matches(fork).count(),
        _ => names.iter().filter(|name| **name == fork).count(),
    };
    let all = FORKS.iter();
    all.flat_map(|fork| vec![*fork; times(fork)]).collect()
}

/// What a function of the harness is compiled to, an instruction an entry.
fn instructions(symbol: &str) -> Vec<String> {
    let library = kept("target/staticlib/libharness.a");
    let run = Command::new("objdump")
        .args([
            "-d",
            "--no-show-raw-insn",
            &format!("--disassemble={symbol}"),
        ])
        .arg(&library)
        .output()
        .expect("objdump");
    assert!(run.status.success(), "{run:?}");
    let text = String::from_utf8(run.stdout).unwrap();
    let (_, code) = text.split_once(&format!("<{symbol}>:\n")).expect(symbol);
    let lines = code.lines().take_while(|line| !line.is_empty());
    let text = |line: &str| line.split_once(":\t").map(|(_, text)| text.to_string());
    lines
        .map(|line| text(line).expect("an instruction"))
        .collect()
}

/// How many instructions have a word that begins so; a prefix may stand before an instruction's name.
fn with(list: &[String], names: &[&str]) -> usize {
    let named = |word: &str| names.iter().any(|name| word.starts_with(name));
    let found = |text: &&String| text.split_whitespace().any(named);
    list.iter().filter(found).count()
}

/// Every jump of this processor but a call and a return.
fn jumps(list: &[String]) -> usize {
    with(list, &["j", "loop", "xbegin"])
}

#[test]
fn no_fork_in_the_source() {
    let code = with_called("flux::crossing", "rightgoing_of");
    let names: Vec<&str> = code.keys().map(String::as_str).collect();
    let all = [
        "flux::crossing::rightgoing_of",
        "numbers::signed::joined",
        "numbers::signed::right_part",
    ];
    assert_eq!(names, all);
    for (name, body) in &code {
        assert_eq!(forks(body), [""; 0], "{name}");
    }
}

/// The search finds a fork in what is called, and in words that touch.
#[test]
fn a_fork_in_the_source_is_found() {
    let code = with_called("flux::crossing", "fluxes_of");
    assert_eq!(forks(&code["flux::crossing::fluxes_of"]), ["if"]);
    assert!(code.contains_key("numbers::signed::right_part"));
    let root = with_called("flux::wave", "wave_speed");
    assert!(forks(&root["numbers::root::square_root_ceil"]).contains(&"loop"));
    let text = "let b = x&&y;if(a||b){match c{}}while d{}for i in e{}loop{}";
    assert_eq!(forks(text), FORKS);
    assert_eq!(called(text), [""; 0]);
    assert_eq!(forks("diff(matched, &x, if_any | y)"), [""; 0]);
}

#[test]
#[should_panic(expected = "has no contract")]
fn the_body_of_another_function_is_not_taken() {
    let text = "fn bare(z: i64) {\n    if z {}\n}\n\nfn next()\n{\n}\n";
    body_in(text, "bare");
}

#[test]
#[should_panic(expected = "a call in")]
fn a_call_that_is_not_followed_is_not_passed_over() {
    called("matches!(z, 0)");
}

#[test]
fn no_jump_in_the_object_code() {
    let list = instructions("harness_rightgoing");
    assert_eq!(jumps(&list), 0, "{list:?}");
    // all of it was seen: nothing is called, and it goes from its first instruction to one return
    assert_eq!(with(&list, &["call"]), 0, "{list:?}");
    assert_eq!(with(&list, &["ret"]), 1, "{list:?}");
    assert!(list.len() > 5, "{list:?}");
}

#[test]
fn a_jump_in_the_object_code_is_found() {
    assert!(jumps(&instructions("harness_side")) > 0);
    let list = ["bnd jne  1c32 <f+0x2>", "cmovle %rdx,%rax", "sete   %al"].map(String::from);
    assert_eq!(jumps(&list), 1);
}

/// Every wave speed with every velocity: u+a is each x of -8,000..16,000, u−a each of -16,000..8,000.
#[test]
fn the_larger_of_x_and_0_at_every_x() {
    for a in 0..=FASTEST {
        for u in -FASTEST..=FASTEST {
            let Rightgoing { upper, lower } = rightgoing(a as u64, u);
            assert_eq!(upper as i64, (u + a).max(0), "u {u} a {a}");
            assert_eq!(lower as i64, (u - a).max(0), "u {u} a {a}");
        }
    }
}
