//! Each name in backticks in docs/CONTRACTS.md and docs/CHANGING.md is one that the repository declares.

use std::collections::HashSet;
use std::fs;
use std::path::{Path, PathBuf};

const ROOT: &str = env!("CARGO_MANIFEST_DIR");
const PAGES: [&str; 2] = ["docs/CONTRACTS.md", "docs/CHANGING.md"];

/// What the pages quote from the rules and what they say of the language: no names of ours.
const NO_NAMES: &str = "=|>|/>|<|-_:.|n|n*|*|1|datatype|arraysize|T t 1|F f 0|b|T|F|?|<TD/>|</TD|&#|&#x|T t 1 F f 0 ?|0|+|-|0x|\
    &amp;|&lt;|&gt;|&#xD;|0xffff|specs/|must-fail|requires|match|stdin|stdout|rt check";

/// Every file below a folder, but for what rt makes.
fn files(folder: &Path, found: &mut Vec<PathBuf>) {
    for entry in fs::read_dir(folder).expect("a folder") {
        let place = entry.expect("an entry").path();
        if place.is_dir() {
            if !place.ends_with("out") {
                files(&place, found);
            }
        } else {
            found.push(place);
        }
    }
}

fn ends_a_word(c: char) -> bool {
    c.is_whitespace() || "(){}[],;:<>=&*.\"".contains(c)
}

/// What a line of Rattle declares: behind a word that declares, a variant, or a field.
fn declared_in_rattle(line: &str, names: &mut HashSet<String>) {
    let words: Vec<&str> = line.split(ends_a_word).filter(|word| !word.is_empty()).collect();
    for pair in words.windows(2) {
        if ["fn", "struct", "enum", "const", "mod"].contains(&pair[0]) {
            names.insert(pair[1].to_owned());
        }
    }
    let text = line.trim_start();
    let first = text.split(ends_a_word).next().unwrap_or_default();
    let is_variant = first.starts_with(char::is_uppercase) && text[first.len()..].starts_with(['(', ',']);
    if text.len() < line.len() && (is_variant || text[first.len()..].starts_with(": ")) {
        names.insert(first.to_owned());
    }
}

/// What a line of antt declares: the names before a colon, and the first one behind a word that declares.
fn declared_in_antt(line: &str, names: &mut HashSet<String>) {
    let mut words = line.trim_start_matches([' ', '{', ',', ';']).split_whitespace().peekable();
    let mut declares = false;
    while words.next_if(|word| ["pub", "unfoldable", "abbrev", "data", "record", "module"].contains(word)).is_some() {
        declares = true;
    }
    let words: Vec<&str> = words.collect();
    let before_colon = words.iter().take_while(|word| **word != ":").count();
    let is_signature = before_colon < words.len() && words[..before_colon].iter().all(|word| !word.contains(['=', '(', '{', 'λ', '→']));
    let count = if is_signature && !line.trim_start().starts_with("--") { before_colon } else { 0 };
    names.extend(words.iter().take(count.max(usize::from(declares))).map(|word| word.to_string()));
}

/// Every name that is declared under crates/, with the crates and the edits, and the names of the header.
fn declared() -> HashSet<String> {
    let mut found = Vec::new();
    files(&Path::new(ROOT).join("crates"), &mut found);
    let mut names = HashSet::new();
    for place in found {
        let stem = place.file_stem().expect("a name").to_string_lossy().into_owned();
        let lines = || fs::read_to_string(&place).expect("text");
        match place.extension().and_then(|extension| extension.to_str()) {
            Some("rt") => lines().lines().for_each(|line| declared_in_rattle(line, &mut names)),
            Some("antt") => lines().lines().for_each(|line| declared_in_antt(line, &mut names)),
            Some("edit") => drop(names.insert(stem)),
            _ => {}
        }
    }
    for entry in fs::read_dir(Path::new(ROOT).join("crates")).expect("the crates") {
        names.insert(entry.expect("a crate").file_name().to_string_lossy().into_owned());
    }
    let header = fs::read_to_string(Path::new(ROOT).join("include/sailmortar.h")).expect("the header");
    let words = header.split(|c: char| !c.is_alphanumeric() && c != '_').filter(|word| word.to_lowercase().starts_with("sailmortar"));
    names.extend(words.map(str::to_owned));
    names
}

fn is_path(name: &str) -> bool {
    name.contains('/') && ["", "crates/"].iter().any(|above| Path::new(ROOT).join(format!("{above}{name}")).exists())
}

/// The names in backticks of a page, code blocks aside, that nothing declares.
fn unknown(page: &str, names: &HashSet<String>) -> Vec<String> {
    let text = page.split("```").step_by(2).collect::<String>();
    let spans = text.lines().filter(|line| !line.starts_with("    ")).flat_map(|line| line.split('`').skip(1).step_by(2));
    let is_known =
        |name: &str| NO_NAMES.split('|').any(|word| word == name) || is_path(name) || name.split("::").all(|part| names.contains(part));
    spans.filter(|name| !is_known(name)).map(str::to_owned).collect()
}

#[test]
fn every_name_is_declared() {
    let names = declared();
    for page in PAGES {
        let text = fs::read_to_string(Path::new(ROOT).join(page)).expect(page);
        assert_eq!(unknown(&text, &names), Vec::<String>::new(), "{page}");
    }
}

#[test]
fn a_name_that_is_made_up_is_found() {
    let names = declared();
    let page = "`declare` `Word::next` `rows` `demands/specs/Demands.antt` `sailmortar_convert` `Fixed` `buffer_of` `n*` `answer`\n";
    assert_eq!(unknown(page, &names), Vec::<String>::new());
    let page = "`declares-nothing` `Word::missing`\n```\n`fenced`\n```\n`rows/specs/None.antt` and `conv ert`\n    `code`\n";
    assert_eq!(unknown(page, &names), ["declares-nothing", "Word::missing", "rows/specs/None.antt", "conv ert"]);
}
