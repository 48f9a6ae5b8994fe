//! No module cites itself in a circle: of any two, at most one stands on the other.
//!
//! A module is a file. What a file cites is read off its `use crate::` and `use super::` lines before its tests, which may cite anything. A part of a
//! module (`make/good.rs`) belongs to it: it may cite the whole, and what it cites the whole cites too.

use std::collections::{BTreeMap, BTreeSet};
use std::path::{Path, PathBuf};

/// Each module with those that it cites.
type Cited = BTreeMap<String, BTreeSet<String>>;

fn files(folder: &Path, found: &mut Vec<PathBuf>) {
    for entry in std::fs::read_dir(folder).expect("a folder of sources") {
        let path = entry.expect("a source").path();
        let name = path.file_stem().expect("a name").to_string_lossy();
        // The programs are crates of their own, and tests are no modules of the program.
        if path.is_dir() && name != "bin" && !name.ends_with("_tests") {
            files(&path, found);
        } else if path.extension().is_some_and(|end| end == "rs") && !name.ends_with("_tests") {
            found.push(path);
        }
    }
}

/// The module of a file, as `make::good`.
fn module(source: &Path, file: &Path) -> String {
    let file = file.strip_prefix(source).expect("below the sources");
    let words: Vec<_> = file
        .with_extension("")
        .iter()
        .map(|word| word.to_string_lossy().into_owned())
        .collect();
    words.join("::")
}

/// The paths of a file's `use` lines from the crate on, several where a list names them.
fn paths(own: &str, text: &str) -> Vec<String> {
    let parent = own.rsplit_once("::").map_or("", |(parent, _)| parent);
    let code = text.split("#[cfg(test)]").next().unwrap_or("");
    let uses = code
        .split("use ")
        .skip(1)
        .filter_map(|rest| rest.split_once(';'));
    let mut found = Vec::new();
    for (path, _) in uses {
        let path: String = path.split_whitespace().collect();
        let path = match path.strip_prefix("super::") {
            Some(rest) => format!("{parent}::{rest}"),
            None => path.strip_prefix("crate::").unwrap_or("").to_string(),
        };
        match path.split_once('{') {
            Some((front, list)) => {
                found.extend(list.split(',').map(|name| format!("{front}{name}")))
            }
            None => found.push(path),
        }
    }
    found
}

fn cited() -> Cited {
    let source = Path::new(env!("CARGO_MANIFEST_DIR")).join("src");
    let mut all = Vec::new();
    files(&source, &mut all);
    let names: BTreeSet<String> = all.iter().map(|file| module(&source, file)).collect();
    let mut cited = Cited::new();
    for (file, own) in all.iter().map(|file| (file, module(&source, file))) {
        let text = std::fs::read_to_string(file).expect("a source");
        for path in paths(&own, &text) {
            // The longest front of the path that is a module.
            let path = path.trim_start_matches("::");
            let within =
                |name: &&String| path == name.as_str() || path.starts_with(&format!("{name}::"));
            let Some(other) = names.iter().filter(within).max_by_key(|name| name.len()) else {
                continue;
            };
            let [whole, other_whole] =
                [&own, other].map(|name| name.split("::").next().unwrap_or(""));
            if whole != other_whole {
                cited
                    .entry(whole.to_string())
                    .or_default()
                    .insert(other_whole.to_string());
            } else if !own.starts_with(other.as_str()) {
                cited.entry(own.clone()).or_default().insert(other.clone());
            }
        }
    }
    cited
}

/// All that a module stands on.
fn below(cited: &Cited, name: &str, found: &mut BTreeSet<String>) {
    for other in cited.get(name).into_iter().flatten() {
        if found.insert(other.clone()) {
            below(cited, other, found);
        }
    }
}

#[test]
fn no_module_stands_on_itself() {
    let cited = cited();
    assert!(cited.len() > 20, "the sources were not found: {cited:?}");
    for name in cited.keys() {
        let mut found = BTreeSet::new();
        below(&cited, name, &mut found);
        assert!(
            !found.contains(name),
            "{name} stands on itself, by some of {found:?}"
        );
    }
}

/// By hand, so that a circle would be seen.
#[test]
fn circles_are_seen() {
    let text =
        "use crate::one::{Two,\n Three};\nuse super::four::five;\n#[cfg(test)]\nuse crate::six;";
    assert_eq!(
        paths("make::good", text),
        ["one::Two", "one::Three}", "make::four::five"]
    );
    let of = |name: &str, other: &str| (name.to_string(), BTreeSet::from([other.to_string()]));
    let circle = Cited::from([of("a", "b"), of("b", "c"), of("c", "a")]);
    let mut found = BTreeSet::new();
    below(&circle, "a", &mut found);
    assert!(found.contains("a"));
}
