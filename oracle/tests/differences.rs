//! docs/differences: every call list replayed, its answers held to those stored beside it.

mod common;
use common::play;
use std::collections::BTreeSet;
use std::fs;
use std::path::{Path, PathBuf};

fn docs() -> PathBuf {
    Path::new(env!("CARGO_MANIFEST_DIR")).join("../docs")
}

fn text(path: &Path) -> String {
    fs::read_to_string(path).unwrap_or_else(|e| panic!("{}: {e}", path.display()))
}

/// The names of the files with this ending.
fn named(ending: &str) -> BTreeSet<String> {
    let files = fs::read_dir(docs().join("differences")).expect("docs/differences");
    files.filter_map(|f| f.unwrap().file_name().to_str()?.strip_suffix(ending).map(str::to_string)).collect()
}

#[test]
fn lists_get_their_answers() {
    let lists = named(".calls");
    assert!(!lists.is_empty(), "no list in docs/differences");
    assert_eq!(lists, named(".answers"), "lists on the left, answers on the right");
    for name in lists {
        let file = |ending| docs().join("differences").join(format!("{name}{ending}"));
        let given = play(&text(&file(".calls")));
        let wanted: Vec<String> = text(&file(".answers")).lines().map(str::to_string).collect();
        assert!(!wanted.is_empty(), "{name}: no answers");
        assert_eq!(given, wanted, "{name}");
    }
}

/// The names in DIFFERENCES.md's tables are those of the lists.
#[test]
fn lists_are_described() {
    let page = text(&docs().join("DIFFERENCES.md"));
    let rows = page.lines().filter_map(|l| l.strip_prefix("| `")?.split_once('`')).map(|(name, _)| name.to_string());
    assert_eq!(rows.collect::<BTreeSet<_>>(), named(".calls"));
}

/// The names that the definitions' comments give are described, and every line outside the pins' and document 01's
/// tables is named at its rule.
#[test]
fn rules_are_named() {
    let page = text(&docs().join("DIFFERENCES.md"));
    let ours = page.split("### Pins").next().unwrap();
    let lines: BTreeSet<String> = ours.lines().filter_map(|l| l.strip_prefix("| `")?.split_once('`')).map(|(n, _)| n.to_string()).collect();
    let mut at_rules = BTreeSet::new();
    for crate_name in ["rm0440", "tim", "regs"] {
        for file in fs::read_dir(docs().join("../crates").join(crate_name).join("specs")).unwrap() {
            for comment in text(&file.unwrap().path()).lines().filter(|l| l.contains("docs/DIFFERENCES.md")) {
                let words = comment.split(|c: char| !c.is_ascii_lowercase() && !c.is_ascii_digit() && c != '-');
                at_rules.extend(words.filter(|w| lines.contains(*w)).map(str::to_string));
            }
        }
    }
    assert_eq!(at_rules, lines, "named at rules on the left, described on the right");
}
