//! /samples: every list gets its answers, alone and joined, and together they show every number of every call.

mod common;
use common::{play, NUMBERS};
use std::collections::BTreeSet;
use std::fs;
use std::path::{Path, PathBuf};

/// The lists in order, with their answers.
fn samples() -> Vec<(String, String)> {
    let dir = Path::new(env!("CARGO_MANIFEST_DIR")).join("../samples");
    let files = fs::read_dir(dir).expect("samples").map(|f| f.unwrap().path());
    let lists: BTreeSet<PathBuf> = files.filter(|f| f.extension().is_some_and(|e| e == "calls")).collect();
    let text = |path: &Path| fs::read_to_string(path).unwrap_or_else(|e| panic!("{}: {e}", path.display()));
    lists.iter().map(|f| (text(f), text(&f.with_extension("answers")))).collect()
}

#[test]
fn lists_get_their_answers() {
    let samples = samples();
    assert!(samples.len() >= 40, "{} lists", samples.len());
    for (calls, answers) in &samples {
        assert_eq!(play(calls), answers.lines().collect::<Vec<_>>(), "{calls}");
    }
}

#[test]
fn joined_they_get_the_same() {
    let (calls, answers): (Vec<String>, Vec<String>) = samples().into_iter().unzip();
    assert_eq!(play(&calls.concat()), answers.concat().lines().collect::<Vec<_>>());
}

#[test]
fn every_number_of_every_call() {
    let samples = samples();
    let pairs = samples.iter().flat_map(|(calls, answers)| calls.lines().zip(answers.lines()));
    let word = |line: &str| line.split(' ').next().unwrap().to_string();
    let shown: BTreeSet<(String, String)> = pairs.map(|(c, a)| (word(c), word(a))).collect();
    for (call, numbers) in NUMBERS {
        for n in numbers {
            assert!(shown.contains(&(call.to_string(), n.to_string())), "{call} never gets {n}");
        }
    }
    // A delivery that stops after 100,001 events.
    assert!(samples.iter().any(|(_, answers)| answers.contains("8 100001 ")));
}
