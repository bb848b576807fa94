//! `pilot run` against the stored answers, which are `replay`'s, and what it has beside them.

mod common;

use std::fs::{self, File, OpenOptions};
use std::io::{BufRead, BufReader, Read, Write};
use std::process::Stdio;
use std::sync::mpsc;
use std::thread;
use std::time::Duration;

use common::{done, fed, lists, pilot, root, run, scratch};

#[test]
fn every_stored_list_has_its_answers() {
    let mut count = 0;
    for folder in ["examples", "samples", "docs/differences"] {
        for list in lists(folder) {
            let answers = fs::read(list.with_extension("answers")).unwrap();
            let by_name = pilot(&["run", list.to_str().unwrap()]).output().unwrap();
            let by_input = pilot(&["run", "-"]).stdin(File::open(&list).unwrap()).output().unwrap();
            let into_file = scratch("answers");
            let status = pilot(&["run", list.to_str().unwrap()]).stdout(File::create(&into_file).unwrap()).status().unwrap();
            for (out, code) in [(by_name.stdout, by_name.status), (by_input.stdout, by_input.status), (fs::read(into_file).unwrap(), status)] {
                assert!(out == answers, "{}", list.display());
                assert_eq!(code.code(), Some(0), "{}", list.display());
            }
            assert!(by_name.stderr.is_empty());
            count += 1;
        }
    }
    assert!(count >= 80, "{count} lists");
}

#[test]
fn a_malformed_list_is_told_twice_and_has_status_1() {
    let mut reasons: Vec<String> = Vec::new();
    for list in lists("pilot/tests/malformed") {
        let name = list.to_str().unwrap();
        let d = run(&["run", name]);
        assert_eq!(d.out, fs::read_to_string(list.with_extension("answers")).unwrap(), "{name}");
        let last = d.out.lines().last().unwrap();
        assert_eq!(d.err, format!("pilot: {name}: {last}\n"));
        assert_eq!(d.status, 1, "{name}");
        reasons.push(last.split_once(": ").unwrap().1.into());
    }
    reasons.sort();
    reasons.dedup();
    assert_eq!(reasons, ["missing number", "not a number", "number too large", "surplus number", "unknown word"]);
    assert_eq!(fed(&["run", "-"], "next\n\nx\nnext\n").err, "pilot: standard input: line 3: unknown word\n");
}

#[test]
fn answers_come_before_the_list_ends() {
    let mut child = pilot(&["run", "-"]).stdin(Stdio::piped()).stdout(Stdio::piped()).spawn().unwrap();
    let mut input = child.stdin.take().unwrap();
    let output = BufReader::new(child.stdout.take().unwrap());
    let (send, answers) = mpsc::channel();
    thread::spawn(move || output.lines().try_for_each(|line| send.send(line.unwrap())));
    for _ in 0..3 {
        input.write_all(b"next\n").unwrap();
        let answer = answers.recv_timeout(Duration::from_secs(20)).expect("an answer before the next call");
        assert_eq!(answer, "0 18446744073709551615 0");
    }
    drop(input);
    assert_eq!(child.wait().unwrap().code(), Some(0));
}

#[test]
fn a_reader_that_goes_away_is_no_fault() {
    let long = "next\n".repeat(100_000);
    let list = scratch("long");
    fs::write(&list, long).unwrap();
    let mut child = pilot(&["run", list.to_str().unwrap()]).stdout(Stdio::piped()).stderr(Stdio::piped()).spawn().unwrap();
    let mut first = [0; 5];
    child.stdout.take().unwrap().read_exact(&mut first).unwrap();
    let d = done(child.wait_with_output().unwrap());
    assert_eq!((d.status, d.err.as_str()), (0, ""));
}

#[test]
fn a_failed_write_has_status_1() {
    for words in [vec!["run", "examples/pilot.calls"], vec!["--help"], vec!["duty", "examples/pilot.calls", "--from", "0", "--to", "9"]] {
        let full = OpenOptions::new().write(true).open("/dev/full").unwrap();
        let d = done(pilot(&words).stdout(full).stderr(Stdio::piped()).spawn().unwrap().wait_with_output().unwrap());
        assert_eq!(d.status, 1);
        assert!(d.err.starts_with("pilot: standard output: No space left"), "{}", d.err);
    }
}

#[test]
fn a_failed_read_has_status_1() {
    let d = run(&["run", "examples"]);
    assert_eq!((d.status, d.out.as_str()), (1, ""));
    assert!(d.err.starts_with("pilot: examples: line 1: Is a directory"), "{}", d.err);
    let d = done(pilot(&["run", "-"]).stdin(File::open(root()).unwrap()).output().unwrap());
    assert_eq!(d.status, 1);
    assert!(d.err.starts_with("pilot: standard input: line 1: Is a directory"), "{}", d.err);
    let d = run(&["run", "examples/no-such.calls"]);
    assert_eq!(d.status, 1);
    assert!(d.err.starts_with("pilot: examples/no-such.calls: No such file"), "{}", d.err);
}

#[test]
fn wrong_usage_has_status_2() {
    let wrong: [&[&str]; 9] = [
        &[],
        &["walk"],
        &["run"],
        &["run", "a", "b"],
        &["run", "--fast", "a"],
        &["wave", "examples/pilot.calls"],
        &["duty", "examples/pilot.calls", "--from", "0"],
        &["duty", "examples/pilot.calls", "--from", "0", "--to", "x"],
        &["new", "--clock", "16MHz"],
    ];
    for words in wrong {
        let d = run(words);
        assert_eq!((d.status, d.out.as_str()), (2, ""), "{words:?}");
        assert!(d.err.starts_with("pilot: ") && d.err.contains("--help"), "{}", d.err);
    }
}

#[test]
fn every_command_has_help() {
    for words in [vec!["--help"], vec!["-h"], vec!["help"]] {
        let d = run(&words);
        assert_eq!((d.status, d.err.as_str()), (0, ""));
        assert!(d.out.contains("pilot run LIST"));
    }
    for command in ["run", "wave", "duty", "new"] {
        let d = run(&[command, "--help"]);
        assert_eq!((d.status, d.err.as_str()), (0, ""));
        assert!(d.out.starts_with(&format!("usage: pilot {command} ")));
    }
    assert_eq!(run(&["--version"]).out, concat!("pilot ", env!("CARGO_PKG_VERSION"), "\n"));
}
