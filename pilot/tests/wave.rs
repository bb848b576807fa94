//! `pilot wave`: the file's levels are those of the answers' entries, at every cycle.

mod common;

use std::collections::BTreeMap;
use std::fs;

use common::{fed, lists, run, scratch};

/// A file as a reader of the format sees it: names, and the levels from each time on.
struct Dump {
    unit: String,
    names: Vec<String>,
    changes: Vec<(u64, String, u8)>,
    end: u64,
}

fn dump(text: &str) -> Dump {
    let (head, body) = text.split_once("$enddefinitions $end\n").unwrap();
    let unit = head.lines().find_map(|l| l.strip_prefix("$timescale ")?.strip_suffix(" $end")).unwrap();
    let mut codes = BTreeMap::new();
    let mut names = Vec::new();
    for line in head.lines().filter(|l| l.starts_with("$var ")) {
        let [_, _, width, code, name, _] = line.split(' ').collect::<Vec<_>>()[..] else { panic!("{line}") };
        assert_eq!(width, "1");
        assert!(codes.insert(code, name.to_string()).is_none());
        names.push(name.to_string());
    }
    let (mut time, mut last, mut changes) = (0, None, Vec::new());
    for line in body.lines() {
        match (line.strip_prefix('#'), line) {
            (Some(t), _) => {
                time = t.parse().unwrap();
                assert!(last.is_none_or(|l| l < time), "times go on");
                last = Some(time);
            }
            (None, "$dumpvars" | "$end") => {}
            (None, _) => changes.push((time, codes[&line[1..]].clone(), line[..1].parse().unwrap())),
        }
    }
    assert_eq!(changes[..names.len()], names.iter().map(|n| (0, n.clone(), 0)).collect::<Vec<_>>(), "first all are dumped as low");
    Dump { unit: unit.into(), names: names.clone(), changes: changes.split_off(names.len()), end: time }
}

fn wave(words: &[&str]) -> Dump {
    let file = scratch("wave.vcd");
    let mut all = vec!["wave"];
    all.extend(words);
    all.extend(["-o", file.to_str().unwrap()]);
    let d = run(&all);
    assert_eq!((d.status, d.out.as_str()), (0, ""), "{}", d.err);
    dump(&fs::read_to_string(file).unwrap())
}

#[test]
fn the_first_pilot() {
    let d = wave(&["examples/pilot.calls", "--name", "0=post-1"]);
    assert_eq!((d.unit.as_str(), d.names.as_slice()), ("100 ps", ["post-1".to_string()].as_slice()));
    // 16 MHz: 625 units a cycle.
    let cycles: Vec<(u64, u8)> = d.changes.iter().map(|c| (c.0 / 625, c.2)).collect();
    assert_eq!(cycles, [(0, 1), (103, 0), (110, 1), (113, 0), (120, 1), (123, 0), (130, 1), (133, 0), (140, 1)]);
    assert!(d.changes.iter().all(|c| c.0 % 625 == 0));
    assert_eq!(d.end, 140 * 625);
}

#[test]
fn units_of_time() {
    let list = "examples/pilot.calls";
    let d = wave(&[list, "--unit", "cycle"]);
    assert_eq!((d.unit.as_str(), d.names[0].as_str()), ("1 ns", "pin0"));
    assert_eq!(d.changes.iter().map(|c| c.0).collect::<Vec<_>>(), [0, 103, 110, 113, 120, 123, 130, 133, 140]);
    // 103 cycles of 62.5 ns are 6437.5 ns.
    let d = wave(&[list, "--unit", "1ns"]);
    assert_eq!((d.unit.as_str(), d.changes[1].0, d.end), ("1 ns", 6438, 8750));
    let d = run(&["wave", list, "-o", "-", "--unit", "3ns"]);
    assert_eq!((d.status, d.err.lines().next().unwrap()), (2, "pilot: --unit 3ns: not a unit of time"));
}

#[test]
fn a_change_of_the_clock_is_in_the_times() {
    // 16 MHz; from cycle 16 on 8 MHz. The pin goes up at cycles 8 and 24.
    let list = "setup 0x416e848000000000 0x400a666666666666 1 0 0 16\n\
                pin 0 1 0 1 0 0 0 8 4\n\
                clock 0x415e848000000000 0x415e848000000000 1 1 1 1 1 1 16\n\
                pin 0 1 0 0 0 0 0 24 4\n\
                pin 0 1 0 0 0 0 0 32 4\n";
    let list = list.replace(" 1 0 0 16\n", " 1 0 1 2 32 4 1 3 0 0 16\n");
    let d = fed(&["wave", "-", "-o", "-"], &list);
    assert_eq!((d.status, d.err.as_str()), (0, ""));
    let d = dump(&d.out);
    // 500 ns; 1 us and 8 cycles of 125 ns; 1 us and 16 of them.
    let times: Vec<u64> = d.changes.iter().map(|c| c.0).collect();
    assert_eq!((d.unit.as_str(), times, d.end), ("100 ns", vec![5, 20], 30));
}

/// The level by the definition: that of the pin's last entry at or before the cycle, last in the order of the calls.
fn level_at(entries: &[(u8, u8, u64)], pin: u8, cycle: u64) -> u8 {
    entries.iter().rev().find(|e| e.0 == pin && e.2 <= cycle).map_or(0, |e| e.1)
}

#[test]
fn the_levels_are_the_definitions_on_every_stored_list() {
    let mut boards = 0;
    for list in ["examples", "samples", "docs/differences"].iter().flat_map(|f| lists(f)) {
        let calls = fs::read_to_string(&list).unwrap();
        let answers = fs::read_to_string(list.with_extension("answers")).unwrap();
        // The entries of each board: a served set-up begins one.
        let mut records: Vec<Vec<(u8, u8, u64)>> = Vec::new();
        let lines = calls.lines().map(|l| l.split('#').next().unwrap().trim()).filter(|l| !l.is_empty());
        for (call, answer) in lines.zip(answers.lines()) {
            let mut words = answer.split(' ');
            if call.starts_with("setup") && words.next() == Some("0") {
                records.push(Vec::new());
            }
            if ["pilot", "record", "unrecord"].iter().any(|word| call.starts_with(word)) {
                continue; // no entries stand behind its three numbers
            }
            for word in answer.split(' ').skip(3) {
                let (pin, rest) = word.split_once(':').unwrap();
                let (level, cycle) = rest.split_once('/').unwrap().0.split_once('@').unwrap();
                records.last_mut().unwrap().push((pin.parse().unwrap(), level.parse().unwrap(), cycle.parse().unwrap()));
            }
        }
        for (i, entries) in records.iter().enumerate() {
            let board = (i + 1).to_string();
            let d = wave(&[list.to_str().unwrap(), "--unit", "cycle", "--board", &board]);
            let mut pins: Vec<u8> = entries.iter().map(|e| e.0).collect();
            pins.sort();
            pins.dedup();
            assert_eq!(d.names, pins.iter().map(|p| format!("pin{p}")).collect::<Vec<_>>(), "{}", list.display());
            let cycles = entries.iter().map(|e| e.2).flat_map(|c| [c.saturating_sub(1), c, c + 1]);
            for cycle in cycles {
                for pin in &pins {
                    let name = format!("pin{pin}");
                    let drawn = d.changes.iter().rev().find(|c| c.1 == name && c.0 <= cycle).map_or(0, |c| c.2);
                    assert_eq!(drawn, level_at(entries, *pin, cycle), "{} pin {pin} cycle {cycle}", list.display());
                }
            }
            boards += 1;
        }
        let one = run(&["wave", list.to_str().unwrap(), "-o", "-", "--unit", "cycle"]);
        assert_eq!(one.status, if records.len() == 1 { 0 } else { 1 }, "{}: {}", list.display(), one.err);
    }
    assert!(boards > 80, "{boards} boards");
}

#[test]
fn what_the_wave_lacks_is_told() {
    let d = run(&["wave", "docs/differences/match-before-entry.calls", "-o", "-"]);
    assert_eq!(d.status, 0);
    assert!(d.err.contains("an entry of pin 0 lies before one of an earlier call"), "{}", d.err);
    let d = run(&["wave", "examples/shift.calls", "-o", "-"]);
    assert_eq!(d.status, 0);
    assert!(d.err.starts_with("pilot: timer 0 has events due from cycle "), "{}", d.err);
    // Everything is delivered.
    assert_eq!(run(&["wave", "examples/pilot.calls", "-o", "-"]).err, "");
}

#[test]
fn lists_that_have_no_wave() {
    let file = scratch("none.vcd");
    let cases = [
        ("next\n", vec!["-"], "pilot: the list sets up no board\n"),
        ("next\nwhat\n", vec!["-"], "pilot: standard input: line 2: unknown word\n"),
        ("", vec!["examples/pilot.calls", "--board", "2"], "pilot: --board 2: the list sets up 1\n"),
        ("", vec!["examples/pilot.calls", "--name", "1=x"], "pilot: --name 1=..: the board's last pin is 0\n"),
    ];
    for (input, words, told) in cases {
        let mut all = vec!["wave", "-o", file.to_str().unwrap()];
        all.extend(words);
        let d = fed(&all, input);
        assert_eq!((d.status, d.err.as_str()), (1, told));
        assert!(!file.exists(), "no file is begun");
    }
    let d = run(&["wave", "examples/pilot.calls", "-o", "no/such/folder.vcd"]);
    assert_eq!(d.status, 1);
    assert!(d.err.starts_with("pilot: no/such/folder.vcd: "), "{}", d.err);
}
