//! `pilot duty`: F-1's figures in words.

mod common;

use std::fs;

use common::{fed, run};

#[test]
fn the_examples_shift() {
    let d = run(&["duty", "examples/shift.calls", "--from", "16000", "--to", "976000"]);
    assert_eq!(d.status, 0, "{}", d.err);
    assert_eq!(
        d.out,
        "cycles 16000 to 976000: 960000 cycles, 0 pins high at the end\n\
         pin    high     low  edges  duty  percent\n\
         \x20 0  288000  672000    119  3/10  30.0000\n"
    );
    // The list leaves a backlog, but behind this shift.
    assert_eq!(d.err, "");
    // The gate has these figures of the proved program.
    let stored = fs::read_to_string(common::root().join("examples/shift.report")).unwrap();
    assert!(stored.contains("\n0 288000 672000 119\n") || stored.starts_with("0 288000 672000 119\n"));
}

#[test]
fn as_values_for_a_table() {
    let d = run(&["duty", "examples/pilot.calls", "--from", "110", "--to", "140", "--csv"]);
    assert_eq!((d.status, d.err.as_str()), (0, ""));
    assert_eq!(d.out, "pin,high,low,cycles,edges,percent\n0,9,21,30,5,30.0000\n");
    let d = run(&["duty", "examples/pilot.calls", "--from", "110", "--to", "110", "--csv"]);
    assert_eq!((d.status, d.out.as_str()), (0, "pin,high,low,cycles,edges,percent\n0,0,0,0,0,\n"));
}

#[test]
fn pins_that_are_asked_for() {
    // Two pins, of which the second never changes.
    let list = "setup 0x416e848000000000 0x400a666666666666 2 0 1 2 32 4 1 3 0 0 32\npin 0 1 0 1 0 0 0 10 4\n";
    let duty = |words: &[&str]| fed(&[&["duty", "-", "--from", "0", "--to", "40", "--csv"], words].concat(), list);
    let head = "pin,high,low,cycles,edges,percent\n";
    assert_eq!(duty(&[]).out, format!("{head}0,30,10,40,1,75.0000\n"));
    assert_eq!(duty(&["--pin", "1"]).out, format!("{head}1,0,40,40,0,0.0000\n"));
    assert_eq!(duty(&["--pin", "1", "--pin=0"]).out, format!("{head}0,30,10,40,1,75.0000\n1,0,40,40,0,0.0000\n"));
    let d = duty(&["--pin", "2"]);
    assert_eq!((d.status, d.err.as_str()), (1, "pilot: --pin 2: the board's last pin is 1\n"));
    assert_eq!(duty(&["--pin", "128"]).status, 2);
}

#[test]
fn refusals_in_words() {
    let d = run(&["duty", "examples/pilot.calls", "--from", "140", "--to", "110"]);
    assert_eq!((d.status, d.out.as_str()), (1, ""));
    assert_eq!(d.err, "pilot: shift reversed: --to 110 is below --from 140\n");
    for name in ["entry-before-delivery", "match-before-entry", "reload-before-write", "match-before-clock"] {
        let list = format!("docs/differences/{name}.calls");
        let d = run(&["duty", &list, "--from", "0", "--to", "1000"]);
        assert_eq!((d.status, d.out.as_str()), (1, ""), "{name}");
        assert!(d.err.starts_with("pilot: book out of order: line "), "{name}: {}", d.err);
        assert!(d.err.contains("an entry of pin 0 at cycle"), "{name}: {}", d.err);
        // Reversed comes first.
        let d = run(&["duty", &list, "--from", "1000", "--to", "0"]);
        assert!(d.err.starts_with("pilot: shift reversed"), "{name}");
    }
}

#[test]
fn another_pin_out_of_order_does_not_matter_to_the_pins_asked_for() {
    // The list's board gets a second pin, which is set by hand.
    let list = fs::read_to_string(common::root().join("docs/differences/entry-before-delivery.calls")).unwrap();
    let (one, two) = ("1 8 1 2 32 1 1 3 0 5 16 1 194", "2 8 1 2 32 1 1 3 0 5 32 1 194");
    assert!(list.contains(one), "{list}");
    let list = list.replace(one, two) + "pin 1 1 0 1 0 0 0 500 4\n";
    let words = ["duty", "-", "--from", "0", "--to", "1000", "--csv"];
    assert_eq!(fed(&words, &list).status, 1);
    let d = fed(&[&words[..], &["--pin", "1"]].concat(), &list);
    assert_eq!((d.status, d.out.as_str()), (0, "pin,high,low,cycles,edges,percent\n1,500,500,1000,1,50.0000\n"));
}

#[test]
fn what_is_not_delivered_is_told() {
    let told = |to: &str| run(&["duty", "examples/pilot.calls", "--from", "100", "--to", to]).err;
    assert_eq!(told("143"), "");
    assert_eq!(told("144"), "pilot: timer 0 has events due from cycle 143 on that the list does not deliver: the figures lack them\n");
    // A delivery that stopped is booked for its own cycle: what it left due lies behind its last entry.
    let d = run(&["duty", "examples/shift.calls", "--from", "0", "--to", "100000000"]);
    assert!(d.err.starts_with("pilot: timer 0 has events due from cycle 1"), "{}", d.err);
}

#[test]
fn boards_are_told_apart() {
    let one = fs::read_to_string(common::root().join("examples/pilot.calls")).unwrap();
    let two = format!("{one}{}", one.replace("write 0 0x34 4 3 0 4", "write 0 0x34 4 4 0 4"));
    let duty = |words: &[&str]| fed(&[&["duty", "-", "--from", "110", "--to", "140", "--csv"], words].concat(), &two);
    let d = duty(&[]);
    assert_eq!((d.status, d.out.as_str()), (1, ""));
    assert!(d.err.contains("a second set-up"), "{}", d.err);
    assert!(duty(&["--board", "1"]).out.ends_with("\n0,9,21,30,5,30.0000\n"));
    assert!(duty(&["--board", "2"]).out.ends_with("\n0,12,18,30,5,40.0000\n"));
    assert_eq!((duty(&["--board", "3"]).status, duty(&["--board", "0"]).status), (1, 2));
}
