//! `pilot new`: the list makes the pilot that was asked for, by the board's own answers.

mod common;

use common::{fed, run, Done};

fn new(words: &str) -> Done {
    let mut all = vec!["new"];
    all.extend(words.split(' '));
    run(&all)
}

/// All answers are 0.
fn served(list: &str) -> String {
    let d = fed(&["run", "-"], list);
    assert_eq!((d.status, d.err.as_str()), (0, ""));
    assert!(d.out.lines().all(|a| a.starts_with("0 ")), "{}", d.out);
    d.out
}

fn csv(list: &str, pin: &str, from: u64, to: u64) -> String {
    let d = fed(&["duty", "-", "--from", &from.to_string(), "--to", &to.to_string(), "--pin", pin, "--csv"], list);
    assert_eq!((d.status, d.err.as_str()), (0, ""));
    d.out.lines().last().unwrap().to_string()
}

#[test]
fn a_first_pilot() {
    let d = new("--clock 16MHz --frequency 1kHz --duty 30% --pin 0");
    assert_eq!((d.status, d.err.as_str()), (0, ""));
    let answers = served(&d.out);
    assert!(answers.contains(" 0:0@4800/1 0:1@16000/1\n"), "{answers}");
    assert!(answers.ends_with(" 0:0@148800/1 0:1@160000/1\n0 3 0\n"), "{answers}");
    assert_eq!(csv(&d.out, "0", 0, 160_000), "0,48000,112000,160000,19,30.0000");
}

#[test]
fn every_timer_and_channel() {
    for timer in 2..=4 {
        for channel in 1..=4 {
            for pin in ["0", "1", "127"] {
                let d = new(&format!("--clock 170MHz --frequency 1kHz --duty 12.5% --pin {pin} --timer {timer} --channel {channel} --seconds 0.01"));
                assert_eq!((d.status, d.err.as_str()), (0, ""));
                served(&d.out);
                // A start drives no pin: it may go up with the first update.
                assert_eq!(csv(&d.out, pin, 170_000, 1_700_000), format!("{pin},191250,1338750,1530000,17,12.5000"));
            }
        }
    }
}

#[test]
fn always_low_and_always_high() {
    for (duty, high, percent) in [("0%", 0, "0.0000"), ("100%", 144_000, "100.0000")] {
        let d = new(&format!("--clock 16MHz --frequency 1kHz --duty {duty} --pin 3"));
        assert_eq!(d.err, "");
        served(&d.out);
        assert_eq!(csv(&d.out, "3", 16_000, 160_000), format!("3,{high},{},144000,0,{percent}", 144_000 - high));
    }
}

#[test]
fn a_long_one_in_few_lines() {
    let d = new("--clock 16MHz --frequency 1kHz --duty 30% --pin 0 --seconds 60");
    assert!(d.out.lines().count() < 120, "{}", d.out.lines().count());
    served(&d.out);
    assert_eq!(csv(&d.out, "0", 0, 960_000_000), "0,288000000,672000000,960000000,119999,30.0000");
}

#[test]
fn what_is_not_exact_is_told_and_the_list_is_written() {
    let d = new("--clock 16MHz --frequency 3kHz --duty 30% --pin 0");
    assert_eq!(d.status, 0);
    assert!(d.err.contains("3 kHz is not exact") && d.err.contains("30 % is not exact"), "{}", d.err);
    served(&d.out);
    assert_eq!(csv(&d.out, "0", 5333, 53_330), "0,14400,33597,47997,17,30.0019");
}
