//! The figures that the definitions of crates/rm0440 are computed to give (proofs/Figures), of the machine that is run.

use oracle::silicon::{cases, Rules, Timer, ARR, CCER, CCMR1, CCR1, CNT, CR1, EGR, PSC, SR};

const MANUAL: Rules = Rules::manual();
const RUST: Rules = Rules::rust();

/// TIM3 out of reset: 16 bits, four channels.
fn fresh() -> Timer {
    Timer::reset(4, 0xffff)
}

fn write(r: Rules, mut t: Timer, writes: &[(usize, u64)]) -> Timer {
    writes.iter().for_each(|&(i, v)| t.write(&r, i, v, &mut |_: &Timer, _| {}));
    t
}

fn clock(r: Rules, mut t: Timer) -> Timer {
    t.clock(&r, &mut |_: &Timer, _| {});
    t
}

/// ARR, CCR1, CNT, CCMR1 (mode), CCER, then CR1.
fn pilot(r: Rules, arr: u64, ccr: u64, cnt: u64, ccmr: u64, cr1: u64) -> Timer {
    write(r, fresh(), &[(ARR, arr), (CNT, cnt), (CCR1, ccr), (CCMR1, ccmr), (CCER, 1), (SR, 0), (CR1, cr1)])
}

/// What is seen of a timer over `n` clocks, from now on.
fn over(r: Rules, f: impl Fn(&Timer) -> u64, n: usize, t: Timer) -> Vec<u64> {
    std::iter::successors(Some(t), |&t| Some(clock(r, t))).take(n).map(|t| f(&t)).collect()
}

fn out(t: &Timer) -> u64 {
    t.level(0) as u64
}

fn cnt(t: &Timer) -> u64 {
    t.cnt
}

/// UIF and CC1IF.
fn sr(t: &Timer) -> u64 {
    t.sr & 3
}

fn cr1(t: &Timer) -> u64 {
    t.cr1
}

#[test]
fn pilots() {
    // PWM mode 1 upward, reload 9, compare 3: by the manual one clock late (start-delay), by the Rust not.
    let late = [1, 1, 1, 1, 0, 0, 0, 0, 0, 0, 0, 1, 1, 1, 0, 0, 0, 0, 0, 0, 0, 1, 1, 1, 0];
    assert_eq!(over(MANUAL, out, 25, pilot(MANUAL, 9, 3, 0, 0x60, 1)), late);
    assert_eq!(over(RUST, out, 24, pilot(RUST, 9, 3, 0, 0x60, 1)), late[1..]);
    // Once started, a pilot is outside every case: both rules give the same levels.
    assert_eq!(over(MANUAL, out, 24, pilot(RUST, 9, 3, 0, 0x60, 1)), late[1..]);
    // Downward from 4, reload 9; its SR with compare 2: CC1IF, then UIF too.
    assert_eq!(over(RUST, cnt, 8, pilot(RUST, 9, 2, 4, 0x60, 0x11)), [4, 3, 2, 1, 0, 9, 8, 7]);
    assert_eq!(over(RUST, sr, 8, pilot(RUST, 9, 2, 4, 0x60, 0x11)), [0, 0, 2, 2, 2, 3, 3, 3]);
    // Each channel has its own flag.
    let four = write(RUST, fresh(), &[(CCR1, 1), (CCR1 + 1, 2), (CCR1 + 2, 3), (CCR1 + 3, 4), (CR1, 1)]);
    assert_eq!(over(RUST, |t| t.read(&RUST, SR), 6, four), [0, 2, 6, 14, 30, 30]);
}

#[test]
fn one_pulse() {
    // Reload 2: by the manual CEN falls and the counter stands; by the Rust CEN stays; under UDIS the manual goes on.
    assert_eq!(over(MANUAL, cr1, 6, pilot(MANUAL, 2, 9, 0, 0, 9)), [9, 9, 9, 9, 8, 8]);
    assert_eq!(over(MANUAL, cnt, 7, pilot(MANUAL, 2, 9, 0, 0, 9)), [0, 0, 1, 2, 0, 0, 0]);
    assert_eq!(over(RUST, cr1, 6, pilot(RUST, 2, 9, 0, 0, 9)), [9; 6]);
    assert_eq!(over(RUST, cnt, 7, pilot(RUST, 2, 9, 0, 0, 9)), [0, 1, 2, 0, 0, 0, 0]);
    assert_eq!(over(MANUAL, cnt, 7, pilot(MANUAL, 2, 9, 0, 0, 11)), [0, 0, 1, 2, 0, 1, 2]);
}

#[test]
fn centre_aligned() {
    let t = pilot(MANUAL, 4, 2, 0, 0x60, 0x61);
    assert_eq!(over(MANUAL, cnt, 20, t), [0, 0, 1, 2, 3, 4, 3, 2, 1, 0, 1, 2, 3, 4, 3, 2, 1, 0, 1, 2]);
    assert_eq!(over(MANUAL, |t| t.down() as u64, 11, t), [0, 0, 0, 0, 0, 1, 1, 1, 1, 0, 0]);
    assert_eq!(over(MANUAL, out, 20, t), [1, 1, 1, 0, 0, 0, 0, 1, 1, 1, 1, 0, 0, 0, 0, 1, 1, 1, 1, 0]);
    // CMS 1 flags compare 2 on the way down, CMS 2 on the way up; UIF at each turn.
    assert_eq!(over(MANUAL, sr, 10, pilot(MANUAL, 4, 2, 0, 0x60, 0x21)), [0, 0, 0, 0, 0, 1, 1, 3, 3, 3]);
    assert_eq!(over(MANUAL, sr, 10, pilot(MANUAL, 4, 2, 0, 0x60, 0x41)), [0, 0, 0, 2, 2, 3, 3, 3, 3, 3]);
    // Toggle mode with CMS 1: every match acts on the output, those on the way down alone set the flag.
    assert_eq!(over(MANUAL, out, 12, pilot(MANUAL, 4, 2, 0, 0x30, 0x21)), [0, 0, 0, 1, 1, 1, 1, 0, 0, 0, 0, 1]);
    assert_eq!(over(MANUAL, sr, 8, pilot(MANUAL, 4, 2, 0, 0x30, 0x21)), [0, 0, 0, 0, 0, 1, 1, 3]);
    // At the overflow the counter takes the reload just loaded.
    let loads = write(MANUAL, pilot(MANUAL, 4, 2, 0, 0x60, 0xe1), &[(ARR, 6)]);
    assert_eq!(over(MANUAL, cnt, 12, loads), [0, 0, 1, 2, 3, 6, 5, 4, 3, 2, 1, 0]);
}

#[test]
fn reloads() {
    // Reload 0: blocked by the manual; by the Rust an update at each step.
    assert_eq!(over(MANUAL, sr, 4, pilot(MANUAL, 0, 9, 0, 0, 1)), [0; 4]);
    assert_eq!(over(RUST, sr, 4, pilot(RUST, 0, 9, 0, 0, 1)), [0, 1, 1, 1]);
    // Counter 6 above the reload 4 counts on; the Rust serves 5 and wraps at once.
    assert_eq!(over(MANUAL, cnt, 4, pilot(MANUAL, 4, 9, 6, 0, 1)), [6, 6, 7, 8]);
    assert_eq!(over(RUST, cnt, 4, pilot(RUST, 4, 9, 5, 0, 1)), [0, 1, 2, 3]);
    // UG under UDIS: the manual keeps the reload in use, the Rust loads the written one (ARPE set first).
    let under = |r| write(r, fresh(), &[(CR1, 0x82), (ARR, 7), (EGR, 1)]);
    assert_eq!((under(MANUAL).arr, under(RUST).arr, under(MANUAL).read(&MANUAL, ARR)), (0xffff, 7, 7));
    // Preload: PSC, ARR with ARPE and CCR1 with OC1PE act at the next update; without, ARR and CCR1 at once.
    for (cr1, ccmr, before) in [(0x80, 8, (0, 4, 3)), (0, 0, (0, 6, 1))] {
        let t = write(RUST, fresh(), &[(ARR, 4), (CCR1, 3), (CR1, cr1), (CCMR1, ccmr), (PSC, 2), (ARR, 6), (CCR1, 1)]);
        assert_eq!((t.psc, t.arr, t.ccr[0]), before);
        let t = write(RUST, t, &[(EGR, 1)]);
        assert_eq!((t.psc, t.arr, t.ccr[0]), (2, 6, 1));
    }
}

#[test]
fn part_steps() {
    // A step of 3 clocks: UG inside one begins a whole step; CNT written there does not, by the Rust it does.
    let slow = |r| clock(r, write(RUST, fresh(), &[(PSC, 2), (EGR, 1), (CR1, 1)]));
    assert_eq!(over(RUST, cnt, 5, write(RUST, slow(RUST), &[(EGR, 1)])), [0, 0, 0, 1, 1]);
    assert_eq!(over(MANUAL, cnt, 5, write(MANUAL, slow(MANUAL), &[(CNT, 0)])), [0, 0, 1, 1, 1]);
    assert_eq!(over(RUST, cnt, 5, write(RUST, slow(RUST), &[(CNT, 0)])), [0, 0, 0, 1, 1]);
    // A stop inside one and a start: the manual goes on where it was, and the Rust begins a whole step.
    let again = |r| write(r, slow(r), &[(CR1, 0), (CR1, 1)]);
    assert_eq!(over(MANUAL, cnt, 5, again(MANUAL)), [0, 0, 0, 1, 1]);
    assert_eq!(over(RUST, cnt, 5, again(RUST)), [0, 0, 0, 1, 1]);
    assert_eq!(over(Rules { start_delay: false, ..MANUAL }, cnt, 4, again(Rules { start_delay: false, ..MANUAL })), [0, 0, 1, 1]);
}

/// The rules' names are the fields of the definition's record, but for two that are only here, and lines of docs/DIFFERENCES.md.
#[test]
fn names() {
    let root = std::path::Path::new(env!("CARGO_MANIFEST_DIR")).join("..");
    let page = std::fs::read_to_string(root.join("docs/DIFFERENCES.md")).unwrap();
    for name in cases::NAMES.iter().chain(Rules::NAMES) {
        assert!(page.contains(&format!("\n| `{name}` |")), "{name} is no line");
    }
    let Ok(record) = std::fs::read_to_string(root.join("crates/rm0440/specs/Rules.antt")) else { return };
    let fields: Vec<&str> = record.lines().filter_map(|l| l.strip_prefix("  pub ")?.strip_suffix(" : Bool")).collect();
    assert!(fields.iter().all(|f| Rules::NAMES.contains(f)), "{fields:?}");
    let only_here = |n: &&&str| !fields.contains(*n) && !["clamp-down", "ccs-locked"].contains(*n);
    assert_eq!(Rules::NAMES.iter().find(only_here), None, "no field of the record");
}
