//! Call lists written with their answers behind `#`.
#![allow(dead_code)]

/// The output lines for a call list.
pub fn play(list: &str) -> Vec<String> {
    let mut out = Vec::new();
    oracle::run(list.as_bytes(), &mut out).unwrap();
    String::from_utf8(out).unwrap().lines().map(str::to_string).collect()
}

/// Plays a list; every call that carries `# ANSWER` must get it. `# N` alone asks for the number only.
pub fn expect(list: &str) {
    let calls: Vec<&str> = list.lines().filter(|l| !l.split('#').next().unwrap().trim().is_empty()).collect();
    let answers = play(list);
    assert_eq!(answers.len(), calls.len(), "{answers:#?}");
    for (call, answer) in calls.iter().zip(&answers) {
        let Some((_, wanted)) = call.split_once('#') else { continue };
        let wanted = wanted.trim();
        let given = if wanted.contains(' ') { answer } else { answer.split(' ').next().unwrap() };
        assert_eq!(given, wanted, "{call}");
    }
}

/// A board of 16 MHz and 5 volts: 2 pins, 8 lines, timer 2 of 32 bits with 4 channels, its gate open.
/// Pin 0 has channel 0 at function 1.
pub const BOARD: &str = "setup 0x416e848000000000 0x4014000000000000 2 8 1 2 32 4 1 3 0 5 32 1 194 # 0
enable 3 1 # 0
";

/// `BOARD`, reload 9 and what is put in, to be started with CR1.
pub fn with(list: &str) -> String {
    format!("{BOARD}write 0 0x2c 4 9 0 4 # 0\n{list}")
}

/// The numbers that each call can give, all of which the lists have to show.
pub const NUMBERS: [(&str, &[u8]); 18] = [
    ("setup", &[0, 1, 4]),
    ("clock", &[0, 4, 5]),
    ("enable", &[0, 2]),
    ("pin", &[0, 2, 5, 6, 11]),
    ("drive", &[0, 2, 5, 6]),
    ("reset-pins", &[0, 5, 6]),
    ("read", &[0, 2, 3, 5]),
    ("write", &[0, 2, 3, 5, 6, 7]),
    ("peek", &[0, 2, 5]),
    ("reset", &[0, 2, 5, 6]),
    ("deliver", &[0, 2, 5, 6, 8]),
    ("booked", &[0, 2]),
    ("next", &[0]),
    ("level", &[0, 2]),
    ("volts", &[0, 2]),
    ("line", &[0]),
    ("time", &[0, 5]),
    ("clear", &[0]),
];
