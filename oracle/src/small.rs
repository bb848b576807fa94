//! Every small pilot (document 02, F-9), written out in loops: the Rust has no such list.

/// Reload, prescaler, compare, mode, and 1 for down: "reload and prescaler from 0 to n, compare from 0 to n + 1, mode 6 or 7, direction up or
/// down", ordered "by reload, then prescaler, then compare, then mode, then up before down".
pub fn pilots(n: u32) -> Vec<[u32; 5]> {
    let mut all = Vec::new();
    for reload in 0..=n {
        for prescaler in 0..=n {
            for compare in 0..=n + 1 {
                for mode in [6, 7] {
                    for down in [0, 1] {
                        all.push([reload, prescaler, compare, mode, down]);
                    }
                }
            }
        }
    }
    all
}

/// The line of an answer.
pub fn answer(n: u32, k: u32) -> String {
    if n > 7 {
        return "12 0 0".into();
    }
    let [reload, prescaler, compare, mode, down] = pilots(n).get(k as usize).copied().unwrap_or_default();
    format!("0 0 0 {reload} {prescaler} {compare} {mode} {down}")
}
