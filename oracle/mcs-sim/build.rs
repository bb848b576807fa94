//! Cuts the two lane functions out of periph/mod.rs (the rest of that file builds a whole machine) and
//! makes the copy of tim.rs with the marked additions. Every cut and every addition must find its place
//! exactly once, else the build stops.

use std::path::{Path, PathBuf};
use std::{env, fs};

const PERIPH: &str = "../../docs/src/crates/mcs-sim/src/arm/periph";

/// Added before the line that counts an event: the event is due by then, and nothing of it has happened.
const COUNT: &str = "            guard += 1;\n";
const STOP: &str = "            if crate::seen::full(cx.sys.changed.len()) { break; } // added: the stop for places\n";

/// Added between the loop of `run_events` and what follows it.
const AFTER: &str = "        self.update_irq(cx);\n        self.reschedule(cx);\n    }\n";
const HANDLED: &str = "        crate::seen::handled(guard as u64); // added: the number of events handled\n";

/// Added where a running counter is counted on, synchronized and asked for its next event: document 02's block by a reload of 0.
const COUNTS: &str = "        let ticks = c.saturating_sub(self.base) / self.tick;\n";
const KEEPS: &str = "        if crate::seen::blocks(self.arr_act) { return self.cnt0; } // added: blocked, its number stays\n";
const SYNCS: &str = "            let ticks = now.saturating_sub(self.base) / self.tick;\n";
const WAITS: &str = "            if crate::seen::blocks(self.arr_act) { self.base = now; return; } // added: blocked, no part of a step is kept\n";
const SEEKS: &str = "        let steps_to_update = if down {";
const NONE: &str = "        if crate::seen::blocks(self.arr_act) { return None; } // added: blocked, no event comes\n";

/// Added at the end of `update_event`: in document 02's manual mode UDIS goes before one-pulse.
const ENDS: &str = "        if self.cr1 & OPM != 0 {\n            self.running = false;\n";
const GOES_ON: &str = "        if crate::seen::is_manual() && self.cr1 & UDIS != 0 { return; } // added: no update event, so no pulse ends\n";

/// Added at the end of the file.
const VIEW: &str = "
impl Timer { // added: a view of the private fields, and manual mode
    pub fn seen(&self, now: u64) -> crate::seen::View { // added: for refusal 7 and for aiming random calls
        crate::seen::View { running: self.running, down: self.down(), counter: self.cnt_at(now), reload: self.arr_act, cr1: self.cr1, max: self.max(), channels: self.channels, base: self.base, tick: self.tick, compare: self.ccr_act } // added: copies
    } // added
    pub fn due(&self) -> Option<u64> { self.next_event().map(|(at, _)| at) } // added: the next event's own cycle, for document 02's why
    pub fn clear_cen(&mut self) { self.cr1 &= !CEN; } // added: document 02's end of a pulse, called in manual mode alone
} // added
";

fn main() {
    let root = PathBuf::from(env::var("CARGO_MANIFEST_DIR").unwrap()).join(PERIPH);
    let out = PathBuf::from(env::var("OUT_DIR").unwrap());
    println!("cargo:rerun-if-changed=build.rs");

    let periph = read(&root.join("mod.rs"));
    let lanes = function(&periph, "lane_read") + &function(&periph, "lane_write");
    fs::write(out.join("lanes.rs"), lanes).unwrap();

    let tim = read(&root.join("tim.rs"));
    let tim = before(&tim, COUNT, STOP);
    let tim = before(&tim, AFTER, HANDLED);
    let tim = before(&tim, COUNTS, KEEPS);
    let tim = before(&tim, SYNCS, WAITS);
    let tim = before(&tim, SEEKS, NONE);
    let tim = before(&tim, ENDS, GOES_ON);
    // Wrapped in its module, because the file's `//!` lines may only open one.
    fs::write(out.join("tim.rs"), format!("pub mod tim {{ // added: a module of its own\n{tim}{VIEW}}} // added\n")).unwrap();
}

fn read(path: &Path) -> String {
    println!("cargo:rerun-if-changed={}", path.display());
    fs::read_to_string(path).unwrap_or_else(|e| panic!("{}: {e}", path.display()))
}

fn place(text: &str, mark: &str) -> usize {
    assert_eq!(text.matches(mark).count(), 1, "{mark:?} must stand in the source exactly once");
    text.find(mark).unwrap()
}

/// The text of the function `name`, up to the brace in column 0 that ends it.
fn function(text: &str, name: &str) -> String {
    let start = place(text, &format!("#[inline]\npub(crate) fn {name}("));
    let end = text[start..].find("\n}\n").unwrap_or_else(|| panic!("{name} has no end")) + 3;
    text[start..start + end].to_string()
}

fn before(text: &str, mark: &str, added: &str) -> String {
    let at = place(text, mark);
    format!("{}{added}{}", &text[..at], &text[at..])
}
