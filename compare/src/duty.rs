//! The duty report against a counter that goes through a shift cycle by cycle: random small books, bad ones too, at once and in pieces.

use std::fmt::{self, Display, Formatter};

use board::ffi::{self, FIGURES, KEPT};
use board::{Entry, PINS};
use oracle::rng::Rng;

/// Cycles of a book are 0 to SPAN, before they are put in their place.
const SPAN: u64 = 24;

/// What a figure is before the report: a refusal must leave it.
const UNTOUCHED: u64 = 0x5bad_f00d_5bad_f00d;

/// A shift over small cycles, and where it lies: cycle c is `base` + `scale` c.
#[derive(Clone, Debug)]
pub struct Case {
    pub levels: [u32; 4],
    pub from: u64,
    pub to: u64,
    pub entries: Vec<Entry>,
    pub base: u64,
    pub scale: u64,
}

/// Number, pins that are high at the end, figures.
#[derive(Clone, Debug, PartialEq, Eq)]
pub struct Told {
    pub number: u32,
    pub high: u32,
    pub figures: [u64; FIGURES],
}

/// What the runs reached.
#[derive(Clone, Copy, Debug, Default)]
pub struct Stats {
    pub books: u64,
    pub entries: u64,
    pub edges: u64,
    /// By number: 0, 9, 10.
    pub numbers: [u64; 3],
}

/// A case that differs.
#[derive(Clone, Debug)]
pub struct Failure {
    pub seed: u64,
    pub case: Case,
    pub way: &'static str,
    pub counted: Told,
    pub reported: Told,
}

/// The book of a seed, by the counter, at once and in pieces.
pub fn book(seed: u64, stats: &mut Stats) -> Result<(), Box<Failure>> {
    let mut rng = Rng::new(seed);
    let case = Case::random(&mut rng);
    let counted = case.counted();
    stats.books += 1;
    stats.entries += case.entries.len() as u64;
    stats.numbers[(counted.number as usize).saturating_sub(8)] += 1;
    if counted.number == 0 {
        stats.edges += counted.figures.chunks(3).map(|f| f[2]).sum::<u64>();
    }
    for (way, reported) in [("at once", case.at_once(&mut rng)), ("in pieces", case.in_pieces(&mut rng))] {
        if reported != counted {
            return Err(Box::new(Failure { seed, case, way, counted, reported }));
        }
    }
    Ok(())
}

impl Case {
    pub fn random(rng: &mut Rng) -> Self {
        let (a, b) = (rng.below(SPAN + 1), rng.below(SPAN + 1));
        let (from, to) = if rng.one_in(10) { (a, b) } else { (a.min(b), a.max(b)) };
        let few = [0, 31, 32, 63, 64, 127, rng.below(128) as u8];
        let pins = 1 + rng.below(few.len() as u64) as usize;
        let bad = rng.one_in(4);
        let mut last = [0; 256];
        let entries = (0..rng.below(16)).map(|_| {
            let pin = if bad && rng.one_in(40) { rng.pick(&[128, 160, 255]) } else { rng.pick(&few[..pins]) };
            let level = if bad && rng.one_in(40) { rng.pick(&[2, 3, 255]) } else { rng.below(2) as u8 };
            let step = rng.pick(&[0, 0, 1, 1, 2, 5]);
            let at = &mut last[pin as usize];
            *at = if bad && rng.one_in(20) { rng.below(SPAN + 1) } else { (*at + step).min(SPAN) };
            Entry::new(pin, level, *at)
        });
        let entries = entries.collect();
        let levels = if rng.one_in(2) { [0; 4] } else { [(); 4].map(|()| rng.word() as u32) };
        let most = u64::MAX / SPAN;
        let any = 1 + rng.below(most);
        let scale = rng.pick(&[1, 1, 1 << 32, 1 << 57, most, any]);
        let room = u64::MAX - SPAN * scale;
        let any = rng.below(room);
        let base = rng.pick(&[0, room, room.min((1 << 62) - SPAN / 2), any]);
        Self { levels, from, to, entries, base, scale }
    }

    fn at(&self, cycle: u64) -> u64 {
        self.base + self.scale * cycle
    }

    /// Document 02's sentences, a cycle at a time.
    pub fn counted(&self) -> Told {
        let refused = |number| Told { number, high: 0, figures: [UNTOUCHED; FIGURES] };
        if self.to < self.from {
            return refused(9);
        }
        for (i, e) in self.entries.iter().enumerate() {
            let before = self.entries[..i].iter().rfind(|b| b.pin == e.pin);
            if e.pin > 127 || e.level > 1 || before.is_some_and(|b| e.cycle < b.cycle) {
                return refused(10);
            }
        }
        let mut level: [u64; PINS] = std::array::from_fn(|pin| (self.levels[pin / 32] >> (pin % 32) & 1) as u64);
        let (mut high, mut edges) = ([0; PINS], [0; PINS]);
        let last = if self.from == self.to { self.from } else { self.to - 1 };
        for cycle in 0..=last {
            for e in self.entries.iter().filter(|e| e.cycle == cycle) {
                let l = &mut level[e.pin as usize];
                if cycle > self.from && *l != e.level as u64 {
                    edges[e.pin as usize] += 1;
                }
                *l = e.level as u64;
            }
            if cycle >= self.from && cycle < self.to {
                high.iter_mut().zip(&level).for_each(|(h, l)| *h += l);
            }
        }
        let mut figures = [0; FIGURES];
        for (pin, f) in figures.chunks_mut(3).enumerate() {
            f.copy_from_slice(&[self.scale * high[pin], self.scale * (self.to - self.from - high[pin]), edges[pin]]);
        }
        Told { number: 0, high: level.iter().sum::<u64>() as u32, figures }
    }

    /// The entries from place `i` on, `n` of them, as a book whose shortest slice has `n` places: what lies behind is no entry.
    fn slices(&self, rng: &mut Rng, i: usize, n: usize) -> (Vec<u8>, Vec<u8>, Vec<u64>) {
        let part = &self.entries[i..i + n];
        let mut pins: Vec<_> = part.iter().map(|e| e.pin).collect();
        let mut levels: Vec<_> = part.iter().map(|e| e.level).collect();
        let mut cycles: Vec<_> = part.iter().map(|e| self.at(e.cycle)).collect();
        let shortest = rng.below(3);
        let mut behind = |k| if k == shortest { 0 } else { rng.below(3) as usize };
        pins.resize(n + behind(0), 200);
        levels.resize(n + behind(1), 7);
        cycles.resize(n + behind(2), 0);
        (pins, levels, cycles)
    }

    pub fn at_once(&self, rng: &mut Rng) -> Told {
        let (pins, levels, cycles) = self.slices(rng, 0, self.entries.len());
        let mut figures = [UNTOUCHED; FIGURES];
        let s = ffi::report(&mut figures, &self.levels, self.at(self.from), self.at(self.to), &pins, &levels, &cycles);
        Told { number: s.number, high: s.high, figures }
    }

    pub fn in_pieces(&self, rng: &mut Rng) -> Told {
        let mut kept = [UNTOUCHED; KEPT];
        ffi::begin(&mut kept, &self.levels, self.at(self.from), self.at(self.to));
        let mut i = 0;
        while i < self.entries.len() {
            let n = (rng.below(5) as usize).min(self.entries.len() - i);
            let (pins, levels, cycles) = self.slices(rng, i, n);
            ffi::feed(&mut kept, &pins, &levels, &cycles);
            // A report between the pieces changes nothing.
            if rng.one_in(8) {
                ffi::end(&kept, &mut [0; FIGURES]);
            }
            i += n;
        }
        let mut figures = [UNTOUCHED; FIGURES];
        let s = ffi::end(&kept, &mut figures);
        Told { number: s.number, high: s.high, figures }
    }
}

/// As the program `shifts` reads it.
impl Display for Case {
    fn fmt(&self, f: &mut Formatter) -> fmt::Result {
        let [a, b, c, d] = self.levels;
        writeln!(f, "{} {} {a} {b} {c} {d}", self.at(self.from), self.at(self.to))?;
        self.entries.iter().try_for_each(|e| writeln!(f, "{}:{}@{}", e.pin, e.level, self.at(e.cycle)))
    }
}

impl Display for Failure {
    fn fmt(&self, f: &mut Formatter) -> fmt::Result {
        writeln!(f, "seed {}, {}:\n{}", self.seed, self.way, self.case)?;
        for (name, t) in [("counted", &self.counted), ("reported", &self.reported)] {
            writeln!(f, "{name}: {} {}", t.number, t.high)?;
            for (pin, (p, q)) in self.counted.figures.chunks(3).zip(self.reported.figures.chunks(3)).enumerate() {
                if p != q {
                    let [high, low, edges] = t.figures[3 * pin..3 * pin + 3] else { continue };
                    writeln!(f, "{pin} {high} {low} {edges}")?;
                }
            }
        }
        Ok(())
    }
}
