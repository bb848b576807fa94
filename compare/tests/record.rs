//! Records (document 02, F-10) against a reader and a writer written once more (oracle/src/record.rs): every single-byte change of a good record, every cut, random
//! bytes, and the writer at every limit. What reads has to be what would be written.

use compare::port::{read_record, write_record};
use oracle::record::{self, Fields};
use oracle::rng::Rng;

/// What was met, by number.
#[derive(Default)]
struct Met([u64; 16]);

impl Met {
    /// Both readers of the library beside the oracle's, and what read written again.
    fn read(&mut self, bytes: &[u8]) {
        for latest in [1, 2] {
            let port = read_record(bytes, latest);
            assert_eq!(port, record::read(bytes, latest), "{bytes:?} by the reader up to kind {latest}");
            self.0[port.map_or_else(usize::from, |_| 0)] += 1;
            if let Ok((timer, count)) = port {
                assert_eq!(write_record(&timer, count as u64).as_deref(), Ok(&bytes[..count]), "{bytes:?} reads as {timer:?}");
            }
        }
    }

    fn write(&mut self, timer: &Fields, places: u64) {
        let port = write_record(timer, places);
        assert_eq!(port, record::write(timer, places), "{timer:?} with {places} places");
        self.0[port.as_ref().map_or_else(|&n| usize::from(n), |_| 0)] += 1;
        if let Ok(bytes) = port {
            let mut mode = *timer;
            mode[7] = (timer[7] != 0).into();
            assert_eq!(read_record(&bytes, 2), Ok((mode, bytes.len())));
        }
    }

    /// Each of these numbers came, and no other.
    fn only(&self, numbers: &[usize]) {
        for (number, &times) in self.0.iter().enumerate() {
            assert_eq!(times > 0, numbers.contains(&number), "{number} was given {times} times");
        }
    }
}

const LEAST: Fields = [1, 16, 0, 1, 0, 0, 0, 0];
const MOST: Fields = [24, 32, 4, 4, 8, 31, u32::MAX as u64, 1];

fn good(rng: &mut Rng) -> Fields {
    let mut timer = [0; 8];
    for (i, field) in timer.iter_mut().enumerate() {
        *field = LEAST[i] + rng.word() % (MOST[i] - LEAST[i] + 1);
    }
    timer[1] = if timer[1] < 24 { 16 } else { 32 };
    timer
}

#[test]
fn every_byte_of_a_record_changed() {
    let mut met = Met::default();
    let mut rng = Rng::new(10);
    let mut timers = vec![LEAST, MOST];
    timers.extend((0..40).map(|_| good(&mut rng)));
    for timer in timers {
        let bytes = record::write(&timer, 99).unwrap();
        for i in 0..bytes.len() {
            for value in 0..=255 {
                let mut changed = bytes.clone();
                changed[i] = value;
                met.read(&changed);
            }
        }
    }
    met.only(&[0, 1, 13, 14, 15]);
}

#[test]
fn every_cut_and_every_length() {
    let mut met = Met::default();
    for timer in [LEAST, MOST] {
        let mut bytes = record::write(&timer, 99).unwrap();
        for n in 0..=bytes.len() {
            met.read(&bytes[..n]);
        }
        // Every length and every kind, with as many bytes as are asked for, one fewer, and a few more.
        bytes.resize(80, 7);
        for length in 0..70u16 {
            for kind in (0..5).chain([256, 257, 258, 512, u16::MAX]) {
                bytes[..2].copy_from_slice(&length.to_le_bytes());
                bytes[2..4].copy_from_slice(&kind.to_le_bytes());
                for n in (1..=9).map(|n| length as usize + n) {
                    met.read(&bytes[..n]);
                }
            }
        }
    }
    // The longest length there is, whole and one byte short.
    let mut bytes = vec![0xff; 65_537];
    met.read(&bytes);
    met.read(&bytes[..65_536]);
    bytes[2..4].copy_from_slice(&[1, 0]);
    met.read(&bytes);
    met.only(&[0, 1, 13, 14, 15]);
}

#[test]
fn random_bytes() {
    let mut met = Met::default();
    let mut rng = Rng::new(11);
    for _ in 0..2_000_000 {
        let n = rng.small(24) as usize;
        let mut bytes: Vec<u8> = (0..n).map(|_| rng.word() as u8).collect();
        // Mostly with a head that lets the rest be looked at, and small bytes.
        if n >= 4 && !rng.one_in(8) {
            bytes[..4].copy_from_slice(&[12 + rng.small(2) as u8, 0, 1 + rng.small(2) as u8, 0]);
            if rng.one_in(2) {
                bytes[4..].iter_mut().for_each(|b| *b %= 34);
            }
            if n > 5 && rng.one_in(2) {
                bytes[5] = 32;
            }
            if n > 14 && rng.one_in(2) {
                bytes[14] = 1;
            }
        }
        met.read(&bytes);
    }
    met.only(&[0, 1, 13, 14, 15]);
}

#[test]
fn the_writer() {
    let mut met = Met::default();
    let mut rng = Rng::new(12);
    let edges = [0, 1, 2, 4, 5, 8, 9, 15, 16, 17, 24, 25, 31, 32, 33, 255, 256, 257, 1 << 32, (1 << 32) - 1, (1 << 32) + 2, u64::MAX];
    for _ in 0..20_000 {
        let mut timer = good(&mut rng);
        timer[7] = rng.pick(&[0, 0, 1, 2, u64::MAX]);
        for places in (0..20).chain([64, u64::MAX]) {
            met.write(&timer, places);
        }
        let i = rng.small(8) as usize;
        timer[i] = rng.pick(&edges);
        met.write(&timer, 14 + u64::from(rng.small(2)));
    }
    for manual in [0, 1] {
        for i in 0..7 {
            for value in (0..600).chain(edges) {
                let mut timer = [2, 32, 4, 1, 3, 0, 5, manual];
                timer[i] = value;
                met.write(&timer, 15);
            }
        }
    }
    met.only(&[0, 1, 13]);
}
