//! A timer's settings as records (document 02, F-10): what the crate says of a refusal beside the number, and files of records.

use board::{Board, Error, Limit, Records, Setting, Setup, TimerSpec, RECORD};

fn wrong(setting: Setting) -> Result<(TimerSpec, usize), Error> {
    Err(Error::WrongBoard(Limit::Record(setting)))
}

/// Timers at the ends of each setting, in both modes.
fn timers() -> Vec<TimerSpec> {
    let mut all = Vec::new();
    for number in [1, 2, 24] {
        for width in [16, 32] {
            for channels in 0..=4 {
                for bus in 1..=4 {
                    for (word, bit) in [(0, 0), (3, 17), (8, 31)] {
                        for irq in [0, 1, 0x0403_0201, u32::MAX] {
                            for manual in [false, true] {
                                all.push(TimerSpec { number, width, channels, bus, word, bit, irq, manual });
                            }
                        }
                    }
                }
            }
        }
    }
    all
}

#[test]
fn what_is_written_reads_back() {
    let mut file = Vec::new();
    for timer in timers() {
        let record = timer.to_record().unwrap();
        assert_eq!(record.len(), if timer.manual { RECORD } else { 14 });
        assert_eq!(TimerSpec::from_record(&record), Ok((timer, record.len())));
        let old = if timer.manual { Err(Error::StrangeKind { kind: 2 }) } else { Ok((timer, 14)) };
        assert_eq!(TimerSpec::from_record_kind_1(&record), old);
        file.extend(record);
    }
    assert_eq!(TimerSpec::records(&file).collect::<Result<Vec<_>, _>>(), Ok(timers()));
}

/// What was read can be set up, and the board's timers are those that were stored.
#[test]
fn what_is_read_can_be_set_up() {
    let mut setup = Setup::example();
    setup.timers[1].manual = true;
    let file: Vec<u8> = setup.timers.iter().flat_map(|t| t.to_record().unwrap()).collect();
    let again = Setup { timers: TimerSpec::records(&file).map(Result::unwrap).collect(), ..setup.clone() };
    assert_eq!(again, setup);
    Board::new(64).set_up(&again).unwrap();
}

/// Every timer that a board takes can be written, but for its bus; and no other.
#[test]
fn what_can_be_written_is_what_can_be_set_up() {
    let mut tried = [0; 2];
    for (i, most) in [30, 40, 6, 6, 10, 34].into_iter().enumerate() {
        for value in (0..=most).chain([255, 256, 258, u32::MAX]) {
            let mut timer = TimerSpec::new(2).enable(3, 0);
            *[&mut timer.number, &mut timer.width, &mut timer.channels, &mut timer.bus, &mut timer.word, &mut timer.bit][i] = value;
            let mut setup = Setup { timers: vec![timer], ..Setup::new(16e6, 3.3) };
            setup.add_pin(&[]);
            let taken = Board::new(4).set_up(&setup).is_ok();
            assert_eq!(timer.to_record().is_ok(), taken && (1..=4).contains(&timer.bus), "{timer:?}");
            tried[usize::from(taken)] += 1;
        }
    }
    assert!(tried[0] > 50 && tried[1] > 50, "{tried:?}");
}

#[test]
fn each_refusal_says_what_it_is_about() {
    let record = TimerSpec::new(2).irq(5).to_record().unwrap();
    let manual = TimerSpec::new(2).irq(5).manual(true).to_record().unwrap();
    let with = |of: &[u8], i: usize, b: u8| {
        let mut bytes = of.to_vec();
        bytes[i] = b;
        TimerSpec::from_record(&bytes)
    };
    assert_eq!(TimerSpec::from_record(&[]), Err(Error::CutShort { given: 0, needed: Some(2) }));
    assert_eq!(TimerSpec::from_record(&[12]), Err(Error::CutShort { given: 1, needed: Some(2) }));
    assert_eq!(TimerSpec::from_record(&record[..13]), Err(Error::CutShort { given: 13, needed: Some(14) }));
    assert_eq!(with(&record, 0, 1), Err(Error::CutShort { given: 14, needed: None }));
    assert_eq!(with(&record, 1, 1), Err(Error::CutShort { given: 14, needed: Some(2 + 256 + 12) }));
    assert_eq!(with(&record, 3, 1), Err(Error::StrangeKind { kind: 257 }));
    assert_eq!(with(&record, 0, 11), Err(Error::WrongLength { kind: 1, length: 11 }));
    assert_eq!(with(&record, 2, 2), Err(Error::WrongLength { kind: 2, length: 12 }));
    assert_eq!(with(&manual, 14, 0), wrong(Setting::Added(0)));
    assert_eq!(with(&record, 4, 25), wrong(Setting::Number(25)));
    assert_eq!(with(&record, 5, 24), wrong(Setting::Width(24)));
    assert_eq!(with(&record, 6, 5), wrong(Setting::Channels(5)));
    assert_eq!(with(&record, 7, 4), wrong(Setting::Bus(5)));
    assert_eq!(with(&record, 8, 9), wrong(Setting::Word(9)));
    assert_eq!(with(&record, 9, 32), wrong(Setting::Bit(32)));

    // The number is the library's, and the words are the documents'.
    let told = |e: Error| (e.number(), e.word(), e.to_string());
    let cut = Error::CutShort { given: 3, needed: Some(14) };
    assert_eq!(told(cut), (13, "cut short", "cut short: 3 bytes where the record needs 14".into()));
    assert_eq!(told(Error::StrangeKind { kind: 9 }), (14, "strange kind", "strange kind: the record is of kind 9".into()));
    let long = Error::WrongLength { kind: 1, length: 13 };
    assert_eq!(told(long), (15, "wrong length", "wrong length: a record of kind 1 with length 13".into()));
    assert!([cut, Error::StrangeKind { kind: 9 }, long].iter().all(|e| e.is_refusal()));
}

/// A byte that says what no writer would have written is always refused with a reason that is known.
#[test]
fn every_changed_byte_is_told() {
    for timer in timers().iter().step_by(97) {
        let record = timer.to_record().unwrap();
        for i in 0..record.len() {
            for b in 0..=255 {
                let mut bytes = record.clone();
                bytes[i] = b;
                match TimerSpec::from_record(&bytes) {
                    Ok((read, count)) => assert_eq!(read.to_record().unwrap(), bytes[..count]),
                    Err(Error::WrongBoard(Limit::Record(_)) | Error::CutShort { .. } | Error::StrangeKind { .. } | Error::WrongLength { .. }) => {}
                    Err(e) => panic!("{bytes:?}: {e:?}"),
                }
            }
        }
    }
}

#[test]
fn a_file_of_records() {
    let (a, b) = (TimerSpec::new(2).to_record().unwrap(), TimerSpec::new(3).manual(true).to_record().unwrap());
    let read = |file: &[u8]| TimerSpec::records(file).map(|r| r.map(|t| t.number).map_err(Error::number)).collect::<Vec<_>>();
    assert_eq!(read(&[]), []);
    assert_eq!(read(&[a.as_slice(), &b, &a].concat()), [Ok(2), Ok(3), Ok(2)]);
    // What is refused for its kind, length or settings is passed over by its length; what is cut short ends the file.
    assert_eq!(read(&[a.as_slice(), &[2, 0, 9, 0], &[3, 0, 1, 0, 7], &b, &b[..14]].concat()), [Ok(2), Err(14), Err(15), Ok(3), Err(13)]);
    assert_eq!(read(&[a.as_slice(), &[0, 0], &b].concat()), [Ok(2), Err(13)]);
    let mut bad = a.clone();
    bad[4] = 0;
    assert_eq!(read(&[bad.as_slice(), &a].concat()), [Err(1), Ok(2)]);
    let mut ended: Records = TimerSpec::records(&a[..3]);
    assert_eq!((ended.next().map(|r| r.is_ok()), ended.next(), ended.next()), (Some(false), None, None));
}
