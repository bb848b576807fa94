//! A timer's settings as bytes (document 02, F-10), once more and by another way than the port's: the body is parsed as a list of fields.

/// NUMBER WIDTH CHANNELS BUS WORD BIT IRQ MANUAL, as `record` takes them: the bus from 1.
pub type Fields = [u64; 8];

const CUT_SHORT: u8 = 13;
const STRANGE_KIND: u8 = 14;
const WRONG_LENGTH: u8 = 15;
const WRONG_BOARD: u8 = 1;

/// Least and most of each field, and its bytes in a record. A width has a limit more.
const LIMITS: [(u64, u64, usize); 7] = [(1, 24, 1), (16, 32, 1), (0, 4, 1), (1, 4, 1), (0, 8, 1), (0, 31, 1), (0, u32::MAX as u64, 4)];

/// The field of [`LIMITS`] that counts from 0 in a record and from 1 on a board.
const BUS: usize = 3;

fn within(fields: &Fields) -> bool {
    fields.iter().zip(LIMITS).all(|(f, (least, most, _))| (least..=most).contains(f)) && fields[1] % 16 == 0
}

/// The writer, lent `places`: the record's bytes, or the number it is refused with.
pub fn write(fields: &Fields, places: u64) -> Result<Vec<u8>, u8> {
    let manual = fields[7] != 0;
    let body: usize = LIMITS.iter().map(|l| l.2).sum::<usize>() + usize::from(manual);
    if places < body as u64 + 4 {
        return Err(CUT_SHORT);
    }
    if !within(fields) {
        return Err(WRONG_BOARD);
    }
    let mut bytes = Vec::new();
    bytes.extend((body as u16 + 2).to_le_bytes());
    bytes.extend(if manual { 2u16 } else { 1 }.to_le_bytes());
    for (i, (field, (_, _, n))) in fields.iter().zip(LIMITS).enumerate() {
        let value = if i == BUS { field - 1 } else { *field };
        bytes.extend(&value.to_le_bytes()[..n]);
    }
    bytes.extend(manual.then_some(1));
    Ok(bytes)
}

/// The reader of the kinds up to `latest`: the fields and the bytes that the record took, or the number it is refused with.
pub fn read(bytes: &[u8], latest: u16) -> Result<(Fields, usize), u8> {
    let (length, rest) = bytes.split_first_chunk::<2>().ok_or(CUT_SHORT)?;
    let length = u16::from_le_bytes(*length) as usize;
    let content = rest.get(..length).ok_or(CUT_SHORT)?;
    let (kind, mut body) = content.split_first_chunk::<2>().ok_or(CUT_SHORT)?;
    let kind = u16::from_le_bytes(*kind);
    if !(1..=latest).contains(&kind) {
        return Err(STRANGE_KIND);
    }
    let manual = kind == 2;
    if length != if manual { 13 } else { 12 } {
        return Err(WRONG_LENGTH);
    }
    let mut fields = [0; 8];
    for (i, (_, _, n)) in LIMITS.into_iter().enumerate() {
        let (field, rest) = body.split_at(n);
        fields[i] = field.iter().rev().fold(0, |value, &b| value << 8 | u64::from(b)) + u64::from(i == BUS);
        body = rest;
    }
    fields[7] = manual.into();
    if !within(&fields) || body != if manual { &[1][..] } else { &[] } {
        return Err(WRONG_BOARD);
    }
    Ok((fields, 2 + length))
}

/// A writer's answer as a line: COUNT bytes as hexadecimal digits.
pub fn write_line(written: Result<Vec<u8>, u8>) -> String {
    match written {
        Ok(bytes) => format!("0 0 {} {}", bytes.len(), hex(&bytes)),
        Err(number) => format!("{number} 0 0"),
    }
}

/// A reader's answer as a line.
pub fn read_line(read: Result<(Fields, usize), u8>) -> String {
    match read {
        Ok((fields, _)) => format!("0 0 0 {}", fields.map(|f| f.to_string()).join(" ")),
        Err(number) => format!("{number} 0 0"),
    }
}

/// Bytes as small hexadecimal digits.
pub fn hex(bytes: &[u8]) -> String {
    bytes.iter().map(|b| format!("{b:02x}")).collect()
}

/// What a word in the place of bytes is; `None` where it is not written as bytes.
pub fn bytes(word: &[u8]) -> Option<Vec<u8>> {
    if word == b"-" {
        return Some(Vec::new());
    }
    let digit = |b: u8| (b as char).to_digit(16);
    let (pairs, rest) = word.as_chunks::<2>();
    if word.is_empty() || !rest.is_empty() {
        return None;
    }
    pairs.iter().map(|&[high, low]| Some((digit(high)? * 16 + digit(low)?) as u8)).collect()
}
