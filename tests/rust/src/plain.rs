//! The strict file as one would read it in Rust, without allocation and without str::parse: what the library's speed is
//! measured beside. Like the library it checks the whole file before it writes a number. N is the numbers of a row.
use crate::Answer;

fn column(bytes: &[u8], signed: bool) -> Option<i32> {
    let mut rest = bytes;
    while let [b' ', tail @ ..] = rest {
        rest = tail;
    }
    let minus = signed && rest.first() == Some(&b'-');
    if minus {
        rest = &rest[1..];
    }
    let first = *rest.first()?;
    if first == b'0' && (minus || rest.len() > 1) {
        return None;
    }
    let mut number = 0;
    for &byte in rest {
        if !byte.is_ascii_digit() {
            return None;
        }
        number = 10 * number + i32::from(byte - b'0');
    }
    Some(if minus { -number } else { number })
}

const fn row_bytes(wide: usize) -> usize {
    if wide == 5 {
        33
    } else {
        27
    }
}

fn row<const N: usize>(line: &[u8]) -> Option<[i32; N]> {
    let mut row = [0; N];
    row[0] = column(&line[0..6], false)?;
    row[1] = column(&line[6..12], false)?;
    row[2] = column(&line[12..19], true)?;
    row[3] = column(&line[19..26], true)?;
    if N == 5 {
        row[4] = column(&line[26..32], false)?;
    }
    (line[row_bytes(N) - 1] == b'\n').then_some(row)
}

fn in_range<const N: usize>(row: &[i32; N]) -> bool {
    let shade = -12_800..=12_700;
    (1..=999_999).contains(&row[0])
        && (0..=9_999).contains(&row[1])
        && shade.contains(&row[2])
        && shade.contains(&row[3])
        && (N == 4 || (0..=10_000).contains(&row[4]))
}

fn header(bytes: &[u8], kind: i32) -> Answer {
    if bytes.len() < 13 {
        return Err((8, 0));
    }
    let (Some(count), Some(found), b'\n') = (column(&bytes[0..6], false), column(&bytes[6..12], false), bytes[12])
    else {
        return Err((9, 0));
    };
    if !(1..=4).contains(&kind) || found != kind {
        return Err((10, 0));
    }
    if count > 65_535 {
        return Err((4, 0));
    }
    Ok(count as u32)
}

fn check_rows<const N: usize>(bytes: &[u8], kind: i32) -> Answer {
    let count = header(bytes, kind)?;
    if bytes.len() != 13 + row_bytes(N) * count as usize {
        return Err((8, 0));
    }
    let mut before = i32::MAX;
    for (i, line) in bytes[13..].chunks_exact(row_bytes(N)).enumerate() {
        let number = i as u32 + 1;
        let Some(row) = row::<N>(line) else {
            return Err((9, number));
        };
        if !in_range(&row) {
            return Err((6, number));
        }
        if row[1] > before {
            return Err((7, number));
        }
        before = row[1];
    }
    Ok(count)
}

fn load_rows<const N: usize>(bytes: &[u8], kind: i32, out: &mut [i32]) -> Answer {
    let count = check_rows::<N>(bytes, kind)?;
    if out.len() < N * count as usize {
        return Err((11, 0));
    }
    for (line, places) in bytes[13..].chunks_exact(row_bytes(N)).zip(out.chunks_exact_mut(N)) {
        if let Some(row) = row::<N>(line) {
            places.copy_from_slice(&row);
        }
    }
    Ok(count)
}

pub fn check(bytes: &[u8], kind: i32) -> Answer {
    match kind {
        3 | 4 => check_rows::<5>(bytes, kind),
        _ => check_rows::<4>(bytes, kind),
    }
}

pub fn load(bytes: &[u8], kind: i32, out: &mut [i32]) -> Answer {
    match kind {
        3 | 4 => load_rows::<5>(bytes, kind, out),
        _ => load_rows::<4>(bytes, kind, out),
    }
}
