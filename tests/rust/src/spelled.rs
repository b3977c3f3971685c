//! The strict file by its spelling: a column holds n if n, written right-justified, gives its bytes.
//! Slow and plain on purpose: it is what the library is compared with.
use crate::Answer;

fn column(bytes: &[u8], signed: bool) -> Option<i64> {
    let text = std::str::from_utf8(bytes).ok()?;
    let number: i64 = text.trim_start_matches(' ').parse().ok()?;
    let spelled = format!("{:>width$}", number, width = bytes.len());
    (spelled == text && (signed || number >= 0)).then_some(number)
}

/// How long a line of this kind is: the columns end before its last byte.
fn line_length(kind: i32) -> usize {
    if kind >= 3 {
        33
    } else {
        27
    }
}

/// The numbers of a line: four, and L if it is a long one.
fn row(line: &[u8]) -> Option<Vec<i64>> {
    let (columns, end) = line.split_at(line.len() - 1);
    if end != b"\n" {
        return None;
    }
    let mut row = vec![
        column(&columns[0..6], false)?,
        column(&columns[6..12], false)?,
        column(&columns[12..19], true)?,
        column(&columns[19..26], true)?,
    ];
    if columns.len() > 26 {
        row.push(column(&columns[26..32], false)?);
    }
    Some(row)
}

fn header(bytes: &[u8]) -> Option<[i64; 2]> {
    if bytes[12] != b'\n' {
        return None;
    }
    Some([column(&bytes[0..6], false)?, column(&bytes[6..12], false)?])
}

fn in_range(row: &[i64]) -> bool {
    let ranges = [1..=999_999, 0..=9_999, -12_800..=12_700, -12_800..=12_700, 0..=10_000];
    row.iter().zip(ranges).all(|(number, range)| range.contains(number))
}

/// The rows, or the refusal's number and its row.
pub fn rows(bytes: &[u8], kind: i32) -> Result<Vec<Vec<i32>>, (u32, u32)> {
    if bytes.len() < 13 {
        return Err((8, 0));
    }
    let [count, found] = header(bytes).ok_or((9, 0))?;
    if !(1..=4).contains(&kind) || found != i64::from(kind) {
        return Err((10, 0));
    }
    if count > 65_535 {
        return Err((4, 0));
    }
    if bytes.len() != 13 + line_length(kind) * count as usize {
        return Err((8, 0));
    }
    let mut rows: Vec<Vec<i32>> = Vec::new();
    for line in bytes[13..].chunks(line_length(kind)) {
        let number = rows.len() as u32 + 1;
        let row = row(line).ok_or((9, number))?;
        if !in_range(&row) {
            return Err((6, number));
        }
        if rows.last().is_some_and(|before| row[1] > i64::from(before[1])) {
            return Err((7, number));
        }
        rows.push(row.iter().map(|number| *number as i32).collect());
    }
    Ok(rows)
}

/// Reading into a lent slice.
pub fn load(bytes: &[u8], kind: i32, out: &mut [i32]) -> Answer {
    let rows = rows(bytes, kind)?;
    let numbers = rows.concat();
    if out.len() < numbers.len() {
        return Err((11, 0));
    }
    out[..numbers.len()].copy_from_slice(&numbers);
    Ok(rows.len() as u32)
}
