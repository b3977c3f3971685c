//! libfurzeladle.a beside readers of the strict file and a model of the session that share nothing with it.
pub mod beside;
pub mod cases;
pub mod judge;
pub mod lent;
pub mod model;
pub mod places;
pub mod plain;
pub mod spelled;

/// What reading a strict file answers: the row count, or the refusal's number and its row.
pub type Answer = Result<u32, (u32, u32)>;

/// The exported check: the row count, or minus the refusal's number.
pub fn check(bytes: &[u8], kind: i32) -> i32 {
    match furzeladle::raw::check(bytes, kind) {
        Ok(count) => count as i32,
        Err(refusal) => -(refusal.number as i32),
    }
}

/// The exported reading.
pub fn load(bytes: &[u8], kind: i32, out: &mut [i32]) -> Answer {
    furzeladle::raw::load(bytes, kind, out).map_err(|refusal| (refusal.number, refusal.row))
}

/// How wide the columns of a row are; the last one is on the new card only.
const COLUMNS: [usize; 5] = [6, 6, 7, 7, 6];

/// A file with these rows of four or five numbers, as the format spells it.
pub fn file<const N: usize>(kind: u32, rows: &[[i32; N]]) -> Vec<u8> {
    let mut text = format!("{:>6}{:>6}\n", rows.len(), kind);
    for row in rows {
        for (number, wide) in row.iter().zip(COLUMNS) {
            text += &format!("{number:>wide$}");
        }
        text += "\n";
    }
    text.into_bytes()
}
