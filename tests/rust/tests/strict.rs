//! The compiled library beside a reader that knows nothing of it: good, damaged and random files. The lent numbers are
//! marked first and compared whole.
use furzeladle_tests::{check, file, load, plain, spelled};

const MARK: i32 = 0x5EED_F00D;

/// Rows with numbers of each form: one digit, all columns filled, minus, 0. On the old card, and on the new one.
const ROWS: [[i32; 4]; 4] =
    [[999_999, 9_999, -12_800, 12_700], [101, 90, 0, -7], [1, 90, 1_234, 0], [20, 0, -1, -12_799]];

const NEW_ROWS: [[i32; 5]; 4] =
    [[999_999, 9_999, -12_800, 12_700, 10_000], [101, 90, 0, -7, 0], [1, 90, 1_234, 0, 9_999], [20, 0, -1, -12_799, 5]];

/// The first rows of that many as a file of this kind.
fn of_kind(kind: i32, count: usize) -> Vec<u8> {
    match kind {
        3 | 4 => file(kind as u32, &NEW_ROWS[..count]),
        _ => file(kind as u32, &ROWS[..count]),
    }
}

/// Their numbers.
fn numbers(kind: i32, count: usize) -> Vec<i32> {
    match kind {
        3 | 4 => NEW_ROWS[..count].concat(),
        _ => ROWS[..count].concat(),
    }
}

const BYTES: [u8; 12] = [b' ', b'0', b'1', b'9', b'-', b'+', b'\n', b'\r', b'/', b':', 0, 255];

/// One file, by both readers and both exports.
fn same(bytes: &[u8], kind: i32, room: usize) {
    let mut ours = vec![MARK; room];
    let mut theirs = vec![MARK; room];
    let answer = load(bytes, kind, &mut ours);
    let wanted = spelled::load(bytes, kind, &mut theirs);
    let shown = || String::from_utf8_lossy(bytes).into_owned();
    assert_eq!(answer, wanted, "kind {kind}, room {room}: {}", shown());
    assert_eq!(ours, theirs, "kind {kind}, room {room}: {}", shown());
    let alone = match spelled::rows(bytes, kind) {
        Ok(rows) => rows.len() as i32,
        Err((code, _)) => -(code as i32),
    };
    assert_eq!(check(bytes, kind), alone, "kind {kind}: {}", shown());
}

#[test]
fn good_files() {
    for kind in 1..=4 {
        for count in 0..=ROWS.len() {
            let rows = numbers(kind, count);
            let mut out = vec![MARK; 25];
            assert_eq!(load(&of_kind(kind, count), kind, &mut out), Ok(count as u32));
            assert_eq!(out[..rows.len()], rows);
            assert!(out[rows.len()..].iter().all(|x| *x == MARK));
        }
    }
}

#[test]
fn every_kind_and_room() {
    for bytes in [of_kind(1, 4), of_kind(4, 4)] {
        for kind in [i32::MIN, -4, -1, 0, 1, 2, 3, 4, 5, i32::MAX] {
            for room in 0..=25 {
                same(&bytes, kind, room);
            }
        }
    }
    for kind in 0..=6 {
        same(&file(kind as u32, &ROWS), kind, 20);
        same(&file(kind as u32, &NEW_ROWS), kind, 20);
    }
}

#[test]
fn cut_at_every_length() {
    for (bytes, kind) in [(of_kind(1, 4), 1), (of_kind(3, 4), 3)] {
        for len in 0..=bytes.len() {
            for room in [0, 3, 16, 20] {
                same(&bytes[..len], kind, room);
                same(&bytes[..len], kind + 1, room);
            }
            same(&[&bytes[..], &bytes[..len]].concat(), kind, 20);
        }
    }
}

#[test]
fn every_byte_replaced() {
    for (bytes, kind) in [(of_kind(1, 4), 1), (of_kind(4, 4), 4)] {
        for at in 0..bytes.len() {
            for byte in 0..=255 {
                let mut damaged = bytes.clone();
                damaged[at] = byte;
                for room in [21, 20, 19, 16, 15] {
                    same(&damaged, kind, room);
                }
                for other in 1..=4 {
                    same(&damaged, other, 20);
                }
            }
        }
    }
}

#[test]
fn two_faults() {
    for (bytes, kind) in [(of_kind(1, 3), 1), (of_kind(3, 3), 3)] {
        for first in 0..bytes.len() {
            for second in 0..first {
                for one in BYTES {
                    for other in [b' ', b'0', b'9', b'-', 255] {
                        let mut damaged = bytes.clone();
                        damaged[first] = one;
                        damaged[second] = other;
                        same(&damaged, kind, 15);
                    }
                }
            }
        }
    }
}

#[test]
fn a_fault_in_a_cut_file_and_in_a_short_slice() {
    for (bytes, kind) in [(of_kind(2, 4), 2), (of_kind(4, 4), 4)] {
        for at in 0..bytes.len() {
            for byte in BYTES {
                let mut damaged = bytes.clone();
                damaged[at] = byte;
                for len in [0, 12, 13, 14, 39, 40, 41, 45, 46, 47, bytes.len() - 1] {
                    same(&damaged[..len], kind, 20);
                }
                for room in [0, 1, 15, 19] {
                    same(&damaged, kind, room);
                }
            }
        }
    }
}

/// Every spelling of these columns from these bytes.
fn spellings(mut bytes: Vec<u8>, kind: i32, columns: &[(usize, u32)]) {
    let alphabet = [b' ', b'0', b'1', b'2', b'7', b'-', b'a'];
    for &(start, width) in columns {
        let good = bytes.clone();
        for mut code in 0..7usize.pow(width) {
            for place in &mut bytes[start..start + width as usize] {
                *place = alphabet[code % 7];
                code /= 7;
            }
            same(&bytes, kind, 5);
        }
        bytes = good;
    }
}

#[test]
fn every_spelling() {
    spellings(file(1, &[[5, 5, 5, 5]]), 1, &[(13, 6), (19, 6), (25, 7), (32, 7), (0, 6), (6, 6)]);
    spellings(file(3, &[[5, 5, 5, 5, 5]]), 3, &[(25, 7), (39, 6), (0, 6), (6, 6)]);
}

/// L's column: no minus, no leading zero; 0 to 10,000.
#[test]
fn lightness_by_hand() {
    let spelled = |column: &str| {
        let bytes = format!("     1     4\n     7     3     -4      0{column}\n").into_bytes();
        let mut out = [MARK; 5];
        same(&bytes, 4, 5);
        (load(&bytes, 4, &mut out), out[4])
    };
    for (column, wanted) in [("     0", 0), (" 10000", 10_000), ("  9999", 9_999), ("     7", 7)] {
        assert_eq!(spelled(column), (Ok(1), wanted), "{column}");
    }
    for column in ["    -0", "    -1", "    07", "010000", "      ", "     +", "   7  ", "7     "] {
        assert_eq!(spelled(column), (Err((9, 1)), MARK), "{column}");
    }
    for column in [" 10001", " 65536", "999999", "100000"] {
        assert_eq!(spelled(column), (Err((6, 1)), MARK), "{column}");
    }
}

/// Rows as long as the other card's: 8, whatever stands in them.
#[test]
fn rows_of_the_other_card() {
    for (kind, old) in [(3, true), (4, true), (1, false), (2, false)] {
        for count in 1..=4 {
            let bytes = if old { file(kind, &ROWS[..count]) } else { file(kind, &NEW_ROWS[..count]) };
            assert_eq!(check(&bytes, kind as i32), -8);
            same(&bytes, kind as i32, 25);
        }
        let empty = if old { file(kind, &ROWS[..0]) } else { file(kind, &NEW_ROWS[..0]) };
        assert_eq!(check(&empty, kind as i32), 0);
    }
    // as many bytes: eleven rows of the old card, nine of the new one
    let (long, short) = (file(3, &[[7, 3, 0, 0]; 11]), file(1, &[[7, 3, 0, 0, 9]; 9]));
    for (bytes, kind, count) in [(long, 3, "     9"), (short, 1, "    11")] {
        let counted = [count.as_bytes(), &bytes[6..]].concat();
        assert_eq!(check(&counted, kind), -9);
        same(&counted, kind, 60);
    }
}

struct Random(u64);

impl Random {
    fn below(&mut self, n: u64) -> u64 {
        self.0 ^= self.0 << 13;
        self.0 ^= self.0 >> 7;
        self.0 ^= self.0 << 17;
        self.0 % n
    }
}

#[test]
fn random_files() {
    let mut random = Random(88_172_645_463_325_252);
    for _ in 0..60_000 {
        let count = random.below(7) as usize;
        let mut score = 9_999;
        let rows: Vec<[i32; 5]> = (0..count)
            .map(|_| {
                score -= random.below(2_500).min(score);
                let pattern = random.below(1_000_000).max(1) as i32;
                let mut shade = || random.below(25_501) as i32 - 12_800;
                let (a, b) = (shade(), shade());
                [pattern, score as i32, a, b, random.below(10_001) as i32]
            })
            .collect();
        let kind = 1 + random.below(4) as i32;
        let mut bytes = match kind {
            3 | 4 => file(kind as u32, &rows),
            _ => file(kind as u32, &rows.iter().map(|&[p, s, a, b, _]| [p, s, a, b]).collect::<Vec<_>>()),
        };
        for _ in 0..random.below(4) {
            let at = random.below(bytes.len() as u64) as usize;
            bytes[at] = match random.below(4) {
                0 => random.below(256) as u8,
                _ => BYTES[random.below(BYTES.len() as u64) as usize],
            };
        }
        same(&bytes, kind, random.below(40) as usize);
    }
}

#[test]
fn the_largest_files() {
    largest(1, [7, 3, -4, 0]);
    largest(4, [7, 3, -4, 0, 10_000]);
}

fn largest<const N: usize>(kind: i32, row: [i32; N]) {
    let rows = |count: usize| file(kind as u32, &vec![row; count]);
    let room = N * 65_535;
    same(&rows(65_535), kind, room);
    same(&rows(65_535), kind, room - 1);
    same(&rows(65_536), kind, room + N);
    let mut late = rows(65_535);
    let end = late.len() - 1;
    late[end] = b' ';
    same(&late, kind, room);
}

/// The reader that speed is measured beside is right too.
#[test]
fn the_plain_reader() {
    for (bytes, kind) in [(of_kind(1, 4), 1), (of_kind(3, 4), 3)] {
        for at in 0..bytes.len() {
            for byte in 0..=255 {
                let mut damaged = bytes.clone();
                damaged[at] = byte;
                let (mut ours, mut theirs) = ([MARK; 22], [MARK; 22]);
                assert_eq!(plain::load(&damaged, kind, &mut ours), spelled::load(&damaged, kind, &mut theirs));
                assert_eq!(ours, theirs);
            }
        }
    }
}
