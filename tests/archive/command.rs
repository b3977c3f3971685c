//! The archive's command: beside the pairing program's stored cases, beside its own with weights and with tolerances,
//! and beyond 512 rows and on the new card beside the model.
use furzeladle::{Asked, Card, FieldTolerance, FieldWeight, Query, TrimTolerance, TrimWeight};
use furzeladle_tests::cases::{table, Dice, Light, Spread};
use furzeladle_tests::model::{self, Opening, Said};
use furzeladle_tests::{file, spelled};
use std::ffi::OsStr;
use std::fs;
use std::net::Shutdown;
use std::os::fd::OwnedFd;
use std::os::unix::net::UnixStream;
use std::path::{Path, PathBuf};
use std::process::{Command, Output, Stdio};

/// Above this a file is too long for the program, not for the command: of kinds 1 and 2, and of kinds 3 and 4.
const PROGRAM_BYTES: usize = 13_837;
const NEW_PROGRAM_BYTES: usize = 16_909;

fn command() -> Command {
    Command::new(env!("CARGO_BIN_EXE_furzeladle"))
}

fn run<S: AsRef<OsStr>>(arguments: &[S]) -> Output {
    command().args(arguments).output().unwrap()
}

fn pair(field: &Path, trim: &Path, numbers: &[String]) -> Output {
    command()
        .args([field, trim])
        .args(numbers)
        .output()
        .unwrap()
}

fn words(output: &Output) -> String {
    String::from_utf8(output.stderr.clone()).unwrap()
}

fn assert_listed(output: &Output, listing: &[u8], what: &str) {
    assert_eq!(words(output), "", "{what}");
    assert_eq!(output.status.code(), Some(0), "{what}");
    assert_eq!(
        String::from_utf8_lossy(&output.stdout),
        String::from_utf8_lossy(listing),
        "{what}"
    );
}

/// Refused in words that name the number, and the file and row where there are any.
fn assert_refused(output: &Output, number: u32, place: &str, what: &str) {
    let said = words(output);
    assert_eq!(output.status.code(), Some(1), "{what}: {said}");
    assert!(output.stdout.is_empty(), "{what}");
    assert!(
        said.contains(&format!("refused by {number}, ")),
        "{what}: {said}"
    );
    assert!(said.contains(place), "{what}: {said}");
    assert_eq!(said.lines().count(), 1, "{what}: {said}");
}

/// The listing by the model and by Rust's own formatting.
fn modelled(asked: Asked, f: &[i32], t: &[i32]) -> Vec<u8> {
    let (_, mut record) = model::open(asked, f, t);
    while model::read(f, t, &mut record) == Said::Read {}
    let Query { k, block, radius } = asked.query;
    let mut text = format!("{k:>6}{block:>6}{radius:>6}\n");
    let mut rank = 1;
    let wide = model::wide(asked.field_card);
    while let Said::Given(pair) = model::take(f, t, &mut record) {
        let x = f.chunks(wide).nth(pair.field as usize - 1).unwrap();
        let y = t.chunks(wide).nth(pair.trim as usize - 1).unwrap();
        let square = model::squared_distance(x, y);
        let s = square.isqrt();
        text += &format!(
            "{rank:>6}{:>6}{:>6}{:>6}{s:>8}{:>8}\n",
            pair.sum,
            x[0],
            y[0],
            square - s * s
        );
        rank += 1;
    }
    let [p, q] = record.depth;
    text += &format!("{p:>6}{q:>6}{:>12}\n", record.joined);
    text.into_bytes()
}

/// The input's three columns, if they are digits in 19 bytes.
fn query_numbers(stdin: &[u8]) -> Option<Vec<String>> {
    let text = std::str::from_utf8(stdin).ok()?.strip_suffix('\n')?;
    let columns = (text.len() == 18).then(|| [&text[..6], &text[6..12], &text[12..]])?;
    let numbers = columns.map(|column| column.trim_start().to_string());
    let formed =
        |n: &String| n == "0" || n.bytes().all(|b| b.is_ascii_digit()) && !n.starts_with('0');
    numbers
        .iter()
        .all(|n| !n.is_empty() && formed(n))
        .then(|| numbers.to_vec())
}

/// The kind that a file is read as, the field's or the trim's on the old card being given.
fn kind(bytes: &[u8], old: i32) -> i32 {
    match (old, bytes) {
        (1, [_, _, _, _, _, _, b' ', b' ', b' ', b' ', b' ', b'3', ..]) => 3,
        (2, [_, _, _, _, _, _, b' ', b' ', b' ', b' ', b' ', b'4', ..]) => 4,
        _ => old,
    }
}

/// The rows of a file read as that kind, by the reader that shares nothing with the library.
fn read(path: &Path, old: i32) -> Result<Vec<Vec<i32>>, (u32, u32)> {
    let bytes = fs::read(path).unwrap();
    spelled::rows(&bytes, kind(&bytes, old))
}

/// The first refusal of the two files and where it is, by that reader.
fn file_refusal(files: &[PathBuf; 2]) -> Option<(u32, String)> {
    files.iter().zip([1, 2]).find_map(|(path, old)| {
        let (number, row) = read(path, old).err()?;
        let name = path.file_name().unwrap().to_str().unwrap();
        let place = match (number, row) {
            (9, 0) => ", header".to_string(),
            (_, 0) => String::new(),
            _ => format!(", row {row}"),
        };
        Some((number, format!("{name}{place}: ")))
    })
}

/// A file that is too long for the program: refused as the other reader refuses it, or listed as the model lists it.
fn beyond_the_program(output: &Output, files: &[PathBuf; 2], numbers: &[String], what: &str) {
    if let Some((number, place)) = file_refusal(files) {
        return assert_refused(output, number, &place, what);
    }
    let rows = |i: usize| read(&files[i], i as i32 + 1).unwrap().concat();
    let is_new = |i: usize| kind(&fs::read(&files[i]).unwrap(), i as i32 + 1) > 2;
    let card = |i: usize| if is_new(i) { Card::New } else { Card::Old };
    let number = |i: usize| numbers[i].parse().unwrap();
    let asked = Asked::from(query(number(0), number(1), number(2))).cards(card(0), card(1));
    let (said, _) = model::open(asked, &rows(0), &rows(1));
    if let Said::Refused(number) = said {
        return assert_refused(output, number, "query: ", what);
    }
    assert_listed(output, &modelled(asked, &rows(0), &rows(1)), what);
}

/// Whether the program, which takes 512 rows, does not take this file.
fn is_too_long(path: &Path, old: i32) -> bool {
    let bytes = fs::read(path).unwrap();
    let most = if kind(&bytes, old) > 2 {
        NEW_PROGRAM_BYTES
    } else {
        PROGRAM_BYTES
    };
    bytes.len() > most
}

/// How a stored case was used.
#[derive(PartialEq)]
enum Used {
    Listed,
    Refused,
    TooLongForTheProgram,
    NotForTheCommand,
}

fn files(case: &Path) -> [PathBuf; 2] {
    ["FIELD.TAB", "TRIM.TAB"].map(|name| case.join(name))
}

/// A case of the program. Weights 1 and 1, or tolerances 0 and 0, given as well, change nothing.
fn stored_case(case: &Path) -> Used {
    let files = files(case);
    let numbers = query_numbers(&fs::read(case.join("stdin")).unwrap());
    let (Some(numbers), true) = (numbers, files.iter().all(|f| f.exists())) else {
        return Used::NotForTheCommand;
    };
    let alone = pair(&files[0], &files[1], &numbers);
    for more in [["1", "1"], ["--tolerance", "0,0"]] {
        let given = [numbers.as_slice(), &more.map(String::from)].concat();
        assert_eq!(pair(&files[0], &files[1], &given), alone);
    }
    answered(case, &numbers)
}

/// A case with weights or tolerances, which stand in args with its other numbers.
fn case_with_arguments(case: &Path) -> Used {
    let numbers = fs::read_to_string(case.join("args")).unwrap();
    let numbers: Vec<String> = numbers.split_whitespace().map(String::from).collect();
    answered(case, &numbers)
}

/// What the command answers to these numbers is what stands in the case's stdout.
fn answered(case: &Path, numbers: &[String]) -> Used {
    let what = case.display().to_string();
    let files = files(case);
    let stdout = fs::read(case.join("stdout")).unwrap();
    let output = pair(&files[0], &files[1], numbers);
    if stdout.len() > 7 {
        assert_listed(&output, &stdout, &what);
        return Used::Listed;
    }
    if is_too_long(&files[0], 1) || is_too_long(&files[1], 2) {
        beyond_the_program(&output, &files, numbers, &what);
        return Used::TooLongForTheProgram;
    }
    let program = std::str::from_utf8(&stdout)
        .unwrap()
        .trim()
        .parse()
        .unwrap();
    let in_query = (program, "query: ".to_string());
    let (number, place) = file_refusal(&files).unwrap_or(in_query);
    assert_eq!(number, program, "{what}");
    assert_refused(&output, number, &place, &what);
    Used::Refused
}

/// The cases of a folder of tests, each tried.
fn all_of(folder: &str, case: fn(&Path) -> Used) -> Vec<Used> {
    fs::read_dir(tests().join(folder))
        .unwrap()
        .map(|entry| entry.unwrap().path())
        .filter(|path| path.is_dir())
        .map(|path| case(&path))
        .collect()
}

fn tests() -> PathBuf {
    Path::new(env!("CARGO_MANIFEST_DIR")).join("../../tests")
}

#[test]
fn stored_cases() {
    let used = all_of("cases", stored_case);
    let count = |wanted| used.iter().filter(|u| **u == wanted).count();
    println!(
        "{} listed, {} refused, as the program did",
        count(Used::Listed),
        count(Used::Refused)
    );
    assert!(count(Used::Listed) >= 20 && count(Used::Refused) >= 25);
    assert!(count(Used::TooLongForTheProgram) >= 2);
}

#[test]
fn stored_cases_with_weights() {
    let used = all_of("weights", case_with_arguments);
    let count = |wanted| used.iter().filter(|u| **u == wanted).count();
    assert!(count(Used::Listed) >= 8 && count(Used::Refused) >= 3);
    let [ones, program] = ["weights/ones", "cases/ties-plateau"]
        .map(|case| fs::read(tests().join(case).join("stdout")).unwrap());
    assert_eq!(ones, program);
}

#[test]
fn stored_cases_with_tolerances() {
    let used = all_of("tolerances", case_with_arguments);
    let count = |wanted| used.iter().filter(|u| **u == wanted).count();
    assert!(count(Used::Listed) >= 20 && count(Used::Refused) >= 5);
    let stdout = |case: &str| fs::read(tests().join(case).join("stdout")).unwrap();
    for (faded, program) in [
        ("zeros", "ties-plateau"),
        ("zeros-surely", "ties-plateau"),
        ("surely-alone", "worked"),
    ] {
        assert_eq!(
            stdout(&format!("tolerances/{faded}")),
            stdout(&format!("cases/{program}"))
        );
    }
}

/// A folder of this test's own, gone when it ends.
struct Folder(PathBuf);

impl Folder {
    fn new(name: &str) -> Folder {
        let path = std::env::temp_dir().join(format!("furzeladle-{name}-{}", std::process::id()));
        fs::create_dir_all(&path).unwrap();
        Folder(path)
    }

    fn file(&self, name: &str, bytes: &[u8]) -> PathBuf {
        let path = self.0.join(name);
        fs::write(&path, bytes).unwrap();
        path
    }
}

impl Drop for Folder {
    fn drop(&mut self) {
        let _ = fs::remove_dir_all(&self.0);
    }
}

/// A file of a kind with rows of these numbers, four or five each by the kind.
fn strict(kind: u32, t: &[i32]) -> Vec<u8> {
    match kind {
        3 | 4 => file(kind, &rows::<5>(t)),
        _ => file(kind, &rows::<4>(t)),
    }
}

fn rows<const N: usize>(t: &[i32]) -> Vec<[i32; N]> {
    t.chunks(N).map(|row| row.try_into().unwrap()).collect()
}

/// The command's numbers: three and the weights; and its options, where they are not the defaults.
fn numbers(asked: Asked) -> Vec<String> {
    let lent = Opening::from(asked).numbers();
    let mut given: Vec<String> = lent[..5].iter().map(|n| n.to_string()).collect();
    let [t, u, meaning] = [7, 8, 9].map(|at| lent[at]);
    if [t, u] != [0, 0] {
        given.extend(["--tolerance".to_string(), format!("{t},{u}")]);
    }
    if meaning == 1 {
        given.push("--surely".to_string());
    }
    given
}

fn query(k: u32, block: u32, radius: u32) -> Query {
    Query { k, block, radius }
}

/// The command's listing is the model's, and has pairs.
fn listed_as_modelled(folder: &Folder, f: &[i32], t: &[i32], asked: Asked) -> Vec<u8> {
    let [field_kind, trim_kind] = Opening::from(asked).kind;
    let field = folder.file("FIELD.TAB", &strict(field_kind, f));
    let trim = folder.file("TRIM.TAB", &strict(trim_kind, t));
    let output = pair(&field, &trim, &numbers(asked));
    let wide = model::wide(asked.field_card);
    let what = format!("{} and {} rows of {wide}", f.len() / wide, t.len() / wide);
    assert_listed(&output, &modelled(asked, f, t), &what);
    assert!(
        output.stdout.split(|b| *b == b'\n').count() > 3,
        "no pairs at {what}"
    );
    output.stdout
}

/// The same of tables of these row counts from a seed.
fn beside_the_model(folder: &Folder, (m, n): (u32, u32), spread: Spread, asked: impl Into<Asked>) {
    let mut dice = Dice::new(u64::from(m));
    let (f, t) = (table(&mut dice, m, spread), table(&mut dice, n, spread));
    listed_as_modelled(folder, &f, &t, asked.into());
}

/// Scores that fall evenly, shades all over the old card.
const STEEP: Spread = Spread {
    top: 9_999,
    step: 1,
    plateau: false,
    shades: 12_700,
    extreme: false,
    drift: 0,
    light: None,
};

/// The same on the new card, L all over its range.
const STEEP_WITH_L: Spread = Spread {
    light: Some(Light {
        ground: 5_000,
        alone: false,
    }),
    ..STEEP
};

#[test]
fn more_rows_than_the_program_takes() {
    let folder = Folder::new("rows");
    let steep = STEEP;
    let near = Spread {
        shades: 60,
        ..steep
    };
    let tied = Spread {
        top: 40,
        plateau: true,
        ..near
    };
    beside_the_model(&folder, (513, 513), steep, query(10, 16, 900));
    beside_the_model(&folder, (3_000, 2_000), steep, query(64, 100, 400));
    beside_the_model(&folder, (6_000, 700), tied, query(64, 7, 9));
    beside_the_model(&folder, (38_000, 12_000), steep, query(10, 128, 128));
    beside_the_model(&folder, (65_535, 65_535), near, query(64, 1_024, 5));
    let weighted = |query: Query, v, w| query.weights(FieldWeight(v), TrimWeight(w));
    beside_the_model(
        &folder,
        (3_000, 2_000),
        steep,
        weighted(query(64, 100, 400), 1, 3),
    );
    beside_the_model(&folder, (6_000, 700), tied, weighted(query(64, 7, 9), 2, 3));
    beside_the_model(
        &folder,
        (38_000, 12_000),
        steep,
        weighted(query(10, 128, 128), 9, 4),
    );
}

/// The last third of each table is withdrawn, and the live rows do not fill the list: each is read down to the block
/// with its first withdrawn row, 2,001 and 1,334.
#[test]
fn withdrawn_rows_far_down() {
    let folder = Folder::new("withdrawn");
    let mut dice = Dice::new(1);
    let [f, t] = [3_000, 2_000].map(|rows| {
        let mut t = table(&mut dice, rows, STEEP);
        let live = 2 * rows as usize / 3;
        t.chunks_mut(4).skip(live).for_each(|row| row[1] = 0);
        t
    });
    let listing = listed_as_modelled(&folder, &f, &t, query(64, 100, 50).into());
    let joined = 21 * 14;
    let last = format!("\n  2100  1400{joined:>12}\n");
    assert!(listing.ends_with(last.as_bytes()));
}

/// Shades drift down the tables, so that most block pairs lie too far apart.
#[test]
fn drifting_shades() {
    let folder = Folder::new("drifting");
    let drifting = Spread {
        shades: 200,
        drift: 3,
        ..STEEP
    };
    let by_light = Spread {
        shades: 40,
        drift: 1,
        light: Some(Light {
            ground: 0,
            alone: true,
        }),
        ..STEEP
    };
    beside_the_model(&folder, (3_000, 2_000), drifting, query(64, 16, 9));
    beside_the_model(&folder, (3_000, 2_000), drifting, query(64, 1, 2));
    let weighted = query(64, 100, 9).weights(FieldWeight(2), TrimWeight(3));
    beside_the_model(&folder, (3_000, 2_000), drifting, weighted);
    let new = query(64, 16, 0).on(Card::New);
    beside_the_model(&folder, (3_000, 2_000), by_light, new);
}

/// Tolerances over many rows, on both cards, with either meaning and with weights.
#[test]
fn shades_within_tolerances() {
    let folder = Folder::new("tolerances");
    let near = Spread {
        shades: 60,
        ..STEEP
    };
    let near_with_l = Spread {
        shades: 60,
        ..STEEP_WITH_L
    };
    let drifting = Spread {
        shades: 200,
        drift: 3,
        ..STEEP
    };
    let list = |spread, asked: Asked| beside_the_model(&folder, (3_000, 2_000), spread, asked);
    let (two, three) = (FieldTolerance(2), TrimTolerance(3));
    list(STEEP, query(64, 100, 60).possibly(two, three));
    list(near, query(64, 100, 8).surely(two, three));
    list(drifting, query(64, 16, 9).surely(two, three));
    list(drifting, query(64, 1, 2).possibly(two, three));
    let new = query(64, 7, 10).on(Card::New);
    list(near_with_l, new.surely(two, three));
    let weighted = new.weights(FieldWeight(2), TrimWeight(3));
    list(near_with_l, weighted.possibly(two, three));
    let most = (FieldTolerance(500), TrimTolerance(500));
    list(STEEP, query(9, 100, 2_000).surely(most.0, most.1));
}

#[test]
fn tables_on_the_new_card() {
    let folder = Folder::new("card");
    let new = |query: Query| query.on(Card::New);
    let alone = Spread {
        shades: 5_000,
        light: Some(Light {
            ground: 5_000,
            alone: true,
        }),
        ..STEEP
    };
    let near = Spread {
        shades: 60,
        ..STEEP_WITH_L
    };
    beside_the_model(&folder, (1, 1), near, new(query(1, 1, 40_000)));
    beside_the_model(&folder, (512, 512), STEEP_WITH_L, new(query(10, 16, 2_000)));
    beside_the_model(&folder, (513, 300), alone, new(query(10, 16, 3)));
    beside_the_model(
        &folder,
        (38_000, 12_000),
        STEEP_WITH_L,
        new(query(10, 128, 400)),
    );
    beside_the_model(&folder, (65_535, 65_535), near, new(query(64, 1_024, 5)));
    let weighted = query(64, 7, 9).weights(FieldWeight(2), TrimWeight(3));
    beside_the_model(&folder, (6_000, 700), near, weighted.on(Card::New));
}

/// The listing of field and trim files that are named so and hold these bytes.
fn paired(folder: &Folder, field: &[u8], trim: &[u8], numbers: &[&str]) -> Output {
    let field = folder.file("FIELD.TAB", field);
    let trim = folder.file("TRIM.TAB", trim);
    let numbers: Vec<String> = numbers.iter().map(|word| word.to_string()).collect();
    pair(&field, &trim, &numbers)
}

/// 15 comes after the files' refusals and the query's, also where a file has no rows.
#[test]
fn files_on_different_cards() {
    let folder = Folder::new("cards");
    let ask = |kinds: [u32; 2], rows: [&[i32]; 2], numbers: &[&str]| {
        let [field, trim] = [0, 1].map(|i| strict(kinds[i], rows[i]));
        paired(&folder, &field, &trim, numbers)
    };
    let (old, new) = (&[1, 5, 0, 0][..], &[1, 5, 0, 0, 9][..]);
    let good = ["1", "1", "0"];
    for (kinds, rows) in [
        ([3, 2], [new, old]),
        ([1, 4], [old, new]),
        ([3, 2], [&[], old]),
        ([1, 4], [old, &[]]),
        ([3, 2], [&[], &[]]),
        ([1, 4], [&[1, 5, 0, 0, 1, 5, 0, 0], new]),
    ] {
        let output = ask(kinds, rows, &good);
        assert_refused(&output, 15, "query: ", &format!("{kinds:?}"));
        assert_eq!(
            words(&output),
            "furzeladle: query: refused by 15, cards: the two tables are on different cards\n"
        );
        for (numbers, number) in [
            (&["0", "1", "0"][..], 1),
            (&["1", "0", "0"], 2),
            (&["1", "1", "40001"], 3),
            (&["1", "1", "0", "10", "1"], 12),
        ] {
            assert_refused(&ask(kinds, rows, numbers), number, "query: ", "before 15");
        }
    }
    let bad = [1, 5, 0, 0, 10_001];
    assert_refused(
        &ask([1, 4], [old, &bad], &good),
        6,
        "TRIM.TAB, row 1: ",
        "L",
    );
    assert_refused(
        &ask([3, 2], [&bad, old], &good),
        6,
        "FIELD.TAB, row 1: ",
        "L",
    );
}

/// A file is read on the new card only where it names its own table's kind, just so; whatever else is wrong with it.
#[test]
fn what_a_file_names() {
    let folder = Folder::new("named");
    let (row, new_row) = (
        "   101    90      0    300\n",
        "   101    90      0    300   700\n",
    );
    let cases = [
        // the kind of the other table, or none
        (format!("     1     4\n{new_row}"), 10, ""),
        (format!("     1     2\n{row}"), 10, ""),
        (format!("     1     5\n{row}"), 10, ""),
        (format!("     1    33\n{new_row}"), 10, ""),
        // not just so
        (format!("     1    03\n{new_row}"), 9, ", header"),
        (format!("     1    3 \n{new_row}"), 9, ", header"),
        (format!("     1\t    3\n{new_row}"), 9, ", header"),
        // just so, and something else is wrong
        (format!("    01     3\n{new_row}"), 9, ", header"),
        (format!("     1     3 {new_row}"), 9, ", header"),
        (format!("     1     3\n{row}"), 8, ""),
        (format!("     2     3\n{new_row}"), 8, ""),
        (format!(" 65536     3\n{new_row}"), 4, ""),
        ("     1     3".to_string(), 8, ""),
        ("     1     ".to_string(), 8, ""),
        (String::new(), 8, ""),
        // rows
        (
            format!("     1     3\n{}", new_row.replace("   700", "    -0")),
            9,
            ", row 1",
        ),
        (
            format!("     1     3\n{}", new_row.replace("   700", " 10001")),
            6,
            ", row 1",
        ),
        (
            format!("     2     3\n{new_row}{}", new_row.replace("90", "91")),
            7,
            ", row 2",
        ),
        (format!("     1     1\n{new_row}"), 8, ""),
    ];
    for (bytes, number, place) in cases {
        let output = paired(
            &folder,
            bytes.as_bytes(),
            b"     0     4\n",
            &["1", "1", "0"],
        );
        assert_refused(&output, number, &format!("FIELD.TAB{place}: "), &bytes);
        let files = [folder.0.join("FIELD.TAB"), folder.0.join("TRIM.TAB")];
        assert_eq!(file_refusal(&files).unwrap().0, number, "{bytes}");
    }
    let trim = format!("     1     3\n{new_row}");
    let output = paired(
        &folder,
        b"     0     3\n",
        trim.as_bytes(),
        &["1", "1", "0"],
    );
    assert_refused(&output, 10, "TRIM.TAB: ", "a field file as trim");
}

/// The longest file of the new card, and a byte more.
#[test]
fn the_longest_file_of_the_new_card() {
    let folder = Folder::new("longest");
    let mut field = strict(3, &[1, 5, 0, 0, 10_000].repeat(65_535));
    let trim = strict(4, &[2, 4, 0, 0, 10_000]);
    let listing =
        "     1     1     0\n     1     9     1     2       0       0\n     1     1           1\n";
    let output = paired(&folder, &field, &trim, &["1", "1", "0"]);
    assert_listed(&output, listing.as_bytes(), "65,535 rows");
    field.push(b'\n');
    let output = paired(&folder, &field, &trim, &["1", "1", "0"]);
    assert_refused(&output, 8, "FIELD.TAB: ", "a byte more");
    let field = strict(3, &[1, 5, 0, 0, 10_000].repeat(65_536));
    let output = paired(&folder, &field, &trim, &["1", "1", "0"]);
    assert_refused(&output, 4, "FIELD.TAB: ", "65,536 rows");
}

/// Of equal sums those come out that were read: rows 2 and 1, not 1 and 2.
#[test]
fn two_rows_of_equal_score() {
    let folder = Folder::new("equal");
    let rows = [1, 1, 0, 0, 2, 1, 0, 0];
    let field = folder.file("FIELD.TAB", &strict(1, &rows));
    let trim = folder.file("TRIM.TAB", &strict(2, &rows));
    let listing = "     2     1     0\n     1     2     1     1       0       0\n\
                   \x20    2     2     2     1       0       0\n     2     1           2\n";
    let output = pair(&field, &trim, &numbers(query(2, 1, 0).into()));
    assert_listed(&output, listing.as_bytes(), "equal sums");
}

#[test]
fn a_row_far_down_is_named() {
    let folder = Folder::new("far");
    let mut f: Vec<i32> = [1, 5, 0, 0].repeat(40_000);
    let trim = folder.file("TRIM.TAB", &strict(2, &[1, 5, 0, 0]));
    f[4 * 39_998 + 2] = 12_701;
    let field = folder.file("FIELD.TAB", &strict(1, &f));
    let ask = |field: &Path| pair(field, &trim, &["1", "1", "0"].map(String::from));
    assert_refused(&ask(&field), 6, "FIELD.TAB, row 39999: ", "row limit");
    f[4 * 39_998 + 2] = 0;
    f[4 * 39_999 + 1] = 6;
    let field = folder.file("FIELD.TAB", &strict(1, &f));
    assert_refused(&ask(&field), 7, "FIELD.TAB, row 40000: ", "row order");
    let field = folder.file("FIELD.TAB", &strict(1, &[1, 5, 0, 0].repeat(65_536)));
    assert_refused(&ask(&field), 4, "FIELD.TAB: ", "65,536 rows");
    let mut longest = strict(1, &[1, 5, 0, 0].repeat(65_535));
    longest.push(b'\n');
    let field = folder.file("FIELD.TAB", &longest);
    assert_refused(&ask(&field), 8, "FIELD.TAB: ", "a byte more");
}

#[test]
fn numbers_outside_their_range() {
    let folder = Folder::new("numbers");
    let field = folder.file("FIELD.TAB", &strict(1, &[1, 5, 0, 0]));
    let trim = folder.file("TRIM.TAB", &strict(2, &[1, 5, 0, 0]));
    let huge = "9".repeat(60);
    let cases: [(&[&str], u32); 14] = [
        (&["0", "1", "0"], 1),
        (&["65", "0", "0"], 1),
        (&["-3", "1", "0"], 1),
        (&[&huge, "1", "0"], 1),
        (&["1", "1025", "40001"], 2),
        (&["1", "4294967297", "0"], 2),
        (&["1", "1", "40001"], 3),
        (&["1", "1", "-1"], 3),
        (&["1", "1", "40001", "0", "10"], 3),
        (&["1", "1", "0", "0", "1"], 12),
        (&["1", "1", "0", "1", "0"], 12),
        (&["1", "1", "0", "10", "1"], 12),
        (&["1", "1", "0", "-1", "1"], 12),
        (&["1", "1", "0", "9", &huge], 12),
    ];
    for (given, number) in cases {
        let strings: Vec<String> = given.iter().map(|word| word.to_string()).collect();
        let output = pair(&field, &trim, &strings);
        assert_refused(&output, number, "query: ", &format!("{given:?}"));
    }
    let output = pair(&field, &trim, &["1", "1", "0", "0", "1"].map(String::from));
    assert_eq!(
        words(&output),
        "furzeladle: query: refused by 12, weight: a weight outside 1 to 9\n"
    );
}

/// 16 comes after 12 and before 15, and after the files' refusals.
#[test]
fn tolerances_outside_their_range() {
    let folder = Folder::new("outside");
    let (field, trim) = (strict(1, &[1, 5, 0, 0]), strict(2, &[1, 5, 0, 0]));
    let huge = format!("0,{}", "9".repeat(60));
    for outside in ["501,0", "0,501", "-1,0", "0,-1", "4294967296,0", &huge] {
        let given = ["1", "1", "0", "--tolerance", outside];
        let output = paired(&folder, &field, &trim, &given);
        assert_refused(&output, 16, "query: ", outside);
        assert_eq!(
            words(&output),
            "furzeladle: query: refused by 16, tolerance: a tolerance outside 0 to 500\n"
        );
        let surely = [&given[..], &["--surely"]].concat();
        assert_refused(&paired(&folder, &field, &trim, &surely), 16, "", outside);
        let heavy = ["1", "1", "0", "1", "10", "--tolerance", outside];
        assert_refused(&paired(&folder, &field, &trim, &heavy), 12, "", outside);
        let other_card = strict(4, &[1, 5, 0, 0, 0]);
        assert_refused(
            &paired(&folder, &field, &other_card, &given),
            16,
            "",
            outside,
        );
        assert_refused(
            &paired(&folder, &trim, &trim, &given),
            10,
            "FIELD.TAB: ",
            outside,
        );
    }
    let most = ["1", "1", "0", "--tolerance", "500,500"];
    assert_eq!(paired(&folder, &field, &trim, &most).status.code(), Some(0));
}

/// Options stand anywhere, and in any order; a meaning needs no tolerances.
#[test]
fn options_between_the_numbers() {
    let folder = Folder::new("options");
    let field = folder.file("FIELD.TAB", &strict(1, &[1, 5, 0, 0]));
    let trim = folder.file("TRIM.TAB", &strict(2, &[2, 4, 3, 4]));
    let word = |word: &str| match word {
        "F" => field.clone().into_os_string(),
        "T" => trim.clone().into_os_string(),
        _ => word.into(),
    };
    let list = |given: &str| {
        let output = run(&given.split(' ').map(word).collect::<Vec<_>>());
        assert_eq!(output.status.code(), Some(0), "{given}");
        String::from_utf8(output.stdout).unwrap()
    };
    let pairs = |given: &str| list(given).lines().count() - 2;
    let wanted = list("F T 1 1 8 1 1 --tolerance 1,1 --surely");
    assert_eq!(list("--surely --tolerance 1,1 F T 1 1 8 1 1"), wanted);
    assert_eq!(list("F --tolerance 1,1 T 1 1 8 --surely 1 1"), wanted);
    // 5 and 6 apart at the farthest, 1 and 2 at the nearest
    assert_eq!(pairs("F T 1 1 8 --tolerance 1,1 --surely"), 1);
    assert_eq!(pairs("F T 1 1 7 --tolerance 1,1 --surely"), 0);
    assert_eq!(pairs("F T 1 1 3 --tolerance 1,1"), 1);
    assert_eq!(pairs("F T 1 1 3 --tolerance 2,0"), 1);
    assert_eq!(pairs("F T 1 1 2 --tolerance 0,2"), 0);
    assert_eq!(pairs("F T 1 1 5 --surely"), 1);
    assert_eq!(pairs("F T 1 1 5"), 1);
}

/// Options that are unknown, given twice or lack their numbers, and numbers that are missing beside them.
#[test]
fn options_that_are_none() {
    for given in [
        "F T 1 1 5 --tolerance",
        "F T 1 1 5 --tolerance 1",
        "F T 1 1 5 --tolerance 1 1",
        "F T 1 1 5 --tolerance 1,",
        "F T 1 1 5 --tolerance ,1",
        "F T 1 1 5 --tolerance ,",
        "F T 1 1 5 --tolerance 1,1,1",
        "F T 1 1 5 --tolerance 1, 1",
        "F T 1 1 5 --tolerance 1,one",
        "F T 1 1 5 --tolerance +1,1",
        "F T 1 1 5 --tolerance 1.5,1",
        "F T 1 1 5 --tolerance --surely",
        "F T 1 1 5 --tolerance=1,1",
        "F T 1 1 5 --tolerance 1,1 --tolerance 1,1",
        "F T 1 1 5 --surely --surely",
        "F T 1 1 5 --surely 1",
        "F T 1 1 5 --possibly",
        "--possibly T 1 1 5",
        "F --possibly 1 1 5",
        "F T 1 1 --tolerance 1,1",
        "F T 1 1 --surely",
        "--surely",
    ] {
        let output = run(&given.split(' ').collect::<Vec<_>>());
        assert_eq!(output.status.code(), Some(2), "{given}");
        assert!(output.stdout.is_empty() && words(&output).starts_with("usage: furzeladle "));
    }
}

#[test]
fn arguments_that_are_none() {
    let wrong: [&[&str]; 9] = [
        &[],
        &["F", "T", "1", "1"],
        &["F", "T", "1", "1", "5", "6"],
        &["F", "T", "one", "1", "5"],
        &["F", "T", "1", "1.5", "5"],
        &["F", "T", "1", "1", ""],
        &["F", "T", "1", "+1", "5"],
        &["F", "T", "1", "1", "5", "1", "one"],
        &["F", "T", "1", "1", "5", "1", "1", "1"],
    ];
    for given in wrong {
        let output = run(given);
        assert_eq!(output.status.code(), Some(2), "{given:?}");
        assert!(output.stdout.is_empty() && words(&output).starts_with("usage: furzeladle "));
    }
    let help = run(&["--help"]);
    assert_eq!(help.status.code(), Some(0));
    assert!(help.stdout.starts_with(b"usage: furzeladle ") && help.stderr.is_empty());
}

#[test]
fn a_file_that_cannot_be_read() {
    let folder = Folder::new("unreadable");
    let missing = folder.0.join("NOWHERE.TAB");
    for unreadable in [missing.as_path(), folder.0.as_path()] {
        let output = pair(unreadable, &missing, &["1", "1", "5"].map(String::from));
        let said = words(&output);
        assert_eq!(output.status.code(), Some(3));
        assert!(
            said.contains(&format!("{}: cannot be read: ", unreadable.display())),
            "{said}"
        );
    }
}

/// Standard output with no room, and standard error that nobody reads: a status, no panic.
#[test]
fn output_that_cannot_be_written() {
    let folder = Folder::new("output");
    let field = folder.file("FIELD.TAB", &strict(1, &[1, 5, 0, 0]));
    let trim = folder.file("TRIM.TAB", &strict(2, &[1, 5, 0, 0]));
    let full = || {
        Stdio::from(
            fs::OpenOptions::new()
                .write(true)
                .open("/dev/full")
                .unwrap(),
        )
    };
    let ask = |command: &mut Command| {
        command
            .args([&field, &trim])
            .args(["1", "1", "5"])
            .output()
            .unwrap()
    };
    let output = ask(command().stdout(full()));
    assert_eq!(output.status.code(), Some(3));
    assert!(words(&output).contains("standard output: cannot be written: "));
    assert_eq!(
        ask(command().stdout(full()).stderr(full())).status.code(),
        Some(3)
    );
}

#[test]
fn a_closed_reader() {
    // Shut down, not only dropped: a process that another test is starting may hold what is dropped for a moment.
    let (reader, writer) = UnixStream::pair().unwrap();
    reader.shutdown(Shutdown::Both).unwrap();
    let output = command()
        .arg("--help")
        .stdout(OwnedFd::from(writer))
        .output()
        .unwrap();
    assert_eq!(output.status.code(), Some(3));
    assert!(words(&output).contains("cannot be written"));
}
