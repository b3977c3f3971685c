//! `furzeladle sample`: a made-up archive of two strict files, the same bytes for the same seed.
use crate::arguments::{Known, Wrong};
use crate::check;
use crate::dice::Dice;
use crate::fault::Fault;
use crate::help;
use crate::output::{self, Standing};
use crate::source::Source;
use furzeladle::sys::MOST_ROWS;
use furzeladle::{AnyTable, Card, Kind, Refusal, Table};
use std::ffi::OsString;
use std::fs;
use std::path::PathBuf;

const KNOWN: Known = Known {
    valued: &["--rows", "--seed", "--card"],
    bare: &["--force"],
};

/// What the words ask for.
struct Wanted {
    folder: PathBuf,
    rows: [u32; 2],
    seed: u64,
    card: Card,
    force: bool,
}

impl Wanted {
    fn of(given: &[OsString]) -> Result<Wanted, Wrong> {
        let words = KNOWN.sort(given)?;
        let [folder] = words.exactly("one folder")?;
        if folder.is_empty() {
            return Err("takes one folder, and '' names none".to_string());
        }
        let (field, trim) = words.two("--rows", (38_000, 12_000))?;
        Ok(Wanted {
            folder: folder.into(),
            rows: [field, trim],
            seed: words.long("--seed", 1)?,
            card: words.choice("--card", &[("old", Card::Old), ("new", Card::New)])?,
            force: words.has("--force"),
        })
    }
}

/// A file to be written.
struct Made {
    path: PathBuf,
    bytes: Vec<u8>,
}

/// A shade in hundredths: a, b and L.
type Shade = [i32; 3];

/// The middles of the dye families, by what they are commonly called.
const FAMILIES: [Shade; 20] = [
    [4_200, 2_400, 3_800],   // madder red
    [3_000, 900, 3_000],     // wine
    [1_900, 300, 6_800],     // old rose
    [2_600, 3_800, 5_500],   // rust
    [1_300, 4_600, 6_400],   // ochre
    [300, 3_300, 7_800],     // straw
    [300, 1_200, 8_200],     // sand
    [600, 1_900, 5_600],     // camel
    [1_000, 1_500, 3_600],   // walnut
    [0, 300, 2_200],         // charcoal
    [-100, -200, 5_400],     // slate grey
    [0, 500, 8_900],         // undyed wool
    [-900, 2_200, 4_600],    // olive
    [-1_800, 1_300, 4_200],  // moss
    [-3_000, 1_000, 3_900],  // bottle green
    [-1_400, 500, 6_900],    // sage
    [-1_700, -1_200, 4_500], // petrol
    [-500, -2_000, 5_900],   // dusk blue
    [700, -3_200, 3_000],    // indigo
    [2_200, -1_800, 3_500],  // plum
];

/// How far a recipe may lie from its family's middle, and a pattern from its recipe, in a, b and L.
const OF_FAMILY: Shade = [2_400, 2_400, 2_400];
const OF_RECIPE: Shade = [150, 150, 200];

/// The first pattern number.
const FIRST: u32 = 10_001;

const RECIPES: usize = 600;
/// The first recipes are used for fields and the last ones for trim, so many each: 400 of them for both.
const USED: usize = 500;

/// The ranges that a table's shades keep to.
const LEAST: Shade = [-12_800, -12_800, 0];
const MOST: Shade = [12_700, 12_700, 10_000];

fn near(dice: &mut Dice, middle: Shade, by: Shade) -> Shade {
    [0, 1, 2].map(|i| (middle[i] + dice.around(by[i])).clamp(LEAST[i], MOST[i]))
}

fn recipes(dice: &mut Dice) -> Vec<Shade> {
    let mut recipe = || {
        let family = FAMILIES[dice.below(FAMILIES.len() as u64) as usize];
        near(dice, family, OF_FAMILY)
    };
    (0..RECIPES).map(|_| recipe()).collect()
}

/// Scores that fall from a few best-sellers to a long tail, the last ones withdrawn: by the square of how far down the
/// order books a pattern was thrown.
fn scores(dice: &mut Dice, rows: u32) -> Vec<i32> {
    const LAST: u64 = 1 << 20;
    const BEND: u64 = LAST / 20;
    let mut thrown: Vec<u64> = (0..rows).map(|_| dice.below(LAST)).collect();
    thrown.sort_unstable();
    let score = |at: &u64| (9_800 * BEND * BEND / (BEND + at).pow(2)) as i32;
    let mut scores: Vec<i32> = thrown.iter().map(score).collect();
    let withdrawn = rows.div_ceil(400).min(rows / 2);
    let live = (rows - withdrawn) as usize;
    scores[live..].fill(0);
    scores
}

/// A table's rows: pattern number, score, a, b, L. The numbers are those from the first on, in no order.
fn rows(dice: &mut Dice, first: u32, count: u32, recipes: &[Shade]) -> Vec<[i32; 5]> {
    let scores = scores(dice, count);
    let patterns = dice.shuffled(count);
    let mut row = |(score, pattern): (i32, u32)| {
        let recipe = recipes[dice.below(recipes.len() as u64) as usize];
        let [a, b, l] = near(dice, recipe, OF_RECIPE);
        [(first + pattern) as i32, score, a, b, l]
    };
    scores.into_iter().zip(patterns).map(&mut row).collect()
}

/// The strict file of these rows. On the old card L is left away.
fn strict(kind: Kind, rows: &[[i32; 5]]) -> Vec<u8> {
    let mut text = format!("{:>6}{:>6}\n", rows.len(), kind.number());
    for [pattern, score, a, b, l] in rows {
        text += &format!("{pattern:>6}{score:>6}{a:>7}{b:>7}");
        text += &match kind.card {
            Card::Old => "\n".to_string(),
            Card::New => format!("{l:>6}\n"),
        };
    }
    text.into_bytes()
}

/// The rows of both tables. No pattern number is in both: those of trim begin at the next ten thousand.
fn archive(seed: u64, [field, trim]: [u32; 2]) -> [Vec<[i32; 5]>; 2] {
    let mut dice = Dice::new(seed);
    let recipes = recipes(&mut dice);
    let behind = (FIRST + field).next_multiple_of(10_000) + 1;
    let field = rows(&mut dice, FIRST, field, &recipes[..USED]);
    let trim = rows(&mut dice, behind, trim, &recipes[RECIPES - USED..]);
    [field, trim]
}

/// More rows than a table may have are refused before any are made.
fn made(wanted: &Wanted) -> Result<Vec<Made>, Fault> {
    let paths = ["FIELD.TAB", "TRIM.TAB"].map(|name| wanted.folder.join(name));
    for (path, rows) in paths.iter().zip(wanted.rows) {
        if rows as usize > MOST_ROWS {
            return Err(Fault::File(Source::File(path.clone()), Refusal::TableSize));
        }
    }
    let tables = [Table::Field, Table::Trim].map(|table| Kind::new(table, wanted.card));
    let rows = archive(wanted.seed, wanted.rows);
    let files = paths.into_iter().zip(tables.into_iter().zip(rows));
    let file = |(path, (kind, rows)): (PathBuf, (Kind, Vec<[i32; 5]>))| Made {
        path,
        bytes: strict(kind, &rows),
    };
    Ok(files.map(file).collect())
}

/// Writes the files that are not there already. Where one would be lost by it, none is written.
fn write(files: &[Made], force: bool) -> Result<(), Fault> {
    let standing: Vec<Standing> = files
        .iter()
        .map(|file| output::standing(&file.path, &file.bytes))
        .collect();
    for (file, standing) in files.iter().zip(&standing) {
        if matches!(standing, Standing::Other) && !force {
            let why = "it is there already; --force replaces it";
            return Err(Fault::Kept(file.path.clone(), why));
        }
    }
    for (file, standing) in files.iter().zip(&standing) {
        match standing {
            Standing::Same => {}
            Standing::Nothing => output::create(&file.path, &file.bytes)?,
            Standing::Other => output::replace(&file.path, &file.bytes)?,
        }
    }
    Ok(())
}

/// What each file is, by the library's own reading of it.
fn words(files: &[Made]) -> Result<String, Fault> {
    let line = |file: &Made| {
        let source = Source::File(file.path.clone());
        match AnyTable::from_file(&file.bytes) {
            Ok(table) => Ok(check::words(&source, &table)),
            Err(refusal) => Err(Fault::File(source, refusal)),
        }
    };
    files.iter().map(line).collect()
}

pub fn run(given: &[OsString]) -> Result<(), Fault> {
    let wanted = Wanted::of(given).map_err(|why| Fault::Wrong(help::SAMPLE, why))?;
    let files = made(&wanted)?;
    let words = words(&files)?;
    fs::create_dir_all(&wanted.folder)
        .map_err(|error| Fault::Unwritable(wanted.folder.clone(), error))?;
    write(&files, wanted.force)?;
    output::print(words.as_bytes())
}

#[cfg(test)]
mod tests {
    use super::*;
    use std::collections::HashSet;

    #[test]
    fn scores_fall_with_ties_to_a_tail_and_the_withdrawn() {
        let scores = scores(&mut Dice::new(1), 38_000);
        assert!(scores.windows(2).all(|two| two[0] >= two[1]));
        assert!(scores[0] > 9_500 && scores[0] <= 9_999);
        assert!(scores[3_800] < 5_000 && scores[19_000] < 200);
        assert!(scores.windows(2).filter(|two| two[0] == two[1]).count() > 19_000);
        assert_eq!(scores.iter().filter(|score| **score == 0).count(), 95);
        assert_eq!(super::scores(&mut Dice::new(1), 0), []);
        assert!(super::scores(&mut Dice::new(1), 1)[0] > 0);
    }

    #[test]
    fn numbers_are_unique_and_seeds_differ() {
        for rows in [[3_800, 1_200], [65_535, 65_535], [9_999, 1], [0, 2]] {
            let tables = archive(1, rows);
            let patterns: Vec<i32> = tables.iter().flatten().map(|row| row[0]).collect();
            assert!(patterns.iter().all(|number| (1..=999_999).contains(number)));
            assert_eq!(
                patterns.iter().collect::<HashSet<_>>().len(),
                patterns.len()
            );
            assert!(archive(1, rows) == tables && archive(2, rows) != tables);
        }
    }

    /// Many a shade of one table lies near one of the other.
    #[test]
    fn shades_are_common_to_both() {
        let [field, trim] = archive(1, [500, 500]);
        let is_near = |x: &[i32; 5], y: &[i32; 5]| (2..5).all(|i| x[i].abs_diff(y[i]) <= 150);
        let paired = field.iter().filter(|x| trim.iter().any(|y| is_near(x, y)));
        assert!((100..400).contains(&paired.count()));
    }
}
