//! The words behind a subcommand: options in any order, as `--option value` or `--option=value`, and what stands between
//! them. Behind `--` nothing is an option.
use std::ffi::{OsStr, OsString};

/// What is wrong with the words, in words.
pub type Wrong = String;

/// The options that a subcommand takes.
pub struct Known {
    /// Those that a value follows.
    pub valued: &'static [&'static str],
    /// Those that stand alone.
    pub bare: &'static [&'static str],
}

/// The words, sorted.
#[derive(Debug, Default)]
pub struct Words {
    options: Vec<(&'static str, OsString)>,
    /// What is no option, in its order.
    pub plain: Vec<OsString>,
}

/// A whole number as the library takes it. One that 32 bits cannot hold is outside every range, and so is the number
/// that stands for it: the library refuses it by its own number.
pub fn number(text: &OsStr) -> Option<u32> {
    let text = text.to_str()?;
    let digits = text.strip_prefix('-').unwrap_or(text);
    if digits.is_empty() || !digits.bytes().all(|b| b.is_ascii_digit()) {
        return None;
    }
    Some(text.parse().unwrap_or(u32::MAX))
}

/// Two numbers with a comma between them.
pub fn two(text: &OsStr) -> Option<(u32, u32)> {
    let (field, trim) = text.to_str()?.split_once(',')?;
    Some((number(field.as_ref())?, number(trim.as_ref())?))
}

/// A dash alone is a file: standard input.
fn is_option(word: &OsStr) -> bool {
    word != "-" && word.as_encoded_bytes().starts_with(b"-")
}

/// Whether help is wanted, whatever else is.
pub fn ask_for_help(given: &[OsString]) -> bool {
    let options = given.iter().take_while(|word| *word != "--");
    options
        .into_iter()
        .any(|word| word == "--help" || word == "-h")
}

/// A word as it is shown in a message.
fn shown(word: &OsStr) -> String {
    format!("'{}'", word.to_string_lossy())
}

impl Known {
    /// The words, sorted. Wrong where an option is unknown, is given twice, or lacks its value or has one too many.
    pub fn sort(&self, given: &[OsString]) -> Result<Words, Wrong> {
        let mut words = Words::default();
        let mut left = given.iter();
        while let Some(word) = left.next() {
            if word == "--" {
                words.plain.extend(left.cloned());
                break;
            } else if is_option(word) {
                let (name, value) = self.option(word, &mut left)?;
                words.add(name, value)?;
            } else {
                words.plain.push(word.clone());
            }
        }
        Ok(words)
    }

    fn option<'a>(
        &self,
        word: &OsStr,
        left: &mut impl Iterator<Item = &'a OsString>,
    ) -> Result<(&'static str, OsString), Wrong> {
        let unknown = || format!("unknown option {}", shown(word));
        let text = word.to_str().ok_or_else(unknown)?;
        let (name, joined) = match text.split_once('=') {
            Some((name, value)) => (name, Some(OsString::from(value))),
            None => (text, None),
        };
        let among = |names: &'static [&'static str]| names.iter().copied().find(|n| *n == name);
        if let Some(name) = among(self.valued) {
            let value = joined.or_else(|| left.next().cloned());
            return Ok((
                name,
                value.ok_or_else(|| format!("{name} lacks its value"))?,
            ));
        }
        match (among(self.bare), joined) {
            (Some(name), None) => Ok((name, OsString::new())),
            (Some(name), Some(_)) => Err(format!("{name} takes no value")),
            (None, _) => Err(unknown()),
        }
    }
}

impl Words {
    fn add(&mut self, name: &'static str, value: OsString) -> Result<(), Wrong> {
        if self.has(name) {
            return Err(format!("{name} is given twice"));
        }
        self.options.push((name, value));
        Ok(())
    }

    /// Whether the option is given.
    pub fn has(&self, name: &str) -> bool {
        self.value(name).is_some()
    }

    /// The value of an option, if it is given.
    pub fn value(&self, name: &str) -> Option<&OsStr> {
        let given = self.options.iter().find(|(option, _)| *option == name);
        given.map(|(_, value)| value.as_os_str())
    }

    /// What an option's value says, or the default. `what` is what it should be.
    fn read<T>(
        &self,
        name: &str,
        default: T,
        what: &str,
        read: impl Fn(&OsStr) -> Option<T>,
    ) -> Result<T, Wrong> {
        let Some(value) = self.value(name) else {
            return Ok(default);
        };
        read(value).ok_or_else(|| format!("{name} takes {what}, not {}", shown(value)))
    }

    /// A whole number.
    pub fn number(&self, name: &str, default: u32) -> Result<u32, Wrong> {
        self.read(name, default, "a whole number", number)
    }

    /// A whole number of up to 64 bits.
    pub fn long(&self, name: &str, default: u64) -> Result<u64, Wrong> {
        let digits = |text: &OsStr| number(text).and(text.to_str()?.parse().ok());
        let what = format!("a whole number up to {}", u64::MAX);
        self.read(name, default, &what, digits)
    }

    /// Two numbers, the field table's and the trim table's.
    pub fn two(&self, name: &str, default: (u32, u32)) -> Result<(u32, u32), Wrong> {
        self.read(name, default, "two whole numbers as 1,2", two)
    }

    /// One of these words, the first where none is given.
    pub fn choice<T: Copy>(&self, name: &str, choices: &[(&str, T)]) -> Result<T, Wrong> {
        let words: Vec<&str> = choices.iter().map(|(word, _)| *word).collect();
        let chosen = |value: &OsStr| {
            let choice = choices.iter().find(|(word, _)| value == *word)?;
            Some(choice.1)
        };
        self.read(name, choices[0].1, &words.join(" or "), chosen)
    }

    /// The plain words, which are so many. `what` says what they are.
    pub fn exactly<const N: usize>(&self, what: &str) -> Result<[&OsString; N], Wrong> {
        let plain: Vec<&OsString> = self.plain.iter().collect();
        let count = plain.len();
        plain
            .try_into()
            .map_err(|_| format!("takes {what}, not {count}"))
    }
}

#[cfg(test)]
mod tests {
    use super::*;

    const KNOWN: Known = Known {
        valued: &["--of", "--html"],
        bare: &["--surely"],
    };

    fn sort(text: &str) -> Result<Words, Wrong> {
        KNOWN.sort(&text.split(' ').map(OsString::from).collect::<Vec<_>>())
    }

    #[test]
    fn options_in_any_order_and_either_form() {
        for text in [
            "a --of 3 --surely b",
            "--of=3 a b --surely",
            "--surely a --of 3 -- b",
        ] {
            let words = sort(text).unwrap();
            assert_eq!(
                (words.number("--of", 1), words.has("--surely")),
                (Ok(3), true)
            );
            assert_eq!(words.plain, ["a", "b"]);
        }
        let words = sort("- -- --of -x").unwrap();
        assert_eq!(words.plain, ["-", "--of", "-x"]);
        assert_eq!(words.number("--of", 7), Ok(7));
        assert_eq!(
            sort("--html=a=b").unwrap().value("--html"),
            Some("a=b".as_ref())
        );
        assert_eq!(sort("--of= a").unwrap().value("--of"), Some("".as_ref()));
    }

    #[test]
    fn wrong_ones_in_words() {
        for (text, wrong) in [
            ("--off 3", "unknown option '--off'"),
            ("-o 3", "unknown option '-o'"),
            ("a --of", "--of lacks its value"),
            ("--of 3 --of=3", "--of is given twice"),
            ("--surely --surely", "--surely is given twice"),
            ("--surely=yes", "--surely takes no value"),
        ] {
            assert_eq!(sort(text).unwrap_err(), wrong);
        }
        let wrong = sort("--of ten").unwrap().number("--of", 1);
        assert_eq!(wrong.unwrap_err(), "--of takes a whole number, not 'ten'");
        let wrong = sort("--of 1,2,3").unwrap().two("--of", (1, 1));
        assert_eq!(
            wrong.unwrap_err(),
            "--of takes two whole numbers as 1,2, not '1,2,3'"
        );
        let wrong = sort("--of xml")
            .unwrap()
            .choice("--of", &[("csv", 1), ("json", 2)]);
        assert_eq!(wrong.unwrap_err(), "--of takes csv or json, not 'xml'");
        let wrong = sort("a b c").unwrap().exactly::<2>("two files").map(|_| ());
        assert_eq!(wrong.unwrap_err(), "takes two files, not 3");
    }

    #[test]
    fn numbers_that_do_not_fit() {
        let words = sort("--of=-1 --html=18446744073709551616").unwrap();
        assert_eq!(words.number("--of", 1), Ok(u32::MAX));
        assert!(words.long("--of", 1).is_err() && words.long("--html", 1).is_err());
        let most = sort("--of 18446744073709551615").unwrap();
        assert_eq!(most.long("--of", 1), Ok(u64::MAX));
    }
}
