//! The texts of `--help` and `--version`.

/// A text as a man page has it: NAME, SYNOPSIS and so on.
#[derive(Clone, Copy)]
pub struct Help(pub &'static str);

pub const MAIN: Help = Help(include_str!("help/furzeladle.txt"));
pub const LIST: Help = Help(include_str!("help/list.txt"));
pub const CHECK: Help = Help(include_str!("help/check.txt"));
pub const SAMPLE: Help = Help(include_str!("help/sample.txt"));

/// The command's version, and that of the library which it was linked with.
pub fn version() -> String {
    let (command, library) = (env!("CARGO_PKG_VERSION"), furzeladle::version());
    format!("furzeladle {command} (library {library})\n")
}

/// All forms of the command, and where there is more.
pub fn usage() -> String {
    let forms = MAIN.0.split("\n\n").next().unwrap_or(MAIN.0);
    format!("{forms}\n'furzeladle --help' says more.")
}

impl Help {
    /// The lines behind SYNOPSIS.
    fn synopsis(self) -> &'static str {
        let behind = self.0.split("\nSYNOPSIS\n").nth(1).unwrap_or(self.0);
        behind.split("\n\n").next().unwrap_or(behind)
    }

    /// The first words of NAME: the command and its subcommand.
    fn name(self) -> &'static str {
        let line = self.0.lines().nth(1).unwrap_or(self.0);
        line.split(" - ").next().unwrap_or(line).trim()
    }

    /// What is said of arguments that are wrong.
    pub fn wrong(self, why: &str) -> String {
        let (name, synopsis) = (self.name(), self.synopsis());
        format!("{name}: {why}\nusage:\n{synopsis}\n'{name} --help' says more.")
    }
}

#[cfg(test)]
mod tests {
    use super::*;

    #[test]
    fn parts_of_a_text() {
        assert_eq!(
            (LIST.name(), CHECK.name()),
            ("furzeladle list", "furzeladle check")
        );
        assert_eq!(CHECK.synopsis(), "    furzeladle check FILE..");
        let wrong = CHECK.wrong("takes a file");
        assert!(wrong.starts_with("furzeladle check: takes a file\nusage:\n    furzeladle check"));
        assert!(usage().starts_with("usage: furzeladle list "));
    }

    #[test]
    fn each_has_its_parts_and_fits_a_terminal() {
        for text in [MAIN, LIST, CHECK, SAMPLE] {
            for part in ["NAME", "SYNOPSIS", "OPTIONS", "EXIT STATUS", "EXAMPLE"] {
                assert!(text.0.contains(&format!("{part}\n    ")), "{part}");
            }
            assert!(text
                .0
                .lines()
                .all(|line| line.len() <= 80 && line == line.trim_end()));
        }
    }
}
