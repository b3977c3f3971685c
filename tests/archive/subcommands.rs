//! The archive's command by its subcommands: beside what is stored, beside the form without them, and what is said and
//! left alone where something is wrong.
use furzeladle_tests::file;
use std::ffi::{OsStr, OsString};
use std::fs;
use std::io::Write;
use std::net::Shutdown;
use std::os::fd::OwnedFd;
use std::os::unix::ffi::OsStrExt;
use std::os::unix::net::UnixStream;
use std::path::{Path, PathBuf};
use std::process::{Command, Output, Stdio};

const COMMAND: &str = env!("CARGO_BIN_EXE_furzeladle");

fn run<S: AsRef<OsStr>>(words: &[S]) -> Output {
    Command::new(COMMAND).args(words).output().unwrap()
}

/// The command with the words of a line.
fn said(line: &str) -> Output {
    run(&line.split_whitespace().collect::<Vec<_>>())
}

/// The same in a folder, with these bytes on standard input.
fn in_folder(folder: &Path, line: &str, input: &[u8]) -> Output {
    let mut child = Command::new(COMMAND)
        .args(line.split_whitespace())
        .current_dir(folder)
        .stdin(Stdio::piped())
        .stdout(Stdio::piped())
        .stderr(Stdio::piped())
        .spawn()
        .unwrap();
    // one that reads no input may be gone
    let _ = child.stdin.take().unwrap().write_all(input);
    child.wait_with_output().unwrap()
}

fn out(output: &Output) -> String {
    String::from_utf8(output.stdout.clone()).unwrap()
}

fn words(output: &Output) -> String {
    String::from_utf8(output.stderr.clone()).unwrap()
}

/// Done, with nothing on standard error: what was printed.
fn done(output: &Output, what: &str) -> String {
    assert_eq!(words(output), "", "{what}");
    assert_eq!(output.status.code(), Some(0), "{what}");
    out(output)
}

/// Not done, with nothing printed: what was said.
fn not_done(output: &Output, status: i32, what: &str) -> String {
    assert_eq!(out(output), "", "{what}");
    let said = words(output);
    assert_eq!(output.status.code(), Some(status), "{what}: {said}");
    said
}

fn tests() -> PathBuf {
    Path::new(env!("CARGO_MANIFEST_DIR")).join("../../tests")
}

/// The folders below one of tests.
fn folders(name: &str) -> Vec<PathBuf> {
    let entries = fs::read_dir(tests().join(name)).unwrap();
    let paths = entries.map(|entry| entry.unwrap().path());
    paths.filter(|path| path.is_dir()).collect()
}

/// A folder of a test's own, gone when it ends.
struct Folder(PathBuf);

impl Folder {
    fn new(name: &str) -> Folder {
        let name = format!("furzeladle-sub-{name}-{}", std::process::id());
        let path = std::env::temp_dir().join(name);
        fs::create_dir_all(&path).unwrap();
        Folder(path)
    }

    /// The same with two small tables, of which four pairs lie within 255.
    fn with_tables(name: &str) -> Folder {
        let folder = Folder::new(name);
        folder.file("F", &file(1, &[[101, 90, 0, 0], [102, 80, 100, 0]]));
        folder.file("T", &file(2, &[[201, 70, 3, 4], [202, 50, 4, 3]]));
        folder
    }

    fn file(&self, name: &str, bytes: &[u8]) {
        fs::write(self.0.join(name), bytes).unwrap();
    }

    fn read(&self, name: &str) -> Vec<u8> {
        fs::read(self.0.join(name)).unwrap()
    }

    fn run(&self, line: &str) -> Output {
        in_folder(&self.0, line, b"")
    }
}

impl Drop for Folder {
    fn drop(&mut self) {
        let _ = fs::remove_dir_all(&self.0);
    }
}

fn stored(case: &Path, name: &str) -> String {
    fs::read_to_string(case.join(name)).unwrap()
}

/// Each form of each stored case, to the byte; tests/archive/stored/make writes them.
#[test]
fn stored_forms() {
    let cases = folders("archive/stored");
    assert!(cases.len() >= 8);
    for case in cases {
        let what = case.display().to_string();
        let list = format!("list FIELD.TAB TRIM.TAB {}", stored(&case, "args"));
        let listing = stored(&case, "listing");
        assert_eq!(done(&in_folder(&case, &list, b""), &what), listing);
        for format in ["listing", "csv", "json"] {
            let output = in_folder(&case, &format!("{list} --format {format}"), b"");
            assert_eq!(done(&output, &what), stored(&case, format));
        }
        let output = in_folder(&case, &format!("{list} --html -"), b"");
        assert_eq!(done(&output, &what), stored(&case, "page.html"));
        // the list and the page of one reading
        let folder = Folder::new("stored");
        let page = folder.0.join("page.html");
        let output = in_folder(&case, &format!("{list} --html {}", page.display()), b"");
        assert_eq!(done(&output, &what), listing);
        assert_eq!(
            fs::read_to_string(page).unwrap(),
            stored(&case, "page.html")
        );
    }
}

/// What the form without a subcommand is given, as options of `list`.
fn as_options(numbers: &[String]) -> String {
    let mut line = String::new();
    let mut plain = Vec::new();
    let mut left = numbers.iter();
    while let Some(word) = left.next() {
        match word.as_str() {
            "--surely" => line += " --surely",
            "--tolerance" => line += &format!(" --tolerance={}", left.next().unwrap()),
            _ => plain.push(word.as_str()),
        }
    }
    line += &format!(
        " --pairs {} --block {} --radius {}",
        plain[0], plain[1], plain[2]
    );
    if let [v, w] = plain[3..] {
        line += &format!(" --weights {v},{w}");
    }
    line
}

/// The numbers of a stored case, from its args or its input.
fn numbers(case: &Path) -> Option<Vec<String>> {
    if let Ok(args) = fs::read_to_string(case.join("args")) {
        return Some(args.split_whitespace().map(String::from).collect());
    }
    let input = fs::read(case.join("stdin")).ok()?;
    let text = std::str::from_utf8(&input).ok()?.strip_suffix('\n')?;
    let columns = (text.len() == 18).then(|| [&text[..6], &text[6..12], &text[12..]])?;
    let is_number = |n: &&str| !n.is_empty() && n.bytes().all(|b| b.is_ascii_digit());
    let numbers = columns.map(str::trim_start);
    let all = numbers.iter().all(is_number);
    all.then(|| numbers.map(String::from).to_vec())
}

/// `list` answers every stored case as the form without a subcommand does, also where the listing is written from the
/// list that the page is of.
#[test]
fn as_the_form_without_subcommands() {
    let cases = ["cases", "weights", "tolerances"].map(folders).concat();
    let (mut listed, mut refused) = (0, 0);
    let folder = Folder::new("as-before");
    let page = folder.0.join("page.html");
    for case in cases {
        let Some(numbers) = numbers(&case) else {
            continue;
        };
        let old = in_folder(
            &case,
            &format!("FIELD.TAB TRIM.TAB {}", numbers.join(" ")),
            b"",
        );
        let list = format!("list FIELD.TAB TRIM.TAB{}", as_options(&numbers));
        assert_eq!(in_folder(&case, &list, b""), old, "{list}");
        let with_page = format!("{list} --html {}", page.display());
        assert_eq!(in_folder(&case, &with_page, b""), old, "{with_page}");
        match old.status.code() {
            Some(0) => listed += 1,
            _ => refused += 1,
        }
    }
    assert!(listed >= 60 && refused >= 30, "{listed} and {refused}");
}

#[test]
fn options_in_any_order() {
    let folder = Folder::with_tables("order");
    let list = |line: &str| done(&folder.run(line), line);
    let wanted =
        list("list F T --pairs 3 --block 1 --radius 5 --weights 2,1 --tolerance 1,0 --surely");
    for line in [
        "list --surely --tolerance=1,0 --weights=2,1 --radius=5 --block=1 --pairs=3 F T",
        "list --pairs 3 F --block=1 --surely T --radius 5 --tolerance 1,0 --weights 2,1",
        "list --pairs 3 --block=1 --surely --radius 5 --tolerance 1,0 --weights 2,1 -- F T",
    ] {
        assert_eq!(list(line), wanted, "{line}");
    }
    let defaults = "list F T --pairs 10 --block 64 --radius 255 --weights 1,1 --tolerance 0,0";
    assert_eq!(list("list F T"), list(defaults));
    assert_eq!(list("list F T"), list("list F T --format=listing"));
    assert_eq!(list("list F T").lines().count(), 6);
    folder.file("-F", &folder.read("F"));
    assert_eq!(list("list -- -F T"), list("list F T"));
}

#[test]
fn arguments_that_are_wrong() {
    let folder = Folder::with_tables("wrong");
    for (line, why) in [
        ("list", "list: takes two files, FIELD and TRIM, not 0"),
        ("list F", "list: takes two files, FIELD and TRIM, not 1"),
        ("list F T T", "list: takes two files, FIELD and TRIM, not 3"),
        (
            "list F T 1 1 5",
            "list: takes two files, FIELD and TRIM, not 5",
        ),
        ("list F T --pairs", "list: --pairs lacks its value"),
        (
            "list F T --pairs ten",
            "list: --pairs takes a whole number, not 'ten'",
        ),
        (
            "list F T --pairs=",
            "list: --pairs takes a whole number, not ''",
        ),
        (
            "list F T --radius 1.5",
            "list: --radius takes a whole number, not '1.5'",
        ),
        (
            "list F T --block +1",
            "list: --block takes a whole number, not '+1'",
        ),
        (
            "list F T --weights 1",
            "list: --weights takes two whole numbers as 1,2, not '1'",
        ),
        (
            "list F T --tolerance 1,x",
            "list: --tolerance takes two whole numbers as 1,2, not '1,x'",
        ),
        (
            "list F T --format xml",
            "list: --format takes listing or csv or json, not 'xml'",
        ),
        ("list F T --surely=1", "list: --surely takes no value"),
        (
            "list F T --surely --surely",
            "list: --surely is given twice",
        ),
        (
            "list F T --pairs 1 --pairs=1",
            "list: --pairs is given twice",
        ),
        ("list F T --possibly", "list: unknown option '--possibly'"),
        ("list F T -p 3", "list: unknown option '-p'"),
        (
            "list - -",
            "list: only one of the two files can be standard input",
        ),
        ("check", "check: takes a file, or several"),
        ("check F --kind 1", "check: unknown option '--kind'"),
        (
            "check - F -",
            "check: only one of the files can be standard input",
        ),
        ("sample", "sample: takes one folder, not 0"),
        ("sample a b", "sample: takes one folder, not 2"),
        (
            "sample a --rows 10",
            "sample: --rows takes two whole numbers as 1,2, not '10'",
        ),
        (
            "sample a --card newest",
            "sample: --card takes old or new, not 'newest'",
        ),
        (
            "sample a --seed -1",
            "sample: --seed takes a whole number up to 18446744073709551615, not '-1'",
        ),
    ] {
        let said = not_done(&folder.run(line), 2, line);
        let first = said.lines().next().unwrap();
        assert_eq!(first, format!("furzeladle {why}"));
        let subcommand = line.split(' ').next().unwrap();
        assert!(
            said.contains(&format!("\nusage:\n    furzeladle {subcommand} ")),
            "{said}"
        );
        assert!(said.ends_with(&format!("'furzeladle {subcommand} --help' says more.\n")));
    }
    let unnamed = not_done(&run(&["sample", ""]), 2, "no name");
    assert!(unnamed.starts_with("furzeladle sample: takes one folder, and '' names none\n"));
    assert!(!folder.0.join("a").exists());
    for line in ["--version 1", "--help list", "list-all", "--list F T"] {
        assert!(not_done(&folder.run(line), 2, line).starts_with("usage: furzeladle list "));
    }
}

#[test]
fn help_and_version() {
    for line in ["list --help", "check -h F", "sample a --rows --help"] {
        let text = done(&said(line), line);
        let subcommand = line.split(' ').next().unwrap();
        assert!(text.starts_with(&format!("NAME\n    furzeladle {subcommand} - ")));
        assert!(text.contains("\nSYNOPSIS\n") && text.contains("\nOPTIONS\n"));
        assert!(text.contains("\nEXIT STATUS\n    0    ") && text.contains("\nEXAMPLE\n"));
    }
    let text = done(&said("--help"), "--help");
    assert!(text.starts_with("usage: furzeladle list "));
    assert!(text.contains("furzeladle FIELD TRIM K BLOCK RADIUS [FIELD-WEIGHT TRIM-WEIGHT]"));
    assert_eq!(done(&said("-h"), "-h"), text);
    let version = format!("furzeladle {0} (library {0})\n", env!("CARGO_PKG_VERSION"));
    assert_eq!(done(&said("--version"), ""), version);
    assert_eq!(done(&said("-V"), ""), version);
    // help is help behind anything but --
    assert_eq!(
        not_done(&said("check -- --help"), 3, "a file")
            .lines()
            .count(),
        1
    );
}

#[test]
fn one_file_by_standard_input() {
    let folder = Folder::with_tables("input");
    let (field, trim) = (folder.read("F"), folder.read("T"));
    let wanted = done(&folder.run("list F T"), "files");
    let list = |line: &str, input: &[u8]| in_folder(&folder.0, line, input);
    assert_eq!(done(&list("list - T", &field), "field"), wanted);
    assert_eq!(done(&list("list F -", &trim), "trim"), wanted);
    let cut = list("list F -", &trim[..trim.len() - 1]);
    assert_eq!(
        not_done(&cut, 1, "cut"),
        "furzeladle: standard input: refused by 8, cut file: the length is not that of a header \
         and its rows\n"
    );
    assert_eq!(not_done(&list("list - T", b""), 1, "").lines().count(), 1);
    let page = done(&list("list - T --html -", &field), "page");
    assert!(page.contains("2 of 2 rows of standard input and 2 of 2 rows of T."));
    // a dash was a file's name before there were subcommands
    let old = list("- T 1 1 5", &field);
    assert!(not_done(&old, 3, "old").starts_with("furzeladle: -: cannot be read: "));
}

#[test]
fn what_list_refuses() {
    let folder = Folder::with_tables("refused");
    folder.file("RISING", &file(1, &[[101, 80, 0, 0], [102, 90, 0, 0]]));
    folder.file("NEW", &file(4, &[[201, 80, 0, 0, 5]]));
    for (line, why) in [
        (
            "RISING T",
            "RISING, row 2: refused by 7, row order: a score above the row before",
        ),
        (
            "T F",
            "T: refused by 10, kind: not the kind of file that is wanted here",
        ),
        (
            "F F",
            "F: refused by 10, kind: not the kind of file that is wanted here",
        ),
        (
            "F NEW",
            "query: refused by 15, cards: the two tables are on different cards",
        ),
        (
            "F T --pairs 65",
            "query: refused by 1, list length: k outside 1 to 64",
        ),
        (
            "F T --pairs -1",
            "query: refused by 1, list length: k outside 1 to 64",
        ),
        (
            "F T --block 99999999999",
            "query: refused by 2, block: block outside 1 to 1,024",
        ),
        (
            "F T --radius=40001",
            "query: refused by 3, radius: radius outside 0 to 40,000",
        ),
        (
            "F T --weights 0,1",
            "query: refused by 12, weight: a weight outside 1 to 9",
        ),
        (
            "F T --tolerance 0,501",
            "query: refused by 16, tolerance: a tolerance outside 0 to 500",
        ),
    ] {
        for more in ["", " --format json", " --html page.html"] {
            let said = not_done(&folder.run(&format!("list {line}{more}")), 1, line);
            assert_eq!(said, format!("furzeladle: {why}\n"));
        }
    }
    assert!(!folder.0.join("page.html").exists());
    let said = not_done(&folder.run("list F NOWHERE"), 3, "missing");
    assert!(said.starts_with("furzeladle: NOWHERE: cannot be read: "));
}

#[test]
fn check_says_what_files_are() {
    let folder = Folder::with_tables("check");
    folder.file("NEW", &file(3, &[[301, 80, 0, 0, 5]]));
    folder.file("EMPTY.TAB", b"     0     4\n");
    folder.file("MANY", &file(2, &[[1, 0, 0, 0]; 12_345]));
    folder.file("RISING", &file(1, &[[101, 80, 0, 0], [102, 90, 0, 0]]));
    folder.file("HEADER", b"    01     1\n");
    folder.file("KIND", b"     1     7\n");
    folder.file("NONE", b"");
    let good = "F: 2 rows, kind 1 (field, old card)\nT: 2 rows, kind 2 (trim, old card)\n\
                NEW: 1 row, kind 3 (field, new card)\nEMPTY.TAB: 0 rows, kind 4 (trim, new card)\n\
                MANY: 12,345 rows, kind 2 (trim, old card)\n";
    assert_eq!(
        done(&folder.run("check F T NEW EMPTY.TAB MANY"), "good"),
        good
    );
    let output = folder.run("check F RISING HEADER T KIND NONE");
    assert_eq!(
        (words(&output).as_str(), output.status.code()),
        ("", Some(1))
    );
    assert_eq!(
        out(&output),
        "F: 2 rows, kind 1 (field, old card)\n\
         RISING, row 2: refused by 7, row order: a score above the row before\n\
         HEADER, header: refused by 9, bad column: a number or line feed not formed as it should be\n\
         T: 2 rows, kind 2 (trim, old card)\n\
         KIND: refused by 10, kind: not the kind of file that is wanted here\n\
         NONE: refused by 8, cut file: the length is not that of a header and its rows\n"
    );
    let output = folder.run("check NOWHERE RISING F");
    assert_eq!(output.status.code(), Some(3));
    assert!(words(&output).starts_with("furzeladle: NOWHERE: cannot be read: "));
    assert_eq!(
        (words(&output).lines().count(), out(&output).lines().count()),
        (1, 2)
    );
    let by_input = in_folder(&folder.0, "check F -", &folder.read("NEW"));
    assert!(
        done(&by_input, "input").ends_with("\nstandard input: 1 row, kind 3 (field, new card)\n")
    );
}

/// A sum over bytes that changes with any of them (FNV-1a).
fn hash(bytes: &[u8]) -> u64 {
    let step = |hash: u64, byte: &u8| (hash ^ u64::from(*byte)).wrapping_mul(0x100_0000_01b3);
    bytes.iter().fold(0xcbf2_9ce4_8422_2325, step)
}

/// A small sample whole, and the full one by its sum.
const SMALL_FIELD: &str = "     6     1
 10005  1214   3948   2360
 10001   734  -3020   -178
 10004   533   2138   4531
 10006   115   -206   3859
 10002    45     41    875
 10003     0     86   2459
";
const SMALL_TRIM: &str = "     3     2
 20003   212   1519   3394
 20002   133   3508   1080
 20001     0  -1368     30
";
const FULL_FIELD: u64 = 0xcd66_623e_248a_cd04;
const FULL_TRIM: u64 = 0xd892_1277_798d_adc7;

#[test]
fn samples_are_always_the_same() {
    let folder = Folder::new("sample");
    let small = "sample small --rows 6,3 --seed 7";
    assert_eq!(
        done(&folder.run(small), small),
        "small/FIELD.TAB: 6 rows, kind 1 (field, old card)\n\
         small/TRIM.TAB: 3 rows, kind 2 (trim, old card)\n"
    );
    let text = |name: &str| String::from_utf8(folder.read(name)).unwrap();
    assert_eq!(text("small/FIELD.TAB"), SMALL_FIELD);
    assert_eq!(text("small/TRIM.TAB"), SMALL_TRIM);
    done(&folder.run("sample deep/er"), "defaults");
    assert_eq!(hash(&folder.read("deep/er/FIELD.TAB")), FULL_FIELD);
    assert_eq!(hash(&folder.read("deep/er/TRIM.TAB")), FULL_TRIM);
    assert!(text("deep/er/FIELD.TAB").starts_with(" 38000     1\n"));
    assert!(text("deep/er/TRIM.TAB").starts_with(" 12000     2\n"));
    // the new card is the old one with L
    done(
        &folder.run("sample new --rows 6,3 --seed 7 --card new"),
        "new",
    );
    let old_rows = text("small/FIELD.TAB")
        .lines()
        .skip(1)
        .map(String::from)
        .collect::<Vec<_>>();
    for (new, old) in text("new/FIELD.TAB").lines().skip(1).zip(old_rows) {
        assert_eq!((&new[..26], new.len()), (old.as_str(), 32));
    }
    for line in [
        "sample none --rows 0,0",
        "sample most --rows 65535,65535 --card new",
    ] {
        done(&folder.run(line), line);
        let folder_name = line.split(' ').nth(1).unwrap();
        let list = format!("list {folder_name}/FIELD.TAB {folder_name}/TRIM.TAB --radius 26");
        done(&folder.run(&list), &list);
    }
}

#[test]
fn samples_replace_nothing() {
    let folder = Folder::new("kept");
    let made = "sample a --rows 6,3";
    let first = done(&folder.run(made), "first");
    assert_eq!(done(&folder.run(made), "the same again"), first);
    let field = folder.read("a/FIELD.TAB");
    let other = "sample a --rows 6,4";
    assert_eq!(
        not_done(&folder.run(other), 3, "other"),
        "furzeladle: a/TRIM.TAB: left as it is: it is there already; --force replaces it\n"
    );
    folder.file("a/TRIM.TAB", b"mine");
    fs::remove_file(folder.0.join("a/FIELD.TAB")).unwrap();
    not_done(&folder.run(made), 3, "one of two");
    assert!(!folder.0.join("a/FIELD.TAB").exists() && folder.read("a/TRIM.TAB") == b"mine");
    assert_eq!(
        done(&folder.run(&format!("{made} --force")), "force"),
        first
    );
    assert!(folder.read("a/FIELD.TAB") == field && folder.read("a/TRIM.TAB") != b"mine");
    folder.file("plain", b"");
    let said = not_done(&folder.run("sample plain"), 3, "no folder");
    assert!(
        said.starts_with("furzeladle: plain: cannot be written: "),
        "{said}"
    );
    for rows in ["65536,1", "1,65536", "4294967296,1", "-1,1"] {
        let said = not_done(&folder.run(&format!("sample b --rows {rows}")), 1, rows);
        assert!(said.contains(".TAB: refused by 4, table size: "), "{said}");
    }
    assert!(!folder.0.join("b").exists());
}

/// A page replaces a page, and nothing else that someone may want.
#[test]
fn pages_replace_pages_alone() {
    let folder = Folder::with_tables("pages");
    let field = folder.read("F");
    for out in ["F", "T"] {
        let said = not_done(&folder.run(&format!("list F T --html {out}")), 3, out);
        let why = "it is there already and is no page of a list";
        assert_eq!(said, format!("furzeladle: {out}: left as it is: {why}\n"));
    }
    folder.file(
        "index.html",
        b"<!DOCTYPE html>\n<html lang=\"en\">\n<head>\n<title>Ours</title>",
    );
    not_done(&folder.run("list F T --html index.html"), 3, "another page");
    assert_eq!(folder.read("F"), field);
    folder.file("empty", b"");
    done(&folder.run("list F T --html empty"), "empty");
    done(&folder.run("list F T --html page"), "new");
    assert_eq!(folder.read("page"), folder.read("empty"));
    done(&folder.run("list F T --html page --pairs 1"), "again");
    assert_ne!(folder.read("page"), folder.read("empty"));
    for (out, line) in [
        ("/dev/full", "full"),
        ("no/such/folder", "no folder"),
        (".", "a folder"),
    ] {
        let said = not_done(&folder.run(&format!("list F T --html {out}")), 3, line);
        assert!(
            said.starts_with(&format!("furzeladle: {out}: cannot be written: ")),
            "{said}"
        );
    }
}

#[test]
fn a_page_holds_no_markup_of_a_name() {
    let folder = Folder::with_tables("names");
    let odd: OsString = "<i>F&T</i>.TAB".replace('/', "|").into();
    fs::copy(folder.0.join("F"), folder.0.join(&odd)).unwrap();
    let given = ["list".into(), odd, "T".into(), "--html".into(), "-".into()];
    let output = Command::new(COMMAND)
        .args(given)
        .current_dir(&folder.0)
        .output()
        .unwrap();
    let page = done(&output, "page");
    assert!(page.contains("rows of &lt;i&gt;F&amp;T&lt;|i&gt;.TAB and "));
    assert!(!page.contains("<i>") && !page.contains("<script") && !page.contains("://"));
}

/// A name is any bytes that the system takes.
#[test]
fn names_that_are_no_text() {
    let folder = Folder::with_tables("bytes");
    let name = OsStr::from_bytes(b"F\xff");
    fs::rename(folder.0.join("F"), folder.0.join(name)).unwrap();
    let list = |words: &[&OsStr]| {
        let mut command = Command::new(COMMAND);
        command.arg("list").args(words).current_dir(&folder.0);
        command.output().unwrap()
    };
    let page = done(&list(&[name, "T".as_ref(), "--html=-".as_ref()]), "page");
    assert!(page.contains(" rows of F\u{fffd} and "));
    let [trim, html, out] = ["T", "--html", "page\u{e4}"].map(OsStr::new);
    done(
        &list(&[name, trim, html, OsStr::from_bytes(b"page\xe4")]),
        "bytes",
    );
    done(&list(&[name, trim, html, out]), "text");
    assert_eq!(fs::read_dir(&folder.0).unwrap().count(), 4);
    let output = list(&[name, trim, OsStr::from_bytes(b"--html=\xe4")]);
    assert!(not_done(&output, 2, "joined").starts_with("furzeladle list: unknown option "));
}

/// Debian's validator has nothing to say of the stored pages, where it is installed.
#[test]
fn pages_are_valid() {
    for case in folders("archive/stored") {
        let tidy = Command::new("tidy")
            .args(["-q", "-e"])
            .arg(case.join("page.html"))
            .output();
        let Ok(output) = tidy else {
            return println!("no tidy here");
        };
        assert_eq!(
            (words(&output).as_str(), output.status.code()),
            ("", Some(0))
        );
    }
}

/// Whoever stops reading has had enough: a status, and no word.
#[test]
fn a_closed_pipe() {
    let folder = Folder::with_tables("pipe");
    for line in [
        "list F T",
        "list F T --html -",
        "list --help",
        "check F T",
        "sample a --rows 1,1",
    ] {
        // Shut down, not only dropped: a process that another test is starting may hold what is dropped for a moment.
        let (reader, writer) = UnixStream::pair().unwrap();
        reader.shutdown(Shutdown::Both).unwrap();
        let mut command = Command::new(COMMAND);
        command.args(line.split(' ')).current_dir(&folder.0);
        let output = command.stdout(OwnedFd::from(writer)).output().unwrap();
        assert_eq!(not_done(&output, 3, line), "", "{line}");
    }
    let full = fs::OpenOptions::new()
        .write(true)
        .open("/dev/full")
        .unwrap();
    let mut command = Command::new(COMMAND);
    command
        .args(["list", "F", "T", "--format", "csv"])
        .current_dir(&folder.0);
    let output = command.stdout(full).output().unwrap();
    let said = not_done(&output, 3, "full");
    assert!(said.starts_with("furzeladle: standard output: cannot be written: "));
}

/// Tables of so many rows of which no pair qualifies, so that all is read.
fn nothing_near(folder: &Folder, rows: i32) {
    let row = |i: i32, a: i32| [i + 1, 5, a, i % 97];
    let table = |a: i32| {
        (0..rows)
            .map(|i| row(i, 2 * (i % 1_000) + a))
            .collect::<Vec<_>>()
    };
    folder.file("F", &file(1, &table(0)));
    folder.file("T", &file(2, &table(1)));
}

/// What a command shows on a terminal that `script` lends it. None where there is no such thing.
fn on_a_terminal(folder: &Folder, line: &str) -> Option<String> {
    let script = |line: &str| {
        let mut script = Command::new("script");
        script
            .args(["-qec", line, "/dev/null"])
            .current_dir(&folder.0);
        script.stdin(Stdio::null()).output().ok()
    };
    script("true").filter(|output| output.status.success())?;
    let output = script(line)?;
    assert_eq!(output.status.code(), Some(0), "{line}");
    Some(out(&output))
}

/// The rows read so far are shown, and wiped; the list is the same.
#[test]
fn progress_on_a_terminal() {
    let folder = Folder::new("terminal");
    nothing_near(&folder, 14_000);
    let list = "list F T --radius 0 --block 1";
    let wanted = done(&folder.run(list), "no terminal");
    let Some(shown) = on_a_terminal(&folder, &format!("{COMMAND} {list} >listing")) else {
        return println!("no terminal here");
    };
    assert_eq!(folder.read("listing"), wanted.as_bytes());
    let lines: Vec<&str> = shown
        .split('\r')
        .filter(|line| !line.trim().is_empty())
        .collect();
    assert!(!lines.is_empty(), "{shown:?}");
    for line in lines {
        assert!(
            line.starts_with("rows read: ") && line.contains(" of 14,000 field, "),
            "{line:?}"
        );
    }
    assert!(shown.ends_with(" \r"), "{shown:?}");
}

/// On a terminal a list is found step by step: every stored one is the same.
#[test]
fn lists_on_a_terminal() {
    let folder = Folder::new("steps");
    for case in folders("archive/stored") {
        for format in ["listing", "csv", "json"] {
            let tables = format!("{0}/FIELD.TAB {0}/TRIM.TAB", case.display());
            let args = stored(&case, "args");
            let list = format!("{COMMAND} list {tables} {} --format {format}", args.trim());
            let Some(shown) = on_a_terminal(&folder, &format!("{list} >list")) else {
                return println!("no terminal here");
            };
            assert_eq!(
                (shown.as_str(), folder.read("list")),
                ("", stored(&case, format).into())
            );
        }
    }
}
