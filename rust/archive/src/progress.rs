//! How far the reading has come, on a terminal's standard error.
use furzeladle::{Progress, Session};
use std::io::{self, IsTerminal, Write};
use std::time::{Duration, Instant};

use crate::formats::grouped;

/// When the first line is shown, and how long each stands.
struct Pace {
    first: Duration,
    every: Duration,
}

const PACE: Pace = Pace {
    first: Duration::from_millis(200),
    every: Duration::from_millis(100),
};

/// Whether there is a terminal to show it on.
pub fn is_shown() -> bool {
    io::stderr().is_terminal()
}

/// Reads until nothing unread can matter, and shows how far it has come where that takes long.
pub fn settle(session: &mut Session) {
    settle_on(session, &mut io::stderr(), &PACE);
}

/// What cannot be shown is left: the list does not depend on it.
fn settle_on(session: &mut Session, to: &mut impl Write, pace: &Pace) {
    let start = Instant::now();
    let mut next = pace.first;
    let mut wide = 0;
    while session.read() == Progress::Read {
        if start.elapsed() >= next {
            let words = words(session);
            wide = wide.max(words.len());
            let _ = write!(to, "\r{words:<wide$}").and_then(|()| to.flush());
            next = start.elapsed() + pace.every;
        }
    }
    if wide > 0 {
        let _ = write!(to, "\r{:wide$}\r", "").and_then(|()| to.flush());
    }
}

fn words(session: &Session) -> String {
    let (field, trim) = session.depths();
    let (m, n) = (session.field().count(), session.trim().count());
    let part = |read: u32, of: u32| format!("{} of {}", grouped(read), grouped(of));
    let (field, trim) = (part(field.0, m.0), part(trim.0, n.0));
    format!("rows read: {field} field, {trim} trim")
}

#[cfg(test)]
mod tests {
    use super::*;
    use furzeladle::{Card, FieldTable, Query, TrimTable};

    fn tables() -> (FieldTable, TrimTable) {
        let rows = |a: i32| -> Vec<i32> { (1..=20).flat_map(|i| [i, 100 - i, a, 0]).collect() };
        let field = FieldTable::from_numbers(rows(0), Card::Old).unwrap();
        (field, TrimTable::from_numbers(rows(9), Card::Old).unwrap())
    }

    fn shown(pace: &Pace, block: u32) -> String {
        let (field, trim) = tables();
        let query = Query::new(3).block(block).radius(5);
        let mut session = Session::open(query, &field, &trim).unwrap();
        let mut to = Vec::new();
        settle_on(&mut session, &mut to, pace);
        let list = session.into_list();
        assert_eq!(list, query.over(&field, &trim).list().unwrap());
        String::from_utf8(to).unwrap()
    }

    #[test]
    fn a_line_for_each_block_then_none() {
        let at_once = Pace {
            first: Duration::ZERO,
            every: Duration::ZERO,
        };
        let shown = shown(&at_once, 10);
        let lines: Vec<&str> = shown.split('\r').collect();
        assert_eq!(lines[1], "rows read: 10 of 20 field, 0 of 20 trim");
        assert_eq!(lines[2], "rows read: 10 of 20 field, 10 of 20 trim");
        assert_eq!(lines[4], "rows read: 20 of 20 field, 20 of 20 trim");
        assert_eq!(
            (lines[5].trim(), lines[5].len(), lines[6]),
            ("", lines[4].len(), "")
        );
    }

    #[test]
    fn nothing_of_short_work() {
        let patient = Pace {
            first: Duration::from_secs(3_600),
            every: Duration::ZERO,
        };
        assert_eq!(shown(&patient, 1), "");
    }
}
