//! The library's calls beside the model's.
use crate::lent;
use crate::model::{self, Opening, Record, Said};
use furzeladle::raw::{Refusal, Session};
use furzeladle::{Asked, Pair, Progress, Table, Taken};

fn read_said(answer: Result<Progress, Refusal>) -> Said {
    match answer {
        Ok(Progress::Read) => Said::Read,
        Ok(Progress::Settled) => Said::Settled,
        Err(refusal) => Said::Refused(refusal.number),
    }
}

fn take_said(answer: Result<Taken, Refusal>) -> Said {
    match answer {
        Ok(Taken::Given(pair)) => Said::Given(pair),
        Ok(Taken::NotYet) => Said::NotYet,
        Ok(Taken::Finished) => Said::Finished,
        Err(refusal) => Said::Refused(refusal.number),
    }
}

/// What an opening by these numbers answers, by the library and by the model: the same record, and where it is refused
/// the one that stood there.
pub fn opened(query: &[u32], f: &[i32], t: &[i32]) -> i32 {
    let (answer, left) = lent::answers(query, f, t).opened;
    let (said, record) = model::open(Opening::of(query), f, t);
    let wanted = match said {
        Said::Refused(number) => (-(number as i32), vec![7; model::NUMBERS]),
        _ => (0, record.flat()),
    };
    assert_eq!((answer, left.to_vec()), wanted, "{query:?}, {}, {}", f.len(), t.len());
    answer
}

/// A read or a take, by the library and by the model: the same answer and record, a refusal changing neither.
pub fn call(is_read: bool, f: &[i32], t: &[i32], session: &mut Session, record: &mut Record) -> Said {
    let before = session.clone();
    let (said, modelled) = if is_read {
        (read_said(session.read(f, t)), model::read(f, t, record))
    } else {
        (take_said(session.take(f, t)), model::take(f, t, record))
    };
    assert_eq!(said, modelled);
    assert_eq!(session.record().as_slice(), record.flat());
    if !matches!(said, Said::Read | Said::Given(_)) {
        assert_eq!(*session, before);
    }
    said
}

/// The rows last read are those that the model shows, and a part of their table.
pub fn show(f: &[i32], t: &[i32], session: &Session, record: &Record) {
    let wanted = model::show(f, t, record);
    match session.show(f, t) {
        None => assert_eq!(wanted, [0; 3]),
        Some((which, first, rows)) => {
            let wide = record.card as usize + 2;
            assert_eq!([which as u32, first, (rows.len() / wide) as u32], wanted);
            let whole = if which == Table::Field { f } else { t };
            assert_eq!(rows.as_ptr(), whole[wide * (first as usize - 1)..].as_ptr());
        }
    }
}

/// What calls of a record answer, reads being true, and the pairs held after them; the model answers the same.
pub fn answers(record: &Record, f: &[i32], t: &[i32], calls: &[bool]) -> (Vec<Said>, u32) {
    let mut record = record.clone();
    let mut session = Session::from_record(record.flat().try_into().unwrap());
    let said = calls.iter().map(|&is_read| call(is_read, f, t, &mut session, &mut record)).collect();
    (said, record.held)
}

/// A session to its end: its pairs, and its record then.
pub fn run(asked: Asked, f: &[i32], t: &[i32]) -> (Vec<Pair>, Record) {
    let (said, mut record) = model::open(Opening::from(asked), f, t);
    assert_eq!(said, Said::Opened);
    let mut session = Session::open(asked, f, t).unwrap();
    assert_eq!(session.record().as_slice(), record.flat());
    while call(true, f, t, &mut session, &mut record) == Said::Read {}
    let mut pairs = Vec::new();
    while let Said::Given(pair) = call(false, f, t, &mut session, &mut record) {
        pairs.push(pair);
    }
    (pairs, record)
}
