//! The exports that take a query, lent as many of its numbers as a caller likes.

extern "C" {
    fn furzeladle_open(
        query: *const u32,
        query_len: usize,
        f: *const i32,
        f_len: usize,
        t: *const i32,
        t_len: usize,
        session: *mut u32,
        session_len: usize,
    ) -> i32;
    fn furzeladle_query(
        query: *const u32,
        query_len: usize,
        f: *const i32,
        f_len: usize,
        t: *const i32,
        t_len: usize,
        out: *mut u64,
        out_len: usize,
    ) -> i32;
    fn furzeladle_listing(
        query: *const u32,
        query_len: usize,
        f: *const i32,
        f_len: usize,
        t: *const i32,
        t_len: usize,
        out: *mut u8,
        out_len: usize,
    ) -> i32;
}

type Export<T> = unsafe extern "C" fn(*const u32, usize, *const i32, usize, *const i32, usize, *mut T, usize) -> i32;

/// What an export answers, and what it leaves in this room.
fn call<T, const N: usize>(export: Export<T>, q: &[u32], f: &[i32], t: &[i32], mut out: [T; N]) -> (i32, [T; N]) {
    let answer = unsafe { export(q.as_ptr(), q.len(), f.as_ptr(), f.len(), t.as_ptr(), t.len(), out.as_mut_ptr(), N) };
    (answer, out)
}

/// What each of them answers and leaves.
#[derive(Debug, PartialEq, Eq)]
pub struct Answers {
    pub opened: (i32, [u32; 210]),
    pub listed: (i32, [u64; 515]),
    pub printed: (i32, [u8; 2_668]),
}

/// The answers to a query of these numbers.
pub fn answers(query: &[u32], f: &[i32], t: &[i32]) -> Answers {
    Answers {
        opened: call(furzeladle_open, query, f, t, [7; 210]),
        listed: call(furzeladle_query, query, f, t, [7; 515]),
        printed: call(furzeladle_listing, query, f, t, [7; 2_668]),
    }
}
