//! The calls of include/footballelm.h, as a C host makes them.

/// So many requests of document 02 are in the library; the reference goes by this number.
pub const REQUESTS: u8 = 8;

/// FE_INDEX_MAX, and FE_CHAIN_MAX, which is enough for any answer.
pub const INDEX_MAX: usize = 40_960;
pub const ANSWER_MAX: usize = 6_140;

/// FE_WINDOWS, and FE_DESK, the bytes of a desk record that the calls use.
pub const WINDOWS: u32 = 32;
pub const DESK: usize = 128;

/// FE_RECORDS_MAX, FE_RECORD and FE_MARGIN, FE_STAKE_MAX and FE_LIMIT_MAX.
pub const RECORDS_MAX: usize = 4_096;
pub const RECORD: usize = 9;
pub const MARGIN: usize = 8;
pub const STAKE_MAX: u32 = 1_000_000;
pub const LIMIT_MAX: u32 = 1_000_000_000;

#[repr(C)]
#[derive(Clone, Copy, Debug, PartialEq, Eq)]
pub struct Reply {
    pub refusal: u32,
    pub value: u32,
    pub second: u32,
    pub third: u32,
}

/// A call that reads the first slice and writes the second.
pub type Call = unsafe extern "C" fn(*const u8, usize, *mut u8, usize) -> Reply;

extern "C" {
    pub fn fe_build(links: *const u8, links_len: usize, index: *mut u8, index_len: usize) -> Reply;
    pub fn fe_read(index: *const u8, index_len: usize, links: *mut u8, links_len: usize) -> Reply;
    pub fn fe_put_in(
        index: *const u8,
        index_len: usize,
        a: u32,
        b: u32,
        out: *mut u8,
        out_len: usize,
    ) -> Reply;
    pub fn fe_withdraw(
        index: *const u8,
        index_len: usize,
        a: u32,
        b: u32,
        out: *mut u8,
        out_len: usize,
    ) -> Reply;
    pub fn fe_strength(
        index: *const u8,
        index_len: usize,
        a: u32,
        b: u32,
        window: u32,
        desk: *mut u8,
        desk_len: usize,
    ) -> Reply;
    pub fn fe_joined(
        index: *const u8,
        index_len: usize,
        a: u32,
        b: u32,
        c: u32,
        d: u32,
        window: u32,
        desk: *mut u8,
        desk_len: usize,
    ) -> Reply;
    pub fn fe_groups_at(
        index: *const u8,
        index_len: usize,
        accounts: *const u8,
        accounts_len: usize,
        k: u32,
        answer: *mut u8,
        answer_len: usize,
        window: u32,
        desk: *mut u8,
        desk_len: usize,
    ) -> Reply;
    pub fn fe_strongest_groups(
        index: *const u8,
        index_len: usize,
        accounts: *const u8,
        accounts_len: usize,
        answer: *mut u8,
        answer_len: usize,
        window: u32,
        desk: *mut u8,
        desk_len: usize,
    ) -> Reply;
    pub fn fe_all_groups(
        index: *const u8,
        index_len: usize,
        accounts: *const u8,
        accounts_len: usize,
        answer: *mut u8,
        answer_len: usize,
        window: u32,
        desk: *mut u8,
        desk_len: usize,
    ) -> Reply;
    pub fn fe_group_links(
        index: *const u8,
        index_len: usize,
        a: u32,
        b: u32,
        k: u32,
        answer: *mut u8,
        answer_len: usize,
        window: u32,
        desk: *mut u8,
        desk_len: usize,
    ) -> Reply;
    pub fn fe_chain(
        index: *const u8,
        index_len: usize,
        a: u32,
        b: u32,
        c: u32,
        d: u32,
        k: u32,
        answer: *mut u8,
        answer_len: usize,
        window: u32,
        desk: *mut u8,
        desk_len: usize,
    ) -> Reply;
    pub fn fe_try_limit(
        index: *const u8,
        index_len: usize,
        records: *const u8,
        records_len: usize,
        k: u32,
        limit: u32,
        taken: *mut u8,
        taken_len: usize,
        margins: *mut u8,
        margins_len: usize,
    ) -> Reply;
}

pub fn build(links: &[u8], index: &mut [u8]) -> Reply {
    unsafe { fe_build(links.as_ptr(), links.len(), index.as_mut_ptr(), index.len()) }
}

pub fn read(index: &[u8], links: &mut [u8]) -> Reply {
    unsafe { fe_read(index.as_ptr(), index.len(), links.as_mut_ptr(), links.len()) }
}

/// A link put in or withdrawn: two accounts in either order.
#[derive(Clone, Copy, Debug, PartialEq, Eq)]
pub enum Change {
    PutIn((u32, u32)),
    Withdraw((u32, u32)),
}

/// Makes the change by the call that is its own, from one slice into another.
///
/// # Safety
/// Each slice is good memory; `out` may be written.
pub unsafe fn alter(change: Change, (i, m): Slice, (o, r): Slice) -> Reply {
    match change {
        Change::PutIn((a, b)) => fe_put_in(i, m, a, b, o, r),
        Change::Withdraw((a, b)) => fe_withdraw(i, m, a, b, o, r),
    }
}

pub fn change(change: Change, index: &[u8], out: &mut [u8]) -> Reply {
    let index = (index.as_ptr().cast_mut(), index.len());
    unsafe { alter(change, index, (out.as_mut_ptr(), out.len())) }
}

/// A question with its numbers and, in C to E, the accounts as they are lent.
#[derive(Clone, Debug)]
pub enum Question {
    A((u32, u32)),
    B((u32, u32), (u32, u32)),
    C(Vec<u8>, u32),
    D(Vec<u8>),
    E(Vec<u8>),
    F((u32, u32), u32),
    G((u32, u32), (u32, u32), u32),
}

impl Question {
    pub fn letter(&self) -> char {
        match self {
            Question::A(..) => 'A',
            Question::B(..) => 'B',
            Question::C(..) => 'C',
            Question::D(..) => 'D',
            Question::E(..) => 'E',
            Question::F(..) => 'F',
            Question::G(..) => 'G',
        }
    }

    /// The accounts that are lent; none but in C, D and E.
    pub fn accounts(&self) -> &[u8] {
        match self {
            Question::C(accounts, _) | Question::D(accounts) | Question::E(accounts) => accounts,
            _ => &[],
        }
    }
}

/// A slice as C is lent it: where it begins and how long it is.
pub type Slice = (*mut u8, usize);

/// What a question is lent, and the window that asks. Only C, D and E take accounts; A and B take no answer.
#[derive(Clone, Copy)]
pub struct Slices {
    pub index: Slice,
    pub accounts: Slice,
    pub answer: Slice,
    pub window: u32,
    pub desk: Slice,
}

/// Puts the question by the call that is its own. The accounts are those lent, not those of the question.
///
/// # Safety
/// Each slice is good memory; `answer` and `desk` may be written.
pub unsafe fn ask(question: &Question, lent: &Slices) -> Reply {
    let Slices {
        index: (i, m),
        accounts: (v, n),
        answer: (o, r),
        window: w,
        desk: (t, s),
    } = *lent;
    match *question {
        Question::A((a, b)) => fe_strength(i, m, a, b, w, t, s),
        Question::B((a, b), (c, d)) => fe_joined(i, m, a, b, c, d, w, t, s),
        Question::C(_, k) => fe_groups_at(i, m, v, n, k, o, r, w, t, s),
        Question::D(_) => fe_strongest_groups(i, m, v, n, o, r, w, t, s),
        Question::E(_) => fe_all_groups(i, m, v, n, o, r, w, t, s),
        Question::F((a, b), k) => fe_group_links(i, m, a, b, k, o, r, w, t, s),
        Question::G((a, b), (c, d), k) => fe_chain(i, m, a, b, c, d, k, o, r, w, t, s),
    }
}

/// Puts the question from window 0 with its own accounts.
pub fn put(question: &Question, index: &[u8], answer: &mut [u8], desk: &mut [u8]) -> Reply {
    let accounts = question.accounts();
    let lent = Slices {
        index: (index.as_ptr().cast_mut(), index.len()),
        accounts: (accounts.as_ptr().cast_mut(), accounts.len()),
        answer: (answer.as_mut_ptr(), answer.len()),
        window: 0,
        desk: (desk.as_mut_ptr(), desk.len()),
    };
    unsafe { ask(question, &lent) }
}

/// A level and the limit at the start, to be tried on a day's bets.
#[derive(Clone, Copy, Debug, PartialEq, Eq)]
pub struct Trial {
    pub k: u32,
    pub limit: u32,
}

/// What a trial is lent.
#[derive(Clone, Copy)]
pub struct Day {
    pub index: Slice,
    pub records: Slice,
    pub taken: Slice,
    pub margins: Slice,
}

/// Tries the limit.
///
/// # Safety
/// Each slice is good memory; `taken` and `margins` may be written.
pub unsafe fn try_on(trial: Trial, day: &Day) -> Reply {
    let Trial { k, limit } = trial;
    let Day {
        index: (i, m),
        records: (d, n),
        taken: (t, r),
        margins: (g, s),
    } = *day;
    fe_try_limit(i, m, d, n, k, limit, t, r, g, s)
}

pub fn try_limit(
    trial: Trial,
    index: &[u8],
    records: &[u8],
    taken: &mut [u8],
    margins: &mut [u8],
) -> Reply {
    let day = Day {
        index: (index.as_ptr().cast_mut(), index.len()),
        records: (records.as_ptr().cast_mut(), records.len()),
        taken: (taken.as_mut_ptr(), taken.len()),
        margins: (margins.as_mut_ptr(), margins.len()),
    };
    unsafe { try_on(trial, &day) }
}
