//! One question put to the library and to the reference on the same bytes, and every difference between them.

use crate::lent::{four_numbers, Lent, RULES};
use reference::index::Index;
use reference::questions::{self, Ends};
use reference::random::Random;
use reference::records::two;
use reference::reply::Reply;
use terminal::{Question, Slices, DESK, WINDOWS};

/// A question in the library, or in the library with a fault.
pub type Ask = unsafe fn(&Question, &Slices) -> terminal::Reply;

/// A question in the reference.
fn reference(
    question: &Question,
    index: &[u8],
    answer: &mut [u8],
    window: u32,
    desk: &mut [u8],
) -> Reply {
    questions::from_c(
        RULES,
        desk,
        window,
        &mut [],
        answer,
        |out, desk| match *question {
            Question::A(link) => questions::a(RULES, index, link, desk),
            Question::B(first, second) => questions::b(RULES, index, first, second, desk),
            Question::C(ref accounts, k) => questions::c(RULES, index, accounts, k, out, desk),
            Question::D(ref accounts) => questions::d(RULES, index, accounts, out, desk),
            Question::E(ref accounts) => questions::e(RULES, index, accounts, out, desk),
            Question::F(link, k) => questions::f(RULES, index, link, k, out, desk),
            Question::G(first, second, k) => {
                questions::g(RULES, index, [first, second], k, out, desk)
            }
        },
    )
}

/// What a question comes with: the room for its answer, the window that asks and the desk record.
#[derive(Clone)]
pub struct With {
    pub room: usize,
    pub window: u32,
    pub record: Vec<u8>,
}

/// What the reference gives, and the library too.
pub struct Found {
    pub reply: terminal::Reply,
    /// What was written by C to G.
    pub answer: Vec<u8>,
    pub desk: Vec<u8>,
}

/// How often each question had each reply.
#[derive(Default)]
pub struct Met {
    /// By question: 0 answered, else refused by that number.
    replies: [[usize; 14]; 7],
    /// By question: answered with each value of `KINDS`, with another.
    answers: [[usize; 4]; 7],
    /// A of strength 3 or more: s - 2 triangles, more of them.
    triangles: [usize; 2],
    /// C, D and E of several groups: as the index has them, in another order.
    orders: [[usize; 2]; 3],
    /// C, F and G: at each k of `LIMITS` with its reply.
    limits: [[usize; 4]; 3],
    /// The answers of `LONE`.
    lone: [usize; LONE.len()],
    /// By window: answered.
    windows: [usize; WINDOWS as usize],
}

/// By question, the refusals that it can have.
const REFUSALS: [&[usize]; 7] = [
    &[7, 9, 11, 12, 13],
    &[7, 9, 11, 12, 13],
    &[7, 8, 9, 10, 12, 13],
    &[7, 8, 9, 12, 13],
    &[7, 8, 9, 12, 13],
    &[7, 9, 10, 11, 12, 13],
    &[7, 9, 10, 11, 12, 13],
];

/// By question, values of a done reply, and what they mean. A group is a lone link, or has three links or more.
const KINDS: [&[(u32, &str)]; 7] = [
    &[(2, "2"), (3, "3")],
    &[(0, "0"), (2, "2"), (3, "3")],
    &[(2, "none"), (4, "one")],
    &[(2, "none"), (4, "one")],
    &[(2, "none"), (4, "one")],
    &[(2, "none"), (4, "one"), (8, "three")],
    &[(2, "none"), (8, "one")],
];

/// At and beside the limits of k: k, and its refusal or 0.
const LIMITS: [(u32, u32); 4] = [(1, 10), (2, 0), (64, 0), (65, 10)];

/// The three questions that have a k, by number, with it.
fn level(question: &Question) -> Option<(usize, u32)> {
    match *question {
        Question::C(_, k) => Some((0, k)),
        Question::F(_, k) => Some((1, k)),
        Question::G(_, _, k) => Some((2, k)),
        _ => None,
    }
}

/// Answers with lone links, which are the groups of strength 2, and those at 2 without.
const LONE: [&str; 11] = [
    "C at 2: lone links",
    "C at 2: others",
    "C at 2: both",
    "D: lone links",
    "E: lone links",
    "E: both",
    "F at 2: other links",
    "G at 2: a lone link with itself",
    "G at 2: another with itself",
    "G at 2: two that are joined",
    "G at 2: two that are not",
];

/// Which of `LONE` it is, given the strengths of the groups of an answer of C, D or E.
fn lone(question: &Question, strengths: &[u16], value: u32) -> Option<usize> {
    let (lone, others) = (strengths.contains(&2), strengths.iter().any(|&s| s > 2));
    let same = |first: Ends, second: Ends| first == second || first == (second.1, second.0);
    match *question {
        Question::C(_, 2) if lone && others => Some(2),
        Question::C(_, 2) if others => Some(1),
        Question::C(_, 2) if lone => Some(0),
        Question::D(_) if lone => Some(3),
        Question::E(_) if lone && others => Some(5),
        Question::E(_) if lone => Some(4),
        Question::F(_, 2) if value > 4 => Some(6),
        Question::G(first, second, 2) => match (same(first, second), value) {
            (true, 2) => Some(7),
            (true, _) => Some(8),
            (false, 3..) => Some(9),
            (false, _) => Some(10),
        },
        _ => None,
    }
}

impl Met {
    fn add(
        &mut self,
        question: &Question,
        window: u32,
        reply: terminal::Reply,
        answer: &[u8],
        strengths: &[u16],
    ) {
        let at = question.letter() as usize - 'A' as usize;
        self.replies[at][reply.refusal as usize] += 1;
        if let Some((of, k)) = level(question) {
            let limit = (k, reply.refusal);
            let counts = LIMITS.iter().zip(&mut self.limits[of]);
            { counts.filter(|at| *at.0 == limit) }.for_each(|(_, count)| *count += 1);
        }
        if reply.refusal == 0 {
            let kind = KINDS[at].iter().position(|kind| kind.0 == reply.value);
            self.answers[at][kind.unwrap_or(KINDS[at].len())] += 1;
            let groups = match at {
                2..=4 => &answer[2..reply.value as usize],
                _ => &[],
            };
            let strength = |group: &[u8]| strengths[usize::from(two(group, 0))];
            let of_answer: Vec<u16> = groups.chunks(2).map(strength).collect();
            if let Some(kind) = lone(question, &of_answer, reply.value) {
                self.lone[kind] += 1;
            }
            if at == 0 && reply.value > 2 {
                let more = reply.second > reply.value - 2;
                self.triangles[usize::from(more)] += 1;
            }
            if matches!(at, 2..=4) && reply.value > 4 {
                let rising = answer[2..reply.value as usize].chunks(2).is_sorted();
                self.orders[at - 2][usize::from(!rising)] += 1;
            }
            self.windows[window as usize] += 1;
        }
    }

    pub fn merge(&mut self, other: &Met) {
        let sum = |to: &mut [usize], from: &[usize]| {
            to.iter_mut().zip(from).for_each(|(to, from)| *to += from);
        };
        for at in 0..KINDS.len() {
            sum(&mut self.replies[at], &other.replies[at]);
            sum(&mut self.answers[at], &other.answers[at]);
        }
        sum(&mut self.triangles, &other.triangles);
        for (to, from) in self.orders.iter_mut().zip(&other.orders) {
            sum(to, from);
        }
        for (to, from) in self.limits.iter_mut().zip(&other.limits) {
            sum(to, from);
        }
        sum(&mut self.lone, &other.lone);
        sum(&mut self.windows, &other.windows);
    }

    /// Prints the counts. False if a reply that a question can have was never met, an order of groups, a limit of k, an answer of `LONE`, or a window never answered.
    pub fn show(&self) -> bool {
        let mut all = true;
        let asked: usize = self.replies.iter().flatten().sum();
        println!("questions asked: {asked}, each answered with or refused by:");
        for (at, letter) in ('A'..='G').enumerate() {
            let names = KINDS[at].iter().map(|kind| kind.1).chain(["more"]);
            let names = names.zip(self.answers[at]);
            let answered = names.map(|(name, count)| (name.to_string(), count));
            let numbers = REFUSALS[at].iter();
            let refused = numbers.map(|&n| (format!("by {n}"), self.replies[at][n]));
            let counts: Vec<_> = answered.chain(refused).collect();
            all &= counts.iter().all(|&(_, count)| count > 0);
            let counts = counts
                .iter()
                .map(|(name, count)| format!("{name}: {count}"));
            println!("  {letter} {}", counts.collect::<Vec<_>>().join(", "));
        }
        let [just, more] = self.triangles;
        println!("  A at s from 3 up with s - 2 triangles: {just}, with more: {more}");
        for (letter, [rising, other]) in ('C'..='E').zip(self.orders) {
            println!("  {letter} of several groups as the index has them: {rising}, in another order: {other}");
            all &= rising > 0 && other > 0;
        }
        for (letter, counts) in ['C', 'F', 'G'].into_iter().zip(self.limits) {
            let [below, least, greatest, above] = counts;
            println!("  {letter} at k = 1, 65, refused by 10: {below}, {above}; at 2, 64, answered: {least}, {greatest}");
            all &= !counts.contains(&0);
        }
        for (name, count) in LONE.iter().zip(self.lone) {
            println!("  {name}: {count}");
            all &= count > 0;
        }
        let least = self.windows.iter().min().expect("windows");
        println!("  answered to each window: {least} or more");
        all && just > 0 && more > 0 && *least > 0
    }
}

/// An index lent for many questions.
pub struct Asker<'a> {
    ask: Ask,
    noise: &'a mut Random,
    bytes: &'a [u8],
    index: Lent,
    before: Vec<u8>,
    /// By group; none of bytes that are no index.
    strengths: Vec<u16>,
    pub met: Met,
}

/// Bytes that are enough for any answer.
pub const ROOM: usize = terminal::ANSWER_MAX;

impl<'a> Asker<'a> {
    pub fn new(ask: Ask, noise: &'a mut Random, bytes: &'a [u8]) -> Asker<'a> {
        let index = Lent::holding(noise, bytes);
        let before = index.bytes.clone();
        let groups = Index::read(RULES, bytes).map_or(vec![], |index| index.groups);
        Asker {
            ask,
            noise,
            bytes,
            index,
            before,
            strengths: groups.iter().map(|group| group.strength).collect(),
            met: Met::default(),
        }
    }

    /// Puts the question. Gives what is found, or the first difference.
    pub fn compare(&mut self, question: &Question, with: &With) -> Result<Found, String> {
        let With {
            room,
            window,
            record,
        } = with;
        let mut accounts = Lent::holding(self.noise, question.accounts());
        let mut answer = Lent::new(self.noise, *room);
        let mut desk = Lent::holding(self.noise, record);
        let accounts_before = accounts.bytes.clone();
        let (mut right, mut right_desk) = (answer.bytes.clone(), desk.bytes.clone());

        let expected = reference(
            question,
            self.bytes,
            &mut right[answer.from..answer.to],
            *window,
            &mut right_desk[desk.from..desk.to],
        );
        let lent = Slices {
            index: self.index.lend(),
            accounts: accounts.lend(),
            answer: answer.lend(),
            window: *window,
            desk: desk.lend(),
        };
        let reply = unsafe { (self.ask)(question, &lent) };

        let wanted = four_numbers(expected);
        let right_answer = &right[answer.from..answer.to];
        self.met
            .add(question, *window, wanted, right_answer, &self.strengths);
        let fault = |what: String| {
            let at = record.len().min(4 * (*window).min(WINDOWS) as usize);
            let tally = &record[at..record.len().min(at + 4)];
            let length = record.len();
            Err(format!(
                "room {room}, window {window}, its tally {tally:?} in a desk of {length}: {what}"
            ))
        };
        if reply != wanted {
            return fault(format!("reply {reply:?}, should be {wanted:?}"));
        }
        for (name, lent, right) in [
            ("index", &self.index, &self.before),
            ("accounts", &accounts, &accounts_before),
            ("answer", &answer, &right),
            ("desk", &desk, &right_desk),
        ] {
            if let Some(text) = lent.differs(right) {
                return fault(format!("{name}: {text}"));
            }
        }
        let writes = reply.refusal == 0 && question.letter() >= 'C';
        let written = if writes { reply.value as usize } else { 0 };
        Ok(Found {
            reply,
            answer: right[answer.from..answer.from + written].to_vec(),
            desk: right_desk[desk.from..desk.to].to_vec(),
        })
    }

    /// Puts the question with rooms, windows and desk records of every kind. Gives what is found where there is enough of each, or the first difference.
    pub fn compare_all(&mut self, question: &Question) -> Result<Found, String> {
        let enough = With {
            room: ROOM,
            window: self.noise.below(WINDOWS as usize) as u32,
            record: whole_record(self.noise),
        };
        let found = self.compare(question, &enough)?;
        let length = found.answer.len();
        let rooms = match found.reply.refusal {
            0 if length == 0 => vec![0, 0],
            0 if length <= 12 && self.noise.one_in(10) => (0..=length + 2).collect(),
            0 => vec![
                length,
                length - 1,
                match self.noise.below(50) {
                    0 => 0x1_0000,
                    more => length + more,
                },
                self.noise.below(length),
                self.noise.below(2),
            ],
            _ => vec![0, self.noise.below(ROOM)],
        };
        for room in rooms {
            let window = window(self.noise);
            let record = record(self.noise, window);
            let with = With {
                room,
                window,
                record,
            };
            self.compare(question, &with)?;
        }
        Ok(found)
    }

    /// Puts the questions in a row on one desk record, from any windows, now and then with too little of it: at the end each window's tally is what it was and one
    /// more for each of its questions that the library answered.
    pub fn in_a_row(&mut self, questions: &[Question]) -> Result<(), String> {
        let mut desk = whole_record(self.noise);
        let before = tallies(&desk);
        let mut answered = [0; WINDOWS as usize];
        // Few windows, so that some ask again.
        let few: [u32; 4] = std::array::from_fn(|_| window(self.noise));
        for question in questions {
            let lent = match self.noise.one_in(12) {
                true => self.noise.below(DESK),
                false => desk.len(),
            };
            let with = With {
                room: self.noise.pick(&[0, 2, 4, 8, ROOM, ROOM]),
                window: self.noise.pick(&few),
                record: desk[..lent].to_vec(),
            };
            let found = self
                .compare(question, &with)
                .map_err(|text| format!("{question:?}, {text}"))?;
            if found.reply.refusal == 0 {
                answered[with.window as usize] += 1;
            }
            desk[..lent].copy_from_slice(&found.desk);
        }
        let after = tallies(&desk);
        match (0..WINDOWS as usize).find(|&w| after[w] != before[w].saturating_add(answered[w])) {
            None => Ok(()),
            Some(w) => Err(format!(
                "window {w}: tally {}, {} answered, tally {}",
                before[w], answered[w], after[w]
            )),
        }
    }
}

fn tallies(record: &[u8]) -> [u32; WINDOWS as usize] {
    let tally = |at| u32::from_be_bytes(std::array::from_fn(|byte| record[4 * at + byte]));
    std::array::from_fn(tally)
}

/// A window, or in one of ten a number that is none, some of which would be one if they were cut.
fn window(random: &mut Random) -> u32 {
    let good = random.below(WINDOWS as usize) as u32;
    match random.below(30) {
        0 => random.pick(&[32, 33, 63, 64, 255, 256, 1 << 16, 1 << 31, u32::MAX]),
        1 => good + random.pick(&[32, 64, 1 << 8, 1 << 16, 1 << 31]),
        2 => WINDOWS.max(random.number() as u32),
        3..6 => random.pick(&[0, 30, 31]),
        _ => good,
    }
}

/// A desk record with up to three bytes more than it need have, with tallies of every kind.
fn whole_record(random: &mut Random) -> Vec<u8> {
    let top = u32::MAX;
    let mut record = Vec::new();
    for _ in 0..WINDOWS {
        let tally = match random.below(3) {
            0 => random.number() as u32,
            1 => random.pick(&[0, 0xFF, 0xFFFF, 0xFF_FFFF, top - 1, top]),
            _ => top - random.below(8) as u32,
        };
        record.extend(tally.to_be_bytes());
    }
    if random.one_in(2) {
        let more = random.number().to_be_bytes();
        record.extend(&more[..random.within(1..=3)]);
    }
    record
}

/// A desk record, which may be very long, or too short: often by one byte, or so that it ends just with or just within the window's own tally.
fn record(random: &mut Random, window: u32) -> Vec<u8> {
    let mut record = whole_record(random);
    let own = 4 * window.min(WINDOWS - 1) as usize;
    match random.below(200) {
        0 => record.resize(0x1_0000 + random.below(4), 0),
        1..15 => record.truncate(random.below(DESK)),
        15..50 => record.truncate(random.pick(&[0, 4, DESK - 1, own + 3, own + 4])),
        _ => {}
    }
    record
}
