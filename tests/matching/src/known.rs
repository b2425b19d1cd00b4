//! Questions with the answers that document 01 gives, or that follow from its definitions on cards made for them.

use crate::asked::Found;
use crate::lent::RULES;
use crate::limits::{all_pairs, flat, CARD_A};
use crate::parties::{
    beside, book, clique, every_kind, five_less_one, nested, pair, strip, triangle, wheel, Party,
};
use reference::card::{links_file, Card};
use reference::fast;
use reference::records::two;
use terminal::Question::{self, A, B, C, D, E, F, G};

/// What a question gives.
pub enum Said {
    /// The two numbers of A: strength and triangles.
    Firmness(u32, u32),
    /// The value of B.
    Value(u32),
    /// The numbers of C to F.
    Numbers(Vec<u16>),
    /// The triangles of G.
    Triangles(Vec<[u16; 3]>),
    Refused(u32),
}

/// A card and a question on it.
pub struct Known {
    pub name: String,
    pub file: Vec<u8>,
    pub question: Question,
    pub said: Said,
}

impl Known {
    pub fn holds(&self, found: &Found) -> bool {
        let (refusal, value) = (found.reply.refusal, found.reply.value);
        let mut numbers = found.answer.chunks(2).map(|field| two(field, 0));
        match &self.said {
            Said::Firmness(strength, triangles) => {
                (refusal, value, found.reply.second) == (0, *strength, *triangles)
            }
            Said::Value(said) => (refusal, value) == (0, *said),
            Said::Refused(number) => (refusal, value) == (*number, 0),
            Said::Numbers(said) => {
                let count = numbers.next().map(usize::from);
                refusal == 0 && count == Some(said.len()) && numbers.eq(said.iter().copied())
            }
            Said::Triangles(said) => {
                let count = numbers.next().map(usize::from);
                refusal == 0
                    && count == Some(said.len())
                    && numbers.eq(said.iter().flatten().copied())
            }
        }
    }
}

pub fn named(accounts: &[u16]) -> Vec<u8> {
    accounts.iter().flat_map(|a| a.to_be_bytes()).collect()
}

fn firmness(rows: Vec<(Question, u32, u32)>) -> Vec<(Question, Said)> {
    let said = |(question, strength, triangles)| (question, Said::Firmness(strength, triangles));
    rows.into_iter().map(said).collect()
}

fn values(rows: Vec<(Question, u32)>) -> Vec<(Question, Said)> {
    let said = |(question, value)| (question, Said::Value(value));
    rows.into_iter().map(said).collect()
}

fn numbers(rows: Vec<(Question, Vec<u16>)>) -> Vec<(Question, Said)> {
    let said = |(question, numbers)| (question, Said::Numbers(numbers));
    rows.into_iter().map(said).collect()
}

fn triangles(rows: Vec<(Question, Vec<[u16; 3]>)>) -> Vec<(Question, Said)> {
    let said = |(question, triangles)| (question, Said::Triangles(triangles));
    rows.into_iter().map(said).collect()
}

fn refused(rows: Vec<(Question, u32)>) -> Vec<(Question, Said)> {
    let said = |(question, number)| (question, Said::Refused(number));
    rows.into_iter().map(said).collect()
}

/// The index of a good links file, by the reference.
pub fn index_of(file: &[u8]) -> Vec<u8> {
    let card = Card::read(RULES, file).expect("a good links file");
    fast::index(RULES, &card).to_bytes(RULES)
}

pub fn card_b() -> Vec<(u16, u16)> {
    let mut b = [all_pairs(0..4), all_pairs(3..7)].concat();
    b.push((2, 4));
    b
}

/// All pairs of so many accounts, and for each lower strength down to 3 one account more with so many links less one: each group lies in the next. The links, in
/// order, with their strengths.
pub fn nest(first: u16) -> Vec<((u16, u16), u16)> {
    let whole = all_pairs(0..first).into_iter().map(|pair| (pair, first));
    let more = (3..first).flat_map(|strength| {
        let account = 2 * first - 1 - strength;
        (0..strength - 1).map(move |a| ((a, account), strength))
    });
    let mut links: Vec<_> = whole.chain(more).collect();
    links.sort();
    links
}

/// Parties with account 0 in common, of which the larger of one strength come first whatever their numbers: C at 3, D and E on it, and more.
fn larger_first(add: &mut impl FnMut(&str, Vec<u8>, Vec<Vec<(Question, Said)>>)) {
    let at = |account: u16, k| C(named(&[account]), k);
    let strongest = |account: u16| D(named(&[account]));
    let every = |account: u16| E(named(&[account]));
    let file = |parties: &[Party]| {
        let Party { accounts, links } = beside(parties);
        links_file(accounts, &links)
    };
    // Of one strength, so that C, D and E are the same.
    let same = |said: Vec<u16>| {
        numbers(vec![
            (at(0, 3), said.clone()),
            (strongest(0), said.clone()),
            (every(0), said),
        ])
    };

    // A triangle, and two that share a link: of three and of four accounts.
    let links = [
        (0, 1),
        (0, 2),
        (1, 2),
        (2, 3),
        (2, 4),
        (3, 4),
        (3, 5),
        (4, 5),
    ];
    add(
        "larger-later",
        links_file(6, &links),
        vec![numbers(vec![
            (every(2), vec![1, 0]),
            (strongest(2), vec![1, 0]),
            (at(2, 3), vec![1, 0]),
            (E(named(&[2; 16])), vec![1, 0]),
            (at(2, 4), vec![]),
            (every(0), vec![0]),
            (every(4), vec![1]),
            (F((2, 4), 3), vec![3, 4, 5, 6, 7]),
        ])],
    );
    // Five accounts each; seven links, then eight.
    add(
        "more-links-as-many-accounts",
        file(&[book(5), wheel(5)]),
        vec![same(vec![0, 1])],
    );
    // Six accounts and twelve links, then seven accounts and eleven links. In the first is a group that does not hold account 0.
    add(
        "more-links-fewer-accounts",
        file(&[nested(6), strip(7)]),
        vec![same(vec![2, 1])],
    );
    // Own links with five accounts, and with three of six: the nested ones count.
    add(
        "nested-accounts-count",
        file(&[wheel(5), nested(6)]),
        vec![
            same(vec![2, 1]),
            numbers(vec![
                (every(5), vec![0, 2]),
                (strongest(5), vec![0]),
                (at(5, 3), vec![2]),
                (at(5, 4), vec![0]),
                // rising, though the first two have strength 3 and the others 5
                (F((0, 5), 3), [3, 4].into_iter().chain(10..20).collect()),
            ]),
        ],
    );
    add(
        "nested-accounts-count-first",
        file(&[nested(6), wheel(5)]),
        vec![same(vec![1, 2])],
    );
    // Strength 4 with four accounts, strength 3 with seven.
    add(
        "stronger-before-larger",
        file(&[strip(7), clique(4)]),
        vec![numbers(vec![
            (at(0, 3), vec![0, 1]),
            (at(0, 4), vec![0]),
            (strongest(0), vec![0]),
            (every(0), vec![0, 1]),
        ])],
    );
    // Of strength 4 four accounts and five, of strength 3 three and seven.
    let twice = [triangle(), clique(4), strip(7), five_less_one()];
    add(
        "larger-of-each-strength",
        file(&twice),
        vec![numbers(vec![
            (at(0, 3), vec![1, 0, 3, 2]),
            (at(0, 4), vec![1, 0]),
            (strongest(0), vec![1, 0]),
            (every(0), vec![1, 0, 3, 2]),
        ])],
    );
    let ties = [triangle(), strip(4), triangle(), strip(4), triangle()];
    add(
        "as-large-by-least-link",
        file(&ties),
        vec![same(vec![1, 3, 0, 2, 4])],
    );
    add(
        "every-kind-of-party",
        file(&[every_kind()]),
        vec![numbers(vec![
            (at(0, 2), vec![3, 2, 1, 9, 8, 5, 7, 6, 4, 10, 11, 12]),
            (at(0, 3), vec![3, 2, 1, 9, 8, 5, 7, 6, 4, 10]),
            (at(0, 4), vec![3, 2, 1]),
            (at(0, 5), vec![]),
            (strongest(0), vec![3, 2, 1]),
            (every(0), vec![3, 2, 1, 9, 8, 5, 7, 6, 4, 10, 11, 12]),
        ])],
    );
    // 3, 255, 256 and 258 accounts: a count of them does not fit a byte.
    add(
        "parties-above-255",
        file(&[triangle(), strip(255), strip(256), strip(258)]),
        vec![same(vec![3, 2, 1, 0])],
    );
    // 204 triangles, then 204 of four accounts.
    let halves = [vec![triangle(); 204], vec![strip(4); 204]].concat();
    add(
        "all-smaller-first",
        file(&halves),
        vec![same((204..408).chain(0..204).collect())],
    );
}

/// Links in no triangle, each a group of its own: with others at one account, and as many as there can be.
fn lone_links(add: &mut impl FnMut(&str, Vec<u8>, Vec<Vec<(Question, Said)>>)) {
    let at = |accounts: &[u16], k| C(named(accounts), k);
    let strongest = |accounts: &[u16]| D(named(accounts));
    let every = |accounts: &[u16]| E(named(accounts));
    // Of groups of strength 2 alone, so that C at 2, D and E are the same, and C at 3 has none.
    let same = |accounts: &[u16], said: Vec<u16>| {
        numbers(vec![
            (at(accounts, 2), said.clone()),
            (strongest(accounts), said.clone()),
            (every(accounts), said),
            (at(accounts, 3), vec![]),
        ])
    };

    // 0-1 and 1-2 share an account and are two groups; 3-4 is apart.
    add(
        "three-lone",
        links_file(5, &[(4, 3), (1, 2), (0, 1)]),
        vec![
            firmness(vec![(A((1, 0)), 2, 0), (A((3, 4)), 2, 0)]),
            values(vec![
                (B((0, 1), (1, 2)), 0),
                (B((0, 1), (3, 4)), 0),
                (B((2, 1), (1, 2)), 2),
                (B((3, 4), (3, 4)), 2),
            ]),
            same(&[1], vec![0, 1]),
            same(&[0], vec![0]),
            same(&[2, 1], vec![1]),
            same(&[4], vec![2]),
            same(&[0, 2], vec![]),
            numbers(vec![
                (F((0, 1), 2), vec![0]),
                (F((2, 1), 2), vec![1]),
                (F((3, 4), 2), vec![2]),
                (F((0, 1), 3), vec![]),
            ]),
            triangles(vec![
                (G((0, 1), (0, 1), 2), vec![]),
                (G((0, 1), (1, 2), 2), vec![]),
                (G((0, 1), (3, 4), 2), vec![]),
                (G((0, 1), (0, 1), 3), vec![]),
            ]),
        ],
    );
    // The lone link is the first of all, and its group the last.
    add(
        "lone-first",
        links_file(4, &[(1, 2), (1, 3), (2, 3), (0, 1)]),
        vec![
            values(vec![
                (B((0, 1), (1, 0)), 2),
                (B((0, 1), (1, 2)), 0),
                (B((2, 3), (2, 3)), 3),
            ]),
            numbers(vec![
                (at(&[1], 2), vec![0, 1]),
                (at(&[1], 3), vec![0]),
                (at(&[0], 2), vec![1]),
                (strongest(&[1]), vec![0]),
                (strongest(&[0]), vec![1]),
                (every(&[1]), vec![0, 1]),
                (every(&[0, 1]), vec![1]),
                (F((0, 1), 2), vec![0]),
                (F((2, 3), 2), vec![1, 2, 3]),
            ]),
        ],
    );
    // Two triangles with the link 2-3 between them: at 2 they are as far apart as at 3.
    let bridge = [all_pairs(0..3), vec![(2, 3)], all_pairs(3..6)].concat();
    add(
        "lone-between",
        links_file(6, &bridge),
        vec![
            values(vec![(B((1, 2), (3, 4)), 0), (B((1, 2), (2, 3)), 0)]),
            numbers(vec![
                (at(&[2], 2), vec![0, 2]),
                (at(&[3], 2), vec![1, 2]),
                (at(&[2, 3], 2), vec![2]),
                (at(&[0, 5], 2), vec![]),
                (strongest(&[2, 3]), vec![2]),
                (every(&[3]), vec![1, 2]),
                (F((1, 2), 2), vec![0, 1, 2]),
                (F((2, 3), 2), vec![3]),
                (F((5, 4), 2), vec![4, 5, 6]),
            ]),
            triangles(vec![
                (G((0, 1), (4, 5), 2), vec![]),
                (G((1, 2), (2, 3), 2), vec![]),
                (G((1, 2), (2, 1), 2), vec![[0, 1, 2]]),
            ]),
        ],
    );
    // Four pairs with account 0 before, between and after groups of strength 3 and 4.
    let Party { accounts, links } = beside(&[
        pair(),
        triangle(),
        pair(),
        strip(4),
        pair(),
        clique(4),
        pair(),
    ]);
    add(
        "lone-among-others",
        links_file(accounts, &links),
        vec![numbers(vec![
            (at(&[0], 2), vec![0, 2, 1, 3, 4, 5, 6]),
            (at(&[0], 3), vec![0, 2, 1]),
            (strongest(&[0]), vec![0]),
            (every(&[0]), vec![0, 2, 1, 3, 4, 5, 6]),
            (every(&[0, 1]), vec![3]),
            (every(&[accounts - 1, 0]), vec![6]),
        ])],
    );
    // No account is in more groups: 1,023 at one account, the first and then the last.
    let star: Vec<_> = (1..1_024).map(|a| (0, a)).collect();
    add(
        "lone-star",
        links_file(1_024, &star),
        vec![
            same(&[0], (0..1_023).collect()),
            same(&[0; 16], (0..1_023).collect()),
            same(&[1_023], vec![1_022]),
            same(&[1_023, 0], vec![1_022]),
            same(&[1, 2], vec![]),
            values(vec![(B((0, 1), (0, 2)), 0), (B((1_023, 0), (0, 1_023)), 2)]),
            numbers(vec![(F((0, 1_023), 2), vec![1_022])]),
        ],
    );
    let turned: Vec<_> = (0..1_023).map(|a| (a, 1_023)).collect();
    add(
        "lone-star-turned",
        links_file(1_024, &turned),
        vec![
            same(&[1_023], (0..1_023).collect()),
            same(&[700], vec![700]),
        ],
    );
    let path: Vec<_> = (1..1_024).map(|a| (a - 1, a)).collect();
    add(
        "lone-path",
        links_file(1_024, &path),
        vec![
            same(&[0], vec![0]),
            same(&[512], vec![511, 512]),
            same(&[512, 513], vec![512]),
            same(&[512, 514], vec![]),
            same(&[1_023], vec![1_022]),
            values(vec![(B((5, 6), (6, 7)), 0), (B((5, 6), (6, 5)), 2)]),
            numbers(vec![(F((512, 513), 2), vec![512])]),
            triangles(vec![(G((5, 6), (6, 7), 2), vec![])]),
        ],
    );
    let couples: Vec<_> = (0..512).map(|a| (2 * a, 2 * a + 1)).collect();
    add(
        "lone-couples",
        links_file(1_024, &couples),
        vec![
            same(&[0], vec![0]),
            same(&[1_023, 1_022], vec![511]),
            same(&[1, 2], vec![]),
            numbers(vec![(F((1_022, 1_023), 2), vec![511])]),
        ],
    );
    // Each account below 32 with each from 32 to 95: 2,048 links, as many groups, the link a-b and its group numbered 64a + b - 32.
    add(
        "no-triangle",
        links_file(96, &flat(2_048)),
        vec![
            firmness(vec![(A((31, 95)), 2, 0), (A((0, 32)), 2, 0)]),
            values(vec![
                (B((31, 95), (31, 95)), 2),
                (B((0, 32), (0, 33)), 0),
                (B((0, 32), (1, 32)), 0),
            ]),
            same(&[0], (0..64).collect()),
            same(&[31], (1_984..2_048).collect()),
            same(&[32], (0..32).map(|a| 64 * a).collect()),
            same(&[95], (0..32).map(|a| 64 * a + 63).collect()),
            same(&[0, 32], vec![0]),
            same(&[95, 31], vec![2_047]),
            same(&[0, 1], vec![]),
            numbers(vec![
                (F((0, 32), 2), vec![0]),
                (F((31, 95), 2), vec![2_047]),
                (F((0, 32), 3), vec![]),
            ]),
            triangles(vec![
                (G((0, 32), (0, 32), 2), vec![]),
                (G((0, 32), (0, 33), 2), vec![]),
            ]),
        ],
    );
}

pub fn all() -> Vec<Known> {
    let mut all = Vec::new();
    let mut add = |card: &str, file: Vec<u8>, rows: Vec<Vec<(Question, Said)>>| {
        for (at, (question, said)) in rows.into_iter().flatten().enumerate() {
            all.push(Known {
                name: format!("{card}-question-{at}"),
                file: file.clone(),
                question,
                said,
            });
        }
    };
    let at = |accounts: &[u16], k| C(named(accounts), k);
    let strongest = |accounts: &[u16]| D(named(accounts));
    let every = |accounts: &[u16]| E(named(accounts));

    add(
        "one-account",
        links_file(1, &[]),
        vec![
            numbers(vec![
                (at(&[0], 2), vec![]),
                (at(&[0], 3), vec![]),
                (strongest(&[0]), vec![]),
                (every(&[0; 16]), vec![]),
            ]),
            refused(vec![
                (A((0, 0)), 11),
                (A((0, 1)), 9),
                (B((0, 0), (0, 0)), 11),
                (every(&[1]), 9),
                (F((0, 0), 2), 11),
                (F((0, 0), 1), 10),
                (F((1, 0), 1), 9),
                (G((0, 0), (0, 0), 2), 11),
                (G((0, 0), (0, 0), 1), 10),
                (G((0, 0), (0, 1), 1), 9),
            ]),
        ],
    );
    add(
        "card-a",
        links_file(5, &CARD_A),
        vec![
            firmness(vec![
                (A((1, 2)), 3, 2),
                (A((2, 1)), 3, 2),
                (A((0, 1)), 3, 1),
                (A((3, 1)), 3, 1),
                (A((3, 4)), 2, 0),
                (A((4, 3)), 2, 0),
            ]),
            values(vec![
                (B((3, 4), (3, 4)), 2),
                (B((3, 4), (4, 3)), 2),
                (B((1, 2), (2, 1)), 3),
                (B((0, 1), (2, 3)), 3),
                (B((2, 3), (3, 4)), 0),
            ]),
            numbers(vec![
                (at(&[0, 3], 3), vec![0]),
                (at(&[0, 3], 2), vec![0]),
                (at(&[0], 4), vec![]),
                (at(&[4], 3), vec![]),
                (at(&[4], 2), vec![1]),
                (at(&[3], 2), vec![0, 1]),
                (at(&[4, 3], 2), vec![1]),
                (at(&[4, 2], 2), vec![]),
                (strongest(&[4]), vec![1]),
                (strongest(&[3]), vec![0]),
                (every(&[3]), vec![0, 1]),
                (every(&[3, 4]), vec![1]),
                (every(&[2, 4]), vec![]),
                (F((3, 2), 3), vec![0, 1, 2, 3, 4]),
                (F((3, 2), 2), vec![0, 1, 2, 3, 4]),
                (F((3, 4), 3), vec![]),
                (F((3, 4), 2), vec![5]),
                (F((4, 3), 2), vec![5]),
                (F((3, 4), 64), vec![]),
            ]),
            triangles(vec![
                (G((0, 1), (3, 2), 3), vec![[0, 1, 2], [1, 2, 3]]),
                (G((2, 1), (1, 2), 3), vec![[0, 1, 2]]),
                (G((0, 1), (3, 2), 2), vec![[0, 1, 2], [1, 2, 3]]),
                (G((2, 1), (1, 2), 2), vec![[0, 1, 2]]),
                (G((3, 4), (3, 4), 3), vec![]),
                (G((3, 4), (3, 4), 2), vec![]),
                (G((3, 4), (4, 3), 2), vec![]),
                (G((3, 4), (2, 3), 3), vec![]),
                (G((2, 3), (3, 4), 3), vec![]),
                (G((2, 3), (3, 4), 2), vec![]),
                (G((0, 1), (0, 1), 4), vec![]),
            ]),
            refused(vec![
                (A((0, 4)), 11),
                (A((3, 3)), 11),
                (A((5, 5)), 9),
                (A((0, 0x1_0001)), 9),
                (B((0, 4), (0, 5)), 9),
                (B((0, 1), (0, 3)), 11),
                (B((0, 3), (0, 1)), 11),
                (C(vec![], 1), 8),
                (C(vec![0], 1), 8),
                (C(vec![0xFF; 3], 1), 8),
                (C(vec![0; 34], 1), 8),
                (C(vec![0; 0x1_0002], 3), 8),
                (D(vec![0xFF; 34]), 8),
                (E(vec![0; 31]), 8),
                (at(&[0, 5], 1), 9),
                (at(&[0x100], 3), 9),
                (every(&[0xFFFF]), 9),
                (at(&[0], 0), 10),
                (at(&[0], 1), 10),
                (at(&[4], 1), 10),
                (at(&[0], 65), 10),
                (at(&[0], 0x1_0002), 10),
                (at(&[0], 0x1_0003), 10),
                (at(&[0], u32::MAX), 10),
                (F((0, 5), 1), 9),
                (F((0, 4), 1), 10),
                (F((3, 4), 1), 10),
                (F((3, 4), 0x102), 10),
                (F((0, 1), 0x103), 10),
                (F((0, 1), 0x8000_0003), 10),
                (F((0, 4), 2), 11),
                (F((0, 4), 3), 11),
                (G((0, 5), (0, 4), 1), 9),
                (G((0, 4), (0x1_0000, 1), 1), 9),
                (G((0, 4), (0, 4), 1), 10),
                (G((3, 4), (3, 4), 1), 10),
                (G((0, 1), (0, 1), 65), 10),
                (G((0, 1), (0, 1), 0x103), 10),
                (G((0, 1), (0, 1), u32::MAX), 10),
                (G((0, 4), (0, 1), 2), 11),
                (G((0, 4), (0, 1), 3), 11),
                (G((0, 1), (3, 3), 64), 11),
            ]),
        ],
    );
    let far = vec![[0, 1, 2], [0, 2, 3], [2, 3, 4], [3, 4, 5], [3, 5, 6]];
    add(
        "card-b",
        links_file(7, &card_b()),
        vec![
            firmness(vec![
                (A((2, 3)), 4, 2),
                (A((4, 3)), 4, 2),
                (A((2, 4)), 3, 1),
                (A((0, 1)), 4, 2),
            ]),
            values(vec![
                (B((2, 3), (3, 4)), 3),
                (B((3, 4), (3, 2)), 3),
                (B((0, 1), (2, 3)), 4),
                (B((0, 1), (5, 6)), 3),
                (B((2, 4), (2, 4)), 3),
            ]),
            numbers(vec![
                (at(&[3], 4), vec![0, 1]),
                (at(&[3; 16], 4), vec![0, 1]),
                (at(&[2, 4], 4), vec![]),
                (at(&[2, 4], 3), vec![2]),
                (at(&[3], 3), vec![2]),
                (at(&[3], 2), vec![2]),
                (at(&[3], 5), vec![]),
                (strongest(&[3]), vec![0, 1]),
                (strongest(&[2]), vec![0]),
                (strongest(&[2, 4]), vec![2]),
                (every(&[3]), vec![0, 1, 2]),
                (every(&[4, 3]), vec![1, 2]),
                (every(&[6, 0]), vec![2]),
                (F((0, 1), 4), (0..6).collect()),
                (F((5, 6), 4), (7..13).collect()),
                (F((6, 5), 3), (0..13).collect()),
                (F((6, 5), 2), (0..13).collect()),
                (F((2, 4), 3), (0..13).collect()),
                (F((2, 4), 4), vec![]),
                (F((0, 1), 64), vec![]),
            ]),
            triangles(vec![
                (G((2, 3), (3, 4), 3), vec![[2, 3, 4]]),
                (G((2, 3), (3, 4), 4), vec![]),
                (G((2, 3), (0, 1), 4), vec![[0, 2, 3], [0, 1, 2]]),
                (G((0, 1), (5, 6), 3), far.clone()),
                (G((0, 1), (5, 6), 2), far),
                (G((0, 1), (5, 6), 4), vec![]),
                (G((4, 3), (3, 4), 4), vec![[3, 4, 5]]),
                (G((2, 4), (2, 4), 3), vec![[2, 3, 4]]),
                (G((2, 4), (2, 4), 4), vec![]),
            ]),
        ],
    );
    add(
        "two-triangles",
        links_file(5, &[(0, 1), (0, 2), (1, 2), (2, 3), (2, 4), (3, 4)]),
        vec![
            values(vec![(B((0, 2), (2, 3)), 0), (B((0, 1), (1, 2)), 3)]),
            numbers(vec![
                (at(&[2], 3), vec![0, 1]),
                (at(&[2], 2), vec![0, 1]),
                (strongest(&[2]), vec![0, 1]),
                (every(&[2]), vec![0, 1]),
                (every(&[2, 3]), vec![1]),
                (every(&[1, 3]), vec![]),
                (strongest(&[1, 3]), vec![]),
                (F((1, 2), 3), vec![0, 1, 2]),
            ]),
            triangles(vec![(G((0, 1), (3, 4), 3), vec![])]),
        ],
    );
    let mut four_and_triangle = all_pairs(0..4);
    four_and_triangle.extend(all_pairs(3..6));
    add(
        "four-and-triangle",
        links_file(6, &four_and_triangle),
        vec![
            firmness(vec![(A((3, 4)), 3, 1), (A((2, 3)), 4, 2)]),
            values(vec![(B((2, 3), (3, 4)), 0)]),
            numbers(vec![
                (at(&[3], 3), vec![0, 1]),
                (at(&[3], 4), vec![0]),
                (strongest(&[3]), vec![0]),
                (strongest(&[5, 3]), vec![1]),
                (every(&[3]), vec![0, 1]),
            ]),
        ],
    );
    add(
        "all-pairs-of-five",
        links_file(5, &all_pairs(0..5)),
        vec![
            firmness(vec![(A((0, 4)), 5, 3), (A((3, 2)), 5, 3)]),
            values(vec![(B((0, 1), (3, 4)), 5)]),
            numbers(vec![
                (at(&[0], 3), vec![0]),
                (at(&[0, 1, 2, 3, 4], 2), vec![0]),
                (at(&[0, 1, 2, 3, 4], 4), vec![0]),
                (at(&[2], 5), vec![0]),
                (at(&[2], 6), vec![]),
                (every(&[4, 4]), vec![0]),
                (F((0, 1), 2), (0..10).collect()),
                (F((0, 1), 3), (0..10).collect()),
                (F((0, 1), 5), (0..10).collect()),
                (F((0, 1), 6), vec![]),
            ]),
            triangles(vec![
                // 0-1-4 comes first and leads to a longer chain
                (G((1, 4), (2, 3), 5), vec![[1, 2, 4], [1, 2, 3]]),
            ]),
        ],
    );
    add(
        "all-pairs-of-64",
        links_file(64, &all_pairs(0..64)),
        vec![
            firmness(vec![(A((0, 63)), 64, 62), (A((31, 32)), 64, 62)]),
            values(vec![(B((0, 1), (62, 63)), 64)]),
            numbers(vec![
                (at(&[63], 2), vec![0]),
                (at(&[63], 3), vec![0]),
                (at(&[63], 64), vec![0]),
                (F((62, 63), 2), (0..2_016).collect()),
                (F((62, 63), 3), (0..2_016).collect()),
                (F((0, 1), 64), (0..2_016).collect()),
            ]),
            triangles(vec![
                (G((62, 63), (60, 61), 64), vec![[60, 62, 63], [60, 61, 62]]),
                (G((62, 63), (63, 62), 64), vec![[0, 62, 63]]),
            ]),
            refused(vec![
                (G((0, 1), (62, 63), 1), 10),
                (G((0, 1), (62, 63), 65), 10),
                (at(&[63], 1), 10),
                (at(&[63], 65), 10),
                (F((0, 1), 1), 10),
                (F((0, 1), 65), 10),
                (every(&[64]), 9),
            ]),
        ],
    );
    // 511 triangles with an account in common, and no more: as many groups, by the least link.
    let spread: Vec<_> = (0..511)
        .flat_map(|i| {
            all_pairs(2 * i + 1..2 * i + 3)
                .into_iter()
                .chain([(0, 2 * i + 1), (0, 2 * i + 2)])
        })
        .collect();
    add(
        "triangles-with-one-account",
        links_file(1_024, &spread),
        vec![numbers(vec![
            (at(&[0], 3), (0..511).collect()),
            (strongest(&[0]), (0..511).collect()),
            (every(&[0; 16]), (0..511).collect()),
            (every(&[0, 1_022]), vec![510]),
            (every(&[1, 3]), vec![]),
            (every(&[1_023]), vec![]),
        ])],
    );
    larger_first(&mut add);
    lone_links(&mut add);
    // A link with every other account as a third one: no link is in more triangles.
    let leaves = (2..1_024).flat_map(|account| [(0, account), (1, account)]);
    let book: Vec<_> = [(0, 1)].into_iter().chain(leaves).collect();
    add(
        "most-triangles",
        links_file(1_024, &book),
        vec![firmness(vec![
            (A((0, 1)), 3, 1_022),
            (A((0, 2)), 3, 1),
            (A((1_023, 1)), 3, 1),
        ])],
    );
    // A strip of triangles, each sharing a link with the next, has 2,045 links; three more each make all pairs of four accounts.
    let mut strip: Vec<_> = (0..1_023).map(|a| (a, a + 1)).collect();
    strip.extend((0..1_022).map(|a| (a, a + 2)));
    strip.extend([(0, 3), (500, 503), (1_020, 1_023)]);
    let by_the_fourth = |a| {
        if [1, 501, 1_021].contains(&a) {
            a - 1
        } else {
            a
        }
    };
    let along = (0..1_022).map(|a| [by_the_fourth(a), a + 1, a + 2]);
    add(
        "longest-answer",
        links_file(1_024, &strip),
        vec![
            triangles(vec![
                (G((0, 1), (1_022, 1_023), 3), along.collect()),
                (G((0, 1), (2, 3), 4), vec![[0, 1, 2], [0, 2, 3]]),
                (G((0, 1), (500, 503), 4), vec![]),
            ]),
            firmness(vec![
                (A((0, 3)), 4, 2),
                (A((1, 2)), 4, 2),
                (A((2, 3)), 4, 2),
                (A((3, 4)), 3, 2),
            ]),
            values(vec![(B((0, 1), (1_022, 1_023)), 3)]),
            numbers(vec![
                (F((1_022, 1_023), 3), (0..2_048).collect()),
                (every(&[0, 1_023]), vec![3]),
                (strongest(&[500]), vec![1]),
            ]),
        ],
    );
    // A strip of 1,023 triangles whose last account is 5 again: as long as a chain can be.
    let place = |a: u16| if a == 1_024 { 5 } else { a };
    let mut strip: Vec<_> = (0..1_024).map(|a| (a, place(a + 1))).collect();
    strip.extend((0..1_023).map(|a| (a, place(a + 2))));
    let mut chain: Vec<_> = (0..1_022).map(|a| [a, a + 1, a + 2]).collect();
    chain.push([5, 1_022, 1_023]);
    let back = chain.iter().rev().copied().collect();
    add(
        "longest-chain",
        links_file(1_024, &strip),
        vec![triangles(vec![
            (G((0, 1), (5, 1_023), 3), chain),
            (G((1_023, 5), (1, 0), 3), back),
            (G((0, 1), (5, 1_023), 4), vec![]),
        ])],
    );
    let nested = nest(46);
    let pairs: Vec<_> = nested.iter().map(|&(pair, _)| pair).collect();
    let mut rows = vec![
        firmness(vec![
            (A((0, 88)), 3, 1),
            (A((0, 46)), 45, 43),
            // in 87 triangles, of every weight from 3 on
            (A((0, 1)), 46, 44),
            (A((1, 0)), 46, 44),
            (A((44, 45)), 46, 44),
        ]),
        values(vec![
            (B((44, 45), (0, 88)), 3),
            (B((0, 46), (44, 45)), 45),
            (B((0, 46), (1, 47)), 44),
        ]),
        numbers(vec![
            (every(&[0]), (0..44).collect()),
            (every(&[45]), (0..44).collect()),
            (every(&[45, 88, 0]), vec![43]),
            (strongest(&[45, 0]), vec![0]),
            (strongest(&[46, 47]), vec![2]),
        ]),
    ];
    for k in 2..=47 {
        let within = |&at: &u16| nested[usize::from(at)].1 >= k;
        let links: Vec<u16> = (0..nested.len() as u16).filter(within).collect();
        let group: Vec<u16> = (k <= 46).then(|| 46 - k.max(3)).into_iter().collect();
        rows.push(numbers(vec![
            (at(&[7], k.into()), group),
            (F((44, 45), k.into()), links),
        ]));
    }
    add("nest", links_file(89, &pairs), rows);
    all
}
