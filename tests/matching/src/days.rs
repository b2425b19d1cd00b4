//! Days and limits to try: drawn for a card; faults, amounts, kinds, tails and rooms gone through in order; whole days on cards where an account is in many groups; and
//! days with known bytes and margins.

use crate::known::{card_b, nest};
use crate::limits::{all_pairs, flat, CARD_A};
use crate::parties::{beside, every_kind, nested, pair, triangle, Party};
use crate::questions::bad;
use crate::tried::{margin, to_bytes, Record, Try};
use reference::random::Random;
use terminal::{Day, Trial, LIMIT_MAX, MARGIN, RECORDS_MAX, STAKE_MAX};

pub type Pairs = Vec<(u16, u16)>;

/// A limit to try, and the bytes of the records.
#[derive(Clone, Debug)]
pub struct Drawn {
    pub trial: Trial,
    pub records: Vec<u8>,
}

/// Levels at the limits, and some that would be levels if they were cut.
const LEVELS: [u32; 12] = [
    0,
    1,
    1,
    63,
    64,
    64,
    65,
    65,
    66,
    0x102,
    0x1_0003,
    0x8000_0003,
];
const LIMITS: [u32; 7] = [
    0,
    1,
    LIMIT_MAX - 1,
    LIMIT_MAX,
    LIMIT_MAX + 1,
    1 << 31,
    u32::MAX,
];
const STAKES: [u32; 7] = [
    0,
    1,
    STAKE_MAX - 1,
    STAKE_MAX,
    STAKE_MAX + 1,
    1 << 31,
    u32::MAX,
];
const KINDS: [u8; 5] = [1, 1, 2, 128, 255];

/// An end of some link; any account if there is none.
fn linked(random: &mut Random, accounts: u16, links: &Pairs) -> u32 {
    match links.is_empty() || random.one_in(6) {
        true => random.below(accounts.into()) as u32,
        false => {
            let (a, b) = random.pick(links);
            random.pick(&[a, b]).into()
        }
    }
}

/// A day of at most so many records: mostly good, its limits and stakes so that about half of the bets are taken; bets of few accounts, so that margins fill up.
pub fn draw(random: &mut Random, accounts: u16, links: &Pairs, most: usize) -> Drawn {
    let [few, count] = [random.within(1..=8), random.within(0..=most)];
    let few: Vec<u32> = (0..few).map(|_| linked(random, accounts, links)).collect();
    let stakes = random.pick(&[3, 50, 1_000, STAKE_MAX]);
    // What is staked at an account if all goes well, and what it may be.
    let whole = u64::from(stakes) * (1 + count as u64 / few.len() as u64);
    let whole = whole.min(LIMIT_MAX.into()) as usize;
    let (faulty, limits) = (random.one_in(4), random.within(2..=12));
    let limit = |random: &mut Random| match random.below(30) {
        0 => random.pick(&LIMITS[..4]),
        1 if faulty => random.pick(&LIMITS),
        _ => random.below(whole + 1) as u32,
    };
    let record = |random: &mut Random| {
        if random.one_in(limits) {
            let any = bad(random, accounts);
            return Record {
                kind: random.pick(&KINDS),
                account: random.pick(&[0, few[0], any]),
                amount: limit(random),
            };
        }
        let account = match random.below(40) {
            0 if faulty => bad(random, accounts),
            1..=3 => random.below(accounts.into()) as u32,
            4..=9 => linked(random, accounts, links),
            _ => random.pick(&few),
        };
        let stake = match random.below(40) {
            0 if faulty => random.pick(&STAKES),
            1 => random.pick(&STAKES[1..4]),
            _ => random.within(1..=stakes as usize) as u32,
        };
        Record::bet(account, stake)
    };
    let records: Vec<_> = (0..count).map(|_| record(random)).collect();
    let mut records = to_bytes(&records);
    if random.one_in(3) {
        records.extend(tail(random));
    }
    let k = match random.below(12) {
        0 => random.pick(&LEVELS),
        1..=5 => 2,
        _ => random.within(2..=6) as u32,
    };
    let limit = limit(random);
    Drawn {
        trial: Trial { k, limit },
        records,
    }
}

/// Fewer bytes than a record, which would be a bad one or a good one.
fn tail(random: &mut Random) -> Vec<u8> {
    let byte = random.pick(&[0, 1, 255]);
    vec![byte; random.within(1..=8)]
}

/// A card with days, each with rooms of its own or of every kind.
pub struct Lot {
    pub name: &'static str,
    pub accounts: u16,
    pub links: Pairs,
    pub days: Vec<(Drawn, Option<[usize; 2]>)>,
    /// Whether all days are put on the index damaged too.
    pub on_damaged: bool,
}

fn day(k: u32, limit: u32, records: &[Record]) -> Drawn {
    Drawn {
        trial: Trial { k, limit },
        records: to_bytes(records),
    }
}

pub fn all() -> Vec<Lot> {
    let mut all = of_small_cards();
    all.extend(levels());
    all.extend(many_groups());
    all
}

/// Faults, amounts, tails and rooms, on cards A and B.
pub fn of_small_cards() -> Vec<Lot> {
    vec![faults(), amounts(), tails(), rooms()]
}

/// Every fault beside every other: level, number of records, opening limit, faults of a record first and last in the row, both buffers.
fn faults() -> Lot {
    let good = [Record::bet(0, 3), Record::limit(50), Record::bet(3, 2)];
    let (outside, nothing) = (Record::bet(5, 1), Record::bet(0, 0));
    let (above, high) = (Record::bet(4, STAKE_MAX + 1), Record::limit(LIMIT_MAX + 1));
    let both = Record::bet(0x1_0000, 0);
    let wrong: [&[Record]; 9] = [
        &[],
        &[outside],
        &[nothing],
        &[above],
        &[high],
        &[both],
        &[outside, nothing],
        &[nothing, outside],
        &[high, outside],
    ];
    let mut days = Vec::new();
    for k in [1, 2, 3, 64, 65] {
        for count in [3, RECORDS_MAX, RECORDS_MAX + 1] {
            for limit in [60, LIMIT_MAX + 1] {
                for (wrong, first) in wrong
                    .iter()
                    .flat_map(|wrong| [(wrong, true), (wrong, false)])
                {
                    let mut records: Vec<_> = { good.iter().copied().cycle() }
                        .take(count - wrong.len())
                        .collect();
                    let at = if first { 0 } else { records.len() };
                    records.splice(at..at, wrong.iter().copied());
                    let groups = match k {
                        2 => 2,
                        3 => 1,
                        _ => 0,
                    };
                    let exact = [count, MARGIN * groups];
                    // A level that there is not has no margins; empty buffers would be short all the same.
                    let less = [count - 1, exact[1].saturating_sub(1)];
                    for room in [
                        exact,
                        [less[0], exact[1]],
                        [exact[0], less[1]],
                        less,
                        [0, 0],
                    ] {
                        days.push((day(k, limit, &records), Some(room)));
                    }
                }
            }
        }
    }
    Lot {
        name: "faults-of-days",
        accounts: 5,
        links: CARD_A.to_vec(),
        days,
        on_damaged: true,
    }
}

/// Each kind of byte with each amount and each account at the edges, between two bets; and each limit at the start.
fn amounts() -> Lot {
    let accounts = [
        0,
        3,
        4,
        5,
        255,
        256,
        0xFFFF,
        0x1_0000,
        0x1_0003,
        0x0100_0000,
        0x8000_0003,
        u32::MAX,
    ];
    let amounts = [
        0,
        1,
        59,
        60,
        61,
        255,
        256,
        999_999,
        1_000_000,
        1_000_001,
        0x1_0001,
        0x0100_0001,
        999_999_999,
        1_000_000_000,
        1_000_000_001,
        1 << 31,
        u32::MAX,
    ];
    let mut days = Vec::new();
    for kind in [0, 1, 2, 7, 127, 128, 255] {
        for account in accounts {
            for amount in amounts {
                let record = Record {
                    kind,
                    account,
                    amount,
                };
                let row = [Record::bet(3, 40), record, Record::bet(3, 20)];
                days.push((day(2, 60, &row), None));
            }
        }
    }
    for limit in amounts {
        for stake in [1, 59, 60, 61, 1_000_000] {
            let row = [
                Record::bet(2, stake),
                Record::bet(4, stake),
                Record::bet(0, 1),
            ];
            days.push((day(2, limit, &row), None));
        }
    }
    Lot {
        name: "amounts-of-days",
        accounts: 5,
        links: CARD_A.to_vec(),
        days,
        on_damaged: false,
    }
}

/// Tails of every length after no record, some, and as many as there may be.
fn tails() -> Lot {
    let mut days = Vec::new();
    for count in [0, 1, 3, RECORDS_MAX - 1, RECORDS_MAX, RECORDS_MAX + 1] {
        for length in 0..=8 {
            for byte in [0, 1, 255] {
                let row = vec![Record::bet(3, 1); count];
                let mut day = day(3, 2_000, &row);
                day.records.extend(vec![byte; length]);
                days.push((day, None));
            }
        }
    }
    Lot {
        name: "tails-of-days",
        accounts: 7,
        links: card_b(),
        days,
        on_damaged: false,
    }
}

/// Every length of both buffers up to more than is needed.
fn rooms() -> Lot {
    let row = [
        Record::bet(3, 4),
        Record::bet(7, 9),
        Record::limit(2),
        Record::bet(0, 1),
    ];
    let rooms = (0..=6).flat_map(|room| (0..=3 * MARGIN + 2).map(move |wide| [room, wide]));
    let of = |k: u32| rooms.clone().map(move |room| (day(k, 9, &row), Some(room)));
    Lot {
        name: "rooms-of-days",
        accounts: 9,
        links: [&card_b()[..], &[(7, 8)]].concat(),
        days: [2, 3, 4, 5].into_iter().flat_map(of).collect(),
        on_damaged: false,
    }
}

/// Each level on groups that lie in each other, with lone pairs beside.
fn levels() -> Vec<Lot> {
    let mut random = Random::new(8);
    let small: Pairs = nest(12).into_iter().map(|(pair, _)| pair).collect();
    let beside: Pairs = [&small[..], &[(0, 30), (22, 23), (24, 25)]].concat();
    let clique = [all_pairs(0..64), vec![(64, 65), (0, 66)]].concat();
    let cards = [(32, beside), (70, clique)];
    let lot = |(accounts, links): (u16, Pairs)| {
        let days = (0..=70).chain([0x102, 0x1_0002, u32::MAX]).map(|k| {
            let mut drawn = draw(&mut random, accounts, &links, 40);
            drawn.trial.k = k;
            (drawn, None)
        });
        Lot {
            name: "levels-of-days",
            days: days.collect(),
            accounts,
            links,
            on_damaged: false,
        }
    };
    cards.into_iter().map(lot).collect()
}

/// Cards on which one account is in many groups at a level: whole days, of it and of others.
fn many_groups() -> Vec<Lot> {
    let mut random = Random::new(9);
    let windmill = beside(&vec![triangle(); 511]);
    let nests = beside(&vec![nested(5); 204]);
    let star = beside(&vec![pair(); 1_023]);
    let kinds = every_kind();
    let flat = Party {
        accounts: 96,
        links: flat(2_048),
    };
    let row = beside(&[pair(), triangle(), nested(5), triangle(), pair()]);
    let cards = [
        (windmill, 4),
        (nests, 4),
        (star, 4),
        (flat, 4),
        (kinds, 60),
        (row, 60),
    ];
    let lot = |(Party { accounts, links }, count): (Party, usize)| {
        let mut days = Vec::new();
        for turn in 0..count {
            let most = if count == 4 { RECORDS_MAX } else { 60 };
            let mut drawn = draw(&mut random, accounts, &links, most);
            drawn.trial.k = [2, 3, 3, 4][turn % 4];
            days.push((drawn, None));
            // As many as there may be, every other one of the account in common: a limit that lets a third of them pass.
            let bet = |at: usize| {
                let other = (at * 7 % usize::from(accounts)) as u32;
                Record::bet(if at % 2 == 0 { 0 } else { other }, 1 + at as u32 % 3)
            };
            let mut row: Vec<_> = (0..RECORDS_MAX).map(bet).collect();
            row[3_000] = Record::limit(100 * turn as u32);
            row[3_500] = Record::limit(2_000);
            let room = [RECORDS_MAX, MARGIN * 2_048];
            days.push((day([2, 3][turn % 2], 1_500, &row), Some(room)));
            if turn == 3 {
                break;
            }
        }
        Lot {
            name: "many-groups",
            days,
            accounts,
            links,
            on_damaged: false,
        }
    };
    let mut lots: Vec<_> = cards.into_iter().map(lot).collect();
    // Parties with an account in common, as they come.
    for _ in 0..60 {
        let party = |random: &mut Random| match random.below(4) {
            0 => pair(),
            1 => triangle(),
            2 => nested(random.within(5..=6) as u16),
            _ => crate::parties::clique(random.within(3..=5) as u16),
        };
        let row: Vec<_> = { 0..random.within(2..=9) }
            .map(|_| party(&mut random))
            .collect();
        let Party { accounts, links } = beside(&row);
        let days = { 0..6 }.map(|_| (draw(&mut random, accounts + 2, &links, 50), None));
        lots.push(Lot {
            name: "parties-of-days",
            days: days.collect(),
            accounts: accounts + 2,
            links,
            on_damaged: false,
        });
    }
    lots
}

/// A day whose bytes and margins are known.
pub struct Known {
    pub name: &'static str,
    pub accounts: u16,
    pub links: Pairs,
    pub day: Drawn,
    pub taken: Vec<u8>,
    pub margins: Vec<i64>,
}

impl Known {
    /// Whether the library, or the library with a fault, gives these bytes and margins in rooms of just their length.
    pub fn holds(&self, try_on: Try, index: &[u8]) -> bool {
        let mut records = self.day.records.clone();
        let (mut taken, mut margins) = (
            vec![9; self.taken.len()],
            vec![9; MARGIN * self.margins.len()],
        );
        let day = Day {
            index: (index.as_ptr().cast_mut(), index.len()),
            records: (records.as_mut_ptr(), records.len()),
            taken: (taken.as_mut_ptr(), taken.len()),
            margins: (margins.as_mut_ptr(), margins.len()),
        };
        let reply = unsafe { try_on(self.day.trial, &day) };
        let written: Vec<i64> = margins.chunks(MARGIN).map(margin).collect();
        let value = self.margins.len() as u32;
        [reply.refusal, reply.value, reply.second, reply.third] == [0, value, 0, 0]
            && taken == self.taken
            && written == self.margins
    }
}

pub fn known() -> Vec<Known> {
    let (bet, limit) = (Record::bet, Record::limit);
    let a = || (5, CARD_A.to_vec());
    let b = || (7, card_b());
    let mut all = Vec::new();
    let mut add = |name, (accounts, links), day, taken: &[u8], margins: &[i64]| {
        all.push(Known {
            name,
            accounts,
            links,
            day,
            taken: taken.to_vec(),
            margins: margins.to_vec(),
        });
    };
    // Account 3 of card A is in group 0 and in the lone pair, 4 in the pair alone.
    let row = [bet(4, 60), bet(3, 50), bet(0, 50)];
    add(
        "lone-pair-at-2",
        a(),
        day(2, 100, &row),
        &[1, 0, 1],
        &[50, 40],
    );
    // At 3 account 4 is in no group, and 3 in one.
    add("lone-pair-at-3", a(), day(3, 100, &row), &[1, 1, 1], &[0]);
    // At 4 each of them is measured by itself, and there is no margin.
    let row = [bet(3, 60), bet(0, 50), bet(3, 41), bet(3, 40), bet(0, 51)];
    add("by-itself", a(), day(4, 100, &row), &[1, 1, 0, 1, 0], &[]);
    add("no-records", a(), day(2, 7, &[]), &[], &[7, 7]);
    add(
        "no-links",
        (3, vec![]),
        day(2, 5, &[bet(2, 5), bet(2, 1), bet(1, 5)]),
        &[1, 0, 1],
        &[],
    );
    // Card B at 4: account 3 is in both fours. At 3 all are one group.
    let row = [bet(0, 70), bet(3, 40), bet(6, 80), bet(3, 20), bet(1, 10)];
    add(
        "two-fours",
        b(),
        day(4, 100, &row),
        &[1, 0, 1, 1, 1],
        &[0, 0],
    );
    add("one-three", b(), day(3, 100, &row), &[1, 0, 0, 1, 1], &[0]);
    // Stored groups of strength 4 are none at 3, and that of strength 3 is none at 4.
    add(
        "four-at-3",
        (7, all_pairs(0..5)),
        day(3, 9, &[bet(0, 4), bet(5, 9), bet(6, 9), bet(4, 5)]),
        &[1, 1, 1, 1],
        &[0],
    );
    // A bet that is not taken is not counted.
    let row = [bet(0, 101), bet(1, 100), bet(2, 1)];
    add("not-counted", a(), day(3, 100, &row), &[0, 1, 0], &[0]);
    // The limit falls below what is taken, rises to it, and above.
    let row = [
        bet(0, 80),
        limit(50),
        bet(1, 1),
        limit(80),
        bet(1, 1),
        limit(81),
        bet(1, 1),
        limit(30),
    ];
    add(
        "limit-falls",
        a(),
        day(3, 100, &row),
        &[1, 1, 0, 1, 0, 1, 1, 1],
        &[-51],
    );
    // A new limit is also that of a pair met later, and of an account in no group.
    let row = [
        limit(10),
        bet(4, 11),
        bet(3, 10),
        bet(0, 1),
        limit(12),
        bet(4, 2),
        bet(4, 1),
    ];
    add(
        "limit-for-all",
        a(),
        day(2, 1_000, &row),
        &[1, 0, 1, 0, 1, 1, 0],
        &[2, 0],
    );
    // Nothing may be bet at limit 0; a limit of 0 is no fault.
    add(
        "limit-0",
        a(),
        day(2, 0, &[bet(0, 1), limit(0), bet(4, 1)]),
        &[0, 1, 0],
        &[0, 0],
    );
    // The highest margin and the lowest: a thousand stakes of the most, then limit 0.
    add(
        "highest-margin",
        a(),
        day(3, LIMIT_MAX, &[]),
        &[],
        &[LIMIT_MAX.into()],
    );
    let mut row = vec![bet(2, STAKE_MAX); 1_001];
    row.push(limit(0));
    let mut taken = vec![1; 1_002];
    taken[1_000] = 0;
    add(
        "lowest-margin",
        a(),
        day(3, LIMIT_MAX, &row),
        &taken,
        &[-i64::from(LIMIT_MAX)],
    );
    // Two accounts in no group are apart.
    let row = [bet(5, 9), bet(6, 9), bet(5, 1), bet(6, 1)];
    add(
        "apart",
        (7, CARD_A.to_vec()),
        day(2, 9, &row),
        &[1, 1, 0, 0],
        &[9, 9],
    );
    // Two lone pairs that share an account are two parties.
    let path = (3, vec![(0, 1), (1, 2)]);
    let row = [
        bet(0, 6),
        bet(2, 7),
        bet(1, 4),
        bet(1, 3),
        bet(0, 1),
        bet(2, 1),
    ];
    add(
        "two-pairs",
        path,
        day(2, 10, &row),
        &[1, 1, 0, 1, 1, 0],
        &[0, 0],
    );
    // Nested accounts: at 3 the whole nest is one group, at 4 the four alone, and account 0 by itself.
    let around = (5, nested(5).links);
    let row = [bet(0, 10), bet(1, 10), bet(4, 10), bet(0, 1), bet(0, 10)];
    add(
        "nest-at-3",
        around.clone(),
        day(3, 20, &row),
        &[1, 1, 0, 0, 0],
        &[0],
    );
    add(
        "nest-at-4",
        around,
        day(4, 20, &row),
        &[1, 1, 1, 1, 0],
        &[0],
    );
    // One account in 511 groups: its bets count in each.
    let Party { accounts, links } = beside(&vec![triangle(); 511]);
    let row = [bet(0, 5), bet(1_022, 5), bet(0, 1), bet(1, 5), bet(2, 1)];
    let mut margins = [5; 511];
    margins[0] = 0;
    margins[510] = 0;
    add(
        "windmill",
        (accounts, links),
        day(3, 10, &row),
        &[1, 1, 0, 1, 0],
        &margins,
    );
    // As many lone pairs as there may be: 2,048 margins.
    let row = [bet(0, 4), bet(32, 5), bet(95, 10), bet(95, 6), bet(31, 7)];
    let margin = |(low, high): (u16, u16)| {
        let of = |account| match account {
            0 => 4,
            32 => 5,
            95 => 6,
            _ => 0,
        };
        10 - of(low) - of(high)
    };
    let mut pairs = flat(2_048);
    pairs.sort();
    let margins: Vec<i64> = pairs.iter().map(|&pair| margin(pair)).collect();
    add(
        "lone-2048",
        (96, pairs),
        day(2, 10, &row),
        &[1, 1, 0, 1, 0],
        &margins,
    );
    all
}
