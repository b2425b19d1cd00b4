//! Question G gone through in order: small cards whole, its faults in every combination, each room, and long chains, alone and with many of one length.

use crate::asked::{With, ROOM};
use crate::known::{card_b, index_of};
use crate::limits::all_pairs;
use reference::card::links_file;
use reference::questions::Ends;
use reference::random::Random;
use terminal::Question::{self, G};
use terminal::{DESK, WINDOWS};

/// An index and questions on it, each with its room, window and desk record; with those of every kind if it has none.
pub struct Lot {
    pub name: &'static str,
    pub index: Vec<u8>,
    pub asked: Vec<(Question, Option<With>)>,
}

pub type Pairs = Vec<(u16, u16)>;

pub fn all() -> impl Iterator<Item = Lot> {
    let others = faults().into_iter().chain([rooms()]).chain(long_chains());
    cards_of_five().chain(others)
}

pub fn ends((a, b): (u16, u16)) -> Ends {
    (a.into(), b.into())
}

/// The links of every card of five accounts.
pub fn links_of_five() -> impl Iterator<Item = Pairs> {
    let pairs = all_pairs(0..5);
    (0..1_u32 << pairs.len()).map(move |chosen| {
        let links = (0..pairs.len()).filter(|at| chosen >> at & 1 == 1);
        links.map(|at| pairs[at]).collect()
    })
}

/// Every card of five accounts: every two links, at every k that a link can have.
fn cards_of_five() -> impl Iterator<Item = Lot> {
    links_of_five().map(|links| {
        let mut asked = Vec::new();
        for (&first, &second) in links.iter().flat_map(|a| links.iter().map(move |b| (a, b))) {
            for k in 2..=5 {
                let turned = (second.1, second.0);
                let question = G(ends(first), ends(turned), k);
                let with = With {
                    room: 40,
                    window: asked.len() as u32 % WINDOWS,
                    record: vec![0; DESK],
                };
                asked.push((question, Some(with)));
            }
        }
        Lot {
            name: "cards-of-five",
            index: index_of(&links_file(5, &links)),
            asked,
        }
    })
}

/// Card B's index, whole and damaged: each account bad or not, k in and out of its limits, each pair a link or not, rooms and desk records around what is needed, the
/// last of them from a window that there is not.
fn faults() -> Vec<Lot> {
    const BAD: [u32; 4] = [7, 0x1_0000, 0x8000_0001, u32::MAX];
    const FEW: [usize; 2] = [0, 32]; // the rooms of that one
    const LEVELS: [u32; 10] = [0, 1, 2, 3, 4, 64, 65, 0x103, 0x1_0003, u32::MAX];
    let desks = [
        (3, vec![]),
        (30, vec![0xFF; DESK - 1]),
        (31, vec![0xFF; DESK]),
        (17, [0, 0, 0xFF, 0xFF].repeat(33)),
        (WINDOWS, vec![0; DESK]),
    ];
    let mut asked = Vec::new();
    for which in 0..16 * 4 * LEVELS.len() {
        let first = [0, if which & 16 == 0 { 1 } else { 6 }];
        let second = [6, if which & 32 == 0 { 5 } else { 1 }];
        let mut four = [first, second].concat();
        for at in (0..4).filter(|at| which >> at & 1 == 1) {
            four[at] = BAD[at];
        }
        let k = LEVELS[which / 64];
        for room in [0, 1, 2, 31, 32, 33] {
            for (window, record) in &desks {
                if *window == WINDOWS && !FEW.contains(&room) {
                    continue;
                }
                let question = G((four[0], four[1]), (four[2], four[3]), k);
                let with = With {
                    room,
                    window: *window,
                    record: record.clone(),
                };
                asked.push((question, Some(with)));
            }
        }
    }
    let index = index_of(&links_file(7, &card_b()));
    let mut damaged = index.clone();
    damaged[10] += 1;
    let lot = |index| Lot {
        name: "faults-of-chains",
        index,
        asked: asked.clone(),
    };
    vec![lot(index), lot(damaged)]
}

/// Every room up to more than is needed, for 38 triangles and for none.
fn rooms() -> Lot {
    let with = |room, byte| With {
        room,
        window: room as u32 % WINDOWS,
        record: vec![byte; DESK + 4],
    };
    let at = |k, with| (G((0, 1), (38, 39), k), Some(with));
    let asked = [3, 4].into_iter();
    let asked = asked.flat_map(|k| (0..=236).map(move |room| at(k, with(room, 0xFF))));
    Lot {
        name: "rooms-of-chains",
        index: index_of(&links_file(40, &strip(40))),
        asked: asked.chain([at(3, with(ROOM, 0))]).collect(),
    }
}

/// So many accounts in a row, each linked to the next two.
pub fn strip(accounts: u16) -> Pairs {
    let next = (1..accounts).map(|a| (a - 1, a));
    next.chain((2..accounts).map(|a| (a - 2, a))).collect()
}

/// The same in a ring.
pub fn ring(accounts: u16) -> Pairs {
    let next = (0..accounts).flat_map(|a| [(a, (a + 1) % accounts), (a, (a + 2) % accounts)]);
    next.collect()
}

/// Each linked to the next three: all pairs of four accounts in a row.
fn band(accounts: u16) -> Pairs {
    let third = (3..accounts).map(|a| (a - 3, a));
    strip(accounts).into_iter().chain(third).collect()
}

/// Rows below each other, each account linked to the next in its row, the one below it and the one after that.
pub fn net(rows: u16, columns: u16) -> Pairs {
    let at = |row: u16, column: u16| row * columns + column;
    let mut pairs = Vec::new();
    for (row, column) in (0..rows).flat_map(|row| (0..columns).map(move |column| (row, column))) {
        if column + 1 < columns {
            pairs.push((at(row, column), at(row, column + 1)));
        }
        if row + 1 < rows {
            pairs.push((at(row, column), at(row + 1, column)));
        }
        if row + 1 < rows && column + 1 < columns {
            pairs.push((at(row, column), at(row + 1, column + 1)));
        }
    }
    pairs
}

/// The same links, the accounts under other numbers.
pub fn renamed(random: &mut Random, accounts: u16, pairs: &Pairs) -> Pairs {
    let mut names: Vec<u16> = (0..accounts).collect();
    random.shuffle(&mut names);
    let name = |account: u16| names[usize::from(account)];
    pairs.iter().map(|&(a, b)| (name(a), name(b))).collect()
}

/// Strips, rings, bands and nets, the accounts as they come and under other numbers: from the first link to the last and back, and between links that are drawn.
fn long_chains() -> Vec<Lot> {
    let mut random = Random::new(7);
    let shapes = [
        (1_024, strip(1_024)),
        (1_024, ring(1_024)),
        (684, band(684)),
        (26 * 26, net(26, 26)),
        (4 * 180, net(4, 180)),
        (120, strip(120)),
        (61, ring(61)),
        (80, band(80)),
        (100, net(10, 10)),
    ];
    let mut lots = Vec::new();
    for (accounts, pairs) in shapes {
        for turn in 0..3 {
            let links = match turn {
                0 => pairs.clone(),
                _ => renamed(&mut random, accounts, &pairs),
            };
            let (first, last) = (ends(links[0]), ends(links[links.len() - 1]));
            let mut questions = vec![G(first, last, 3), G(last, first, 3), G(first, last, 4)];
            for _ in 0..if links.len() > 1_000 { 10 } else { 40 } {
                let drawn = [random.pick(&links), random.pick(&links)].map(ends);
                questions.push(G(drawn[0], drawn[1], random.pick(&[2, 3, 3, 4])));
            }
            lots.push(Lot {
                name: "long-chains",
                index: index_of(&links_file(accounts, &links)),
                asked: questions
                    .into_iter()
                    .map(|question| (question, None))
                    .collect(),
            });
        }
    }
    lots
}
