//! Files at the limits, each with the reply that document 01 gives it.

use crate::lent::RULES;
use reference::card::links_file;
use reference::random::{card, Random, Shape};

/// What document 01 says of a file.
pub enum Said {
    /// The index has this length.
    Length(usize),
    /// These bytes are the index.
    Index(Vec<u8>),
    /// So many first links have this strength.
    Strength(usize, u8),
    Refused(u32, u32),
    Accepted,
}

pub struct Limit {
    pub name: String,
    pub file: Vec<u8>,
    pub said: Said,
}

pub const CARD_A: [(u16, u16); 6] = [(0, 1), (0, 2), (1, 2), (1, 3), (2, 3), (3, 4)];
const INDEX_A: &str = "0700050006 0200000001030000 0200000002030000 0200010002030000 0200010003030000 0200020003030000 0200030004020001 \
     030000000103 030000000203 030002000303 030002000403 04FFFF030000 04FFFF020005 05";

/// 3-4, 1-2 and 0-1, of five accounts: a group each.
const THREE_LONE: &str =
    "0700050003 0200000001020000 0200010002020001 0200030004020002 04FFFF020000 04FFFF020001 04FFFF020002 05";

fn hex(text: &str) -> Vec<u8> {
    let digits: Vec<u32> = text.chars().filter_map(|c| c.to_digit(16)).collect();
    digits
        .chunks(2)
        .map(|two| (two[0] * 16 + two[1]) as u8)
        .collect()
}

pub fn all_pairs(accounts: std::ops::Range<u16>) -> Vec<(u16, u16)> {
    let end = accounts.end;
    accounts
        .flat_map(|a| (a + 1..end).map(move |b| (a, b)))
        .collect()
}

/// So many links with no triangle: every account below 32 with every account from 32.
pub fn flat(links: usize) -> Vec<(u16, u16)> {
    (32..)
        .flat_map(|b| (0..32).map(move |a| (a, b)))
        .take(links)
        .collect()
}

pub fn all() -> Vec<Limit> {
    let mut all = Vec::new();
    let mut add = |name: &str, file: Vec<u8>, said: Said| {
        let name = name.to_string();
        all.push(Limit { name, file, said });
    };
    let a = links_file(5, &CARD_A);
    add("card-a", a.clone(), Said::Index(hex(INDEX_A)));
    let mut b = [all_pairs(0..4), all_pairs(3..7)].concat();
    b.push((2, 4));
    add(
        "card-b",
        links_file(7, &b),
        Said::Length(6 + 8 * 13 + 6 * 12 + 6 * 3),
    );
    add("nothing", Vec::new(), Said::Refused(1, 0));
    add(
        "one-account",
        hex("01 0001 0000 05"),
        Said::Index(hex("07 0001 0000 05")),
    );
    add(
        "three-lone",
        links_file(5, &[(4, 3), (1, 2), (1, 0)]),
        Said::Index(hex(THREE_LONE)),
    );
    // An index begins with kind 7, a links file does not, whatever else is wrong with it.
    add("kind-7", hex("07 0001 0000 05"), Said::Refused(1, 0));
    add(
        "kind-7-accounts-0",
        hex("07 0000 0801"),
        Said::Refused(1, 0),
    );
    add("kind-7-and-no-more", hex("07"), Said::Refused(1, 0));
    add("index-a", hex(INDEX_A), Said::Refused(1, 0));
    add(
        "kind-7-card-a",
        [&[7], &a[1..]].concat(),
        Said::Refused(1, 0),
    );
    add(
        "kind-7-inside",
        hex("01 0005 0001 07 0000 0001 05"),
        Said::Refused(1, 5),
    );
    add("accounts-0", hex("01 0000 0000 05"), Said::Refused(2, 0));
    add(
        "accounts-0-and-no-more",
        hex("01 0000 0000"),
        Said::Refused(2, 0),
    );
    add(
        "accounts-0-links-2049",
        hex("01 0000 0801"),
        Said::Refused(2, 0),
    );
    add(
        "accounts-1024",
        links_file(1_024, &[(1_023, 0)]),
        Said::Length(6 + 8 + 6),
    );
    add(
        "accounts-1024-account-1024",
        links_file(1_024, &[(0, 1), (1_024, 0)]),
        Said::Refused(4, 10),
    );
    add(
        "accounts-1025",
        links_file(1_025, &[(1_023, 0)]),
        Said::Refused(2, 0),
    );
    add(
        "accounts-65535",
        links_file(0xFFFF, &[]),
        Said::Refused(2, 0),
    );
    add(
        "links-2048-no-triangle",
        links_file(96, &flat(2_048)),
        Said::Length(6 + 8 * 2_048 + 6 * 2_048),
    );
    add(
        "links-2049-no-triangle",
        links_file(97, &flat(2_049)),
        Said::Refused(3, 0),
    );
    add(
        "links-2049-and-no-more",
        hex("01 0400 0801"),
        Said::Refused(3, 0),
    );
    add("links-65535", hex("01 0400 FFFF 05"), Said::Refused(3, 0));
    let clique = all_pairs(0..64);
    add(
        "all-pairs-of-64",
        links_file(64, &clique),
        Said::Strength(2_016, 64),
    );
    let high: Vec<_> = clique.iter().map(|&(a, b)| (b + 960, a + 960)).collect();
    add(
        "all-pairs-of-the-last-64",
        links_file(1_024, &high),
        Said::Strength(2_016, 64),
    );
    let more: Vec<_> = clique
        .iter()
        .copied()
        .chain((64..96).map(|b| (0, b)))
        .collect();
    add(
        "all-pairs-of-64-and-32-more",
        links_file(1_024, &more),
        Said::Length(6 + 8 * 2_048 + 6 * 2_015 + 6 + 6 * 32),
    );
    let twice: Vec<_> = flat(2_047).into_iter().chain([(32, 0)]).collect();
    add(
        "last-of-2048-twice",
        links_file(96, &twice),
        Said::Refused(6, 5 + 5 * 2_047),
    );
    let mut first_twice = flat(2_048);
    first_twice[1] = (32, 0);
    first_twice[2_047] = (7, 7);
    add(
        "second-of-2048-twice",
        links_file(96, &first_twice),
        Said::Refused(6, 10),
    );
    let mut surplus = links_file(96, &flat(2_048));
    surplus.push(5);
    add(
        "byte-after-2048",
        surplus.clone(),
        Said::Refused(1, 6 + 5 * 2_048),
    );
    surplus.resize(100_000, 6);
    add(
        "many-bytes-after-2048",
        surplus,
        Said::Refused(1, 6 + 5 * 2_048),
    );
    add(
        "end-missing-after-2048",
        links_file(96, &flat(2_048))[..5 + 5 * 2_048].to_vec(),
        Said::Refused(1, 5 + 5 * 2_048),
    );
    for seed in 0..10 {
        let file = card(RULES, &mut Random::new(seed), Shape::Limit, 2_048);
        add(&format!("random-2048-{seed}"), file, Said::Accepted);
    }
    for length in 0..a.len() {
        let place = if length < 5 { 0 } else { 5 * (length / 5) };
        add(
            &format!("card-a-cut-{length}"),
            a[..length].to_vec(),
            Said::Refused(1, place as u32),
        );
    }
    all
}

/// Card A's links file with each byte in turn set to every other value.
pub fn card_a_changed() -> Vec<(String, Vec<u8>)> {
    let a = links_file(5, &CARD_A);
    let mut all = Vec::new();
    for at in 0..a.len() {
        for value in (0..=255).filter(|&value| value != a[at]) {
            let mut file = a.clone();
            file[at] = value;
            all.push((format!("card-a-byte-{at}-{value}"), file));
        }
    }
    all
}
