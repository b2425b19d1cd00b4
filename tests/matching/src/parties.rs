//! Questions C, D and E gone through in order: parties of every kind that have an account in common, two and three of them in every order, and many, drawn.

use crate::chains::{self, renamed, Lot, Pairs};
use crate::known::{index_of, named};
use crate::limits::all_pairs;
use crate::questions::Asking;
use reference::card::links_file;
use reference::random::Random;
use terminal::Question::{C, D, E};

/// Links that are one group, which holds account 0, with the groups that lie in it. The accounts are numbered from 0.
#[derive(Clone)]
pub struct Party {
    pub accounts: u16,
    pub links: Pairs,
}

fn party(accounts: u16, links: &[(u16, u16)]) -> Party {
    let links = links.to_vec();
    Party { accounts, links }
}

/// Two people: a lone link, of strength 2.
pub fn pair() -> Party {
    strip(2)
}

pub fn triangle() -> Party {
    strip(3)
}

/// So many accounts in a row, each linked to the next two: strength 3.
pub fn strip(accounts: u16) -> Party {
    party(accounts, &chains::strip(accounts))
}

/// All triangles on the link 0-1: strength 3. All but two accounts are only higher ends.
pub fn book(accounts: u16) -> Party {
    let leaves = (2..accounts).flat_map(|leaf| [(0, leaf), (1, leaf)]);
    let links: Pairs = [(0, 1)].into_iter().chain(leaves).collect();
    party(accounts, &links)
}

/// A ring of four accounts or more, 0 and those from 2 on, around 1: strength 3, with one link more than a book of as many accounts.
pub fn wheel(accounts: u16) -> Party {
    let ring = (3..accounts).map(|a| (a - 1, a));
    let ring = ring.chain([(0, 2), (0, accounts - 1)]);
    let spokes = (2..accounts).map(|a| (1, a)).chain([(0, 1)]);
    party(accounts, &ring.chain(spokes).collect::<Pairs>())
}

/// All pairs of the accounts from 1 on, four or more, and account 0 linked to two of them: a group of strength 3 around that. Of its links only two are its own, and
/// these have three accounts.
pub fn nested(accounts: u16) -> Party {
    let around = vec![(0, 1), (0, 2)];
    party(accounts, &[around, all_pairs(1..accounts)].concat())
}

/// All pairs of so many accounts.
pub fn clique(accounts: u16) -> Party {
    party(accounts, &all_pairs(0..accounts))
}

/// All pairs of five accounts but one: strength 4.
pub fn five_less_one() -> Party {
    let mut party = clique(5);
    party.links.retain(|&pair| pair != (3, 4));
    party
}

/// All pairs of six accounts but three that have no account in common: strength 4.
pub fn six_less_three() -> Party {
    let mut party = clique(6);
    party.links.retain(|&(a, b)| a + 3 != b);
    party
}

/// The parties with account 0 in common and no other; the other accounts of each come after those of the one before, so its least link does too.
pub fn beside(parties: &[Party]) -> Party {
    let mut all = party(1, &[]);
    for Party { accounts, links } in parties {
        let place = |account| match account {
            0 => 0,
            other => all.accounts + other - 1,
        };
        let links: Pairs = links.iter().map(|&(a, b)| (place(a), place(b))).collect();
        all.links.extend(links);
        all.accounts += accounts - 1;
    }
    all
}

/// One of every kind, and a second triangle and pair. Group 0 lies in the nested one; 1 to 3 have strength 4 and hold 4, 5 and 6 accounts; 4 to 10 have strength 3 and
/// hold 3, 5, 4, 5, 6, 7 and 3; 11 and 12 are the pairs, though the first has the least of all links.
pub fn every_kind() -> Party {
    beside(&[
        pair(),
        triangle(),
        clique(4),
        book(5),
        strip(4),
        pair(),
        wheel(5),
        nested(6),
        five_less_one(),
        strip(7),
        triangle(),
        six_less_three(),
    ])
}

pub fn all() -> impl Iterator<Item = Lot> {
    few().chain(drawn())
}

/// Two and three parties: on the account in common, which is the first and then, the accounts turned round, the last.
fn few() -> impl Iterator<Item = Lot> {
    let kinds = [
        pair(),
        triangle(),
        strip(4),
        book(5),
        wheel(5),
        strip(7),
        nested(6),
        clique(4),
        five_less_one(),
        six_less_three(),
    ];
    let mut rows = Vec::new();
    for (first, second) in kinds.iter().flat_map(|a| kinds.iter().map(move |b| (a, b))) {
        rows.push(vec![first.clone(), second.clone()]);
        let third = |third: &Party| vec![first.clone(), second.clone(), third.clone()];
        rows.extend(kinds.iter().map(third));
    }
    rows.into_iter().flat_map(|row| {
        let Party { accounts, links } = beside(&row);
        let last = accounts - 1;
        let turned = links.iter().map(|&(a, b)| (last - b, last - a)).collect();
        [lot(0, accounts, &links), lot(last, accounts, &turned)]
    })
}

fn lot(common: u16, accounts: u16, links: &Pairs) -> Lot {
    let it = named(&[common]);
    let at = [2, 3, 4].map(|k| C(it.clone(), k));
    let asked = at.into_iter().chain([D(it.clone()), E(it.clone())]);
    Lot {
        name: "parties",
        index: index_of(&links_file(accounts, links)),
        asked: asked.map(|question| (question, None)).collect(),
    }
}

/// Up to sixty parties of sizes that are drawn, under drawn numbers, with questions drawn.
fn drawn() -> impl Iterator<Item = Lot> {
    let mut random = Random::new(6);
    (0..200).map(move |_| {
        let most = random.pick(&[4, 12, 60]);
        let row: Vec<_> = { 0..random.within(2..=most) }
            .map(|_| match random.below(9) {
                8 => pair(),
                0..=2 => strip(random.within(3..=9) as u16),
                3 => book(random.within(3..=7) as u16),
                4 => wheel(random.within(5..=9) as u16),
                5 => nested(random.within(5..=7) as u16),
                6 => clique(random.within(3..=5) as u16),
                _ => random.pick(&[five_less_one, six_less_three])(),
            })
            .collect();
        let Party { accounts, links } = beside(&row);
        let index = index_of(&links_file(
            accounts,
            &renamed(&mut random, accounts, &links),
        ));
        let asking = Asking::of(&index);
        let asked = std::iter::repeat_with(|| asking.draw(&mut random));
        let asked = asked.filter(|question| ('C'..='E').contains(&question.letter()));
        let asked = asked.take(12).map(|question| (question, None)).collect();
        Lot {
            name: "parties-drawn",
            index,
            asked,
        }
    })
}
