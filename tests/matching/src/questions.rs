//! Random questions on an index: good ones, and bad ones in every way and in several at once.

use std::collections::BTreeSet;

use crate::lent::RULES;
use reference::index::{Index, StrongLink};
use reference::questions::Ends;
use reference::random::Random;
use terminal::Question;

/// An index, with the accounts that each group holds, and those that two groups of one strength from 3 up hold.
pub struct Asking {
    index: Index,
    held: Vec<Vec<u16>>,
    shared: Vec<u16>,
}

/// A number from n up, some of which would be an account if it were cut to two bytes.
pub fn bad(random: &mut Random, accounts: u16) -> u32 {
    let (n, good) = (u32::from(accounts), random.below(accounts.into()) as u32);
    match random.below(6) {
        0 => n,
        1 => n + random.below(1_024) as u32,
        2 => good + 0x1_0000 * random.within(1..=0xFFFF) as u32,
        3 => u32::MAX - random.below(3) as u32,
        4 => random.pick(&[0xFFFF, 0x1_0000, 0x8000_0000, 0xFFFF_0000]),
        _ => n.max(random.number() as u32),
    }
}

impl Asking {
    pub fn of(index: &[u8]) -> Asking {
        let index = Index::read(RULES, index).expect("the index of a good card");
        let mut held = vec![BTreeSet::new(); index.groups.len()];
        for link in &index.links {
            for group in index.climb(link.group) {
                held[usize::from(group)].extend([link.lower, link.higher]);
            }
        }
        let mut met = BTreeSet::new();
        let mut shared = BTreeSet::new();
        for (group, accounts) in index.groups.iter().zip(&held) {
            let twice = |account: &&u16| !met.insert((group.strength, **account));
            if group.strength > 2 {
                shared.extend(accounts.iter().filter(twice).copied());
            }
        }
        let row = |set: BTreeSet<u16>| set.into_iter().collect();
        Asking {
            index,
            held: held.into_iter().map(row).collect(),
            shared: row(shared),
        }
    }

    /// A question of one of the seven kinds.
    pub fn draw(&self, random: &mut Random) -> Question {
        match random.below(7) {
            0 => Question::A(self.link(random)),
            1 => {
                let (first, second) = self.two_links(random);
                Question::B(first, second)
            }
            2 => Question::C(self.accounts(random), self.level(random)),
            3 => Question::D(self.accounts(random)),
            4 => Question::E(self.accounts(random)),
            5 => Question::F(self.link(random), self.level(random)),
            _ => {
                let (first, second) = self.two_links(random);
                Question::G(first, second, self.level_of(random, first, second))
            }
        }
    }

    /// Two pairs: a link twice, links with an account in common, of two groups, of two groups with an account in common, any, and pairs that are mostly no links.
    fn two_links(&self, random: &mut Random) -> (Ends, Ends) {
        let first = self.link(random);
        match random.below(10) {
            0 => (first, first),
            1 => (first, (first.1, first.0)),
            2 => (first, self.link_at(random, first.0)),
            3 | 4 => (self.link_of_group(random), self.link_of_group(random)),
            5 | 6 if !self.shared.is_empty() => {
                let account = random.pick(&self.shared).into();
                (self.link_at(random, account), self.link_at(random, account))
            }
            7 => {
                let pair = (self.good(random), self.good(random));
                let other = (self.good(random), self.bad(random));
                if random.one_in(2) {
                    (pair, other)
                } else {
                    (other, pair)
                }
            }
            _ => (first, self.link(random)),
        }
    }

    /// Two accounts, mostly a link, in either order.
    fn link(&self, random: &mut Random) -> Ends {
        let links = &self.index.links;
        let (a, b) = match random.below(10) {
            0 => (self.good(random), self.good(random)),
            1 => (self.good(random), self.bad(random)),
            _ if links.is_empty() => (self.good(random), self.good(random)),
            kind => {
                let link = links[random.below(links.len())];
                let (a, b) = (link.lower.into(), link.higher.into());
                match kind {
                    2 if random.one_in(2) => (a, a),
                    2 => (a, self.good(random)),
                    3 if random.one_in(2) => (a, b + random.pick(&[1 << 8, 1 << 16, 1 << 31])),
                    _ => (a, b),
                }
            }
        };
        if random.one_in(2) {
            (a, b)
        } else {
            (b, a)
        }
    }

    /// A link that this account has, if it has one.
    fn link_at(&self, random: &mut Random, account: u32) -> Ends {
        let at = |link: &StrongLink| [link.lower, link.higher].map(u32::from).contains(&account);
        self.link_where(random, at)
    }

    /// A link that names a group; in an index without links two accounts.
    fn link_of_group(&self, random: &mut Random) -> Ends {
        let group = self.group(random).map(|group| group as u16);
        self.link_where(random, |link| link.group == group)
    }

    /// A group, every other time one from 3 up if there is such: lone links may be many.
    fn group(&self, random: &mut Random) -> Option<usize> {
        let groups = &self.index.groups;
        match groups.partition_point(|group| group.strength > 2) {
            _ if groups.is_empty() => None,
            above @ 1.. if random.one_in(2) => Some(random.below(above)),
            _ => Some(random.below(groups.len())),
        }
    }

    fn link_where(&self, random: &mut Random, wanted: impl Fn(&StrongLink) -> bool) -> Ends {
        let links = self.index.links.iter().filter(|link| wanted(link));
        let links: Vec<Ends> = links.map(|l| (l.lower.into(), l.higher.into())).collect();
        match links.len() {
            0 => self.link(random),
            count => links[random.below(count)],
        }
    }

    fn good(&self, random: &mut Random) -> u32 {
        random.below(self.index.accounts.into()) as u32
    }

    fn bad(&self, random: &mut Random) -> u32 {
        bad(random, self.index.accounts)
    }

    /// A level for two links: mostly the greatest at which they are joined, or one more.
    fn level_of(&self, random: &mut Random, first: Ends, second: Ends) -> u32 {
        let joined = self.joined(first, second);
        match random.below(4) {
            0 => self.level(random),
            _ if joined == 0 => random.pick(&[2, 3]),
            1 => random.within(2..=joined.into()) as u32,
            _ => u32::from(joined) + random.pick(&[0, 0, 1]),
        }
    }

    /// The greatest k at which two pairs are joined; 0 if there is none.
    fn joined(&self, first: Ends, second: Ends) -> u16 {
        let groups = |(a, b): Ends| {
            let ends = u16::try_from(a).ok().zip(u16::try_from(b).ok());
            let link = ends.and_then(|(a, b)| self.index.number(a, b));
            let group = link.and_then(|link| self.index.links[link].group);
            self.index.climb(group).collect::<Vec<_>>()
        };
        let above = groups(second);
        let common = groups(first)
            .into_iter()
            .find(|group| above.contains(group));
        common.map_or(0, |group| self.index.groups[usize::from(group)].strength)
    }

    /// A level, mostly around the strength of some group.
    fn level(&self, random: &mut Random) -> u32 {
        let good = random.within(2..=64) as u32;
        match random.below(12) {
            0 => random.pick(&[0, 1, 1, 65, 66, 255, 256, 0xFFFF, 0x1_0000, u32::MAX]),
            1 => good + random.pick(&[1 << 8, 1 << 16, 1 << 24, 1 << 31]),
            2 => random.number() as u32,
            3 => random.pick(&[2, 64]),
            4 => good,
            5 | 6 => random.pick(&[2, 3]),
            _ => {
                let group = self.group(random).map(|group| self.index.groups[group]);
                let strength = group.map_or(2, |group| u32::from(group.strength));
                (strength + random.pick(&[0, 0, 1, 2])) - random.below(2) as u32
            }
        }
    }

    /// Accounts as they are lent: mostly all of one group, or each of several groups, with repeats; too few and too many, bad ones, odd lengths.
    fn accounts(&self, random: &mut Random) -> Vec<u8> {
        let count = match random.below(16) {
            0 => random.pick(&[0, 0, 17, 17, 18, 40]),
            1 => random.pick(&[15, 16]),
            2 | 3 => random.within(4..=16),
            4..=7 => 1,
            _ => random.within(2..=3),
        };
        let all: Vec<u16> = (0..self.index.accounts).collect();
        let of_group = |random: &mut Random| match self.group(random) {
            _ if !self.shared.is_empty() && random.one_in(2) => &self.shared,
            None => &all,
            Some(group) => &self.held[group],
        };
        let from = [of_group(random), of_group(random)];
        let strangers = random.one_in(4);
        let mut accounts: Vec<u16> = (0..count)
            .map(|_| match random.below(8) {
                0 if strangers => random.pick(&all),
                1 if strangers => random.pick(from[1]),
                _ => random.pick(from[0]),
            })
            .collect();
        if count > 1 && random.one_in(3) {
            accounts[random.below(count)] = accounts[random.below(count)];
        }
        if count > 0 && random.one_in(8) {
            let n = self.index.accounts;
            let bad = [
                n,
                n + 1,
                n.max(1_024),
                0xFFFF,
                accounts[0] | 0x8000,
                n + 256,
            ];
            accounts[random.below(count)] = random.pick(&bad);
        }
        let mut bytes: Vec<u8> = accounts.iter().flat_map(|a| a.to_be_bytes()).collect();
        match random.below(24) {
            0 => drop(bytes.pop()),
            1 => bytes.push(random.below(4) as u8),
            _ => {}
        }
        bytes
    }
}
