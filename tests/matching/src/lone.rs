//! Lone links, which are those in no triangle, as document 02 speaks of them in request 7, found in the links alone and not by the reference: what an index has written
//! of them, and what the questions answer with them and at k = 2.

use std::collections::BTreeSet;

use crate::asked::Ask;
use crate::chains::{ends, links_of_five, Pairs};
use crate::known::named;
use crate::limits::flat;
use crate::parties::{every_kind, Party};
use reference::card::links_file;
use reference::questions::Ends;
use reference::random::Random;
use reference::records::two;
use terminal::Question::{self, A, B, C, D, E, F, G};
use terminal::{Slices, ANSWER_MAX, DESK, INDEX_MAX};

/// The field for no group.
const NONE: u16 = 0xFFFF;

/// How many cards and lone links were judged, and how many answers of each kind.
#[derive(Default)]
pub struct Met {
    cards: usize,
    links: usize,
    /// C at 2: none, lone links, others, both.
    groups_at_2: [usize; 4],
    /// Questions on a link with itself at 2: lone ones, others.
    with_itself: [usize; 2],
    /// Two different links: both lone, one, none.
    two_links: [usize; 3],
}

impl Met {
    /// Prints the counts. False if one is 0.
    pub fn show(&self) -> bool {
        let [none, lone, others, both] = self.groups_at_2;
        println!(
            "lone links, judged from the links alone: {} in {} indexes",
            self.links, self.cards
        );
        println!(
            "  C at 2 of none: {none}, of lone links: {lone}, of others: {others}, of both: {both}"
        );
        println!(
            "  a link with itself, lone: {}, another: {}; two links, both lone: {}, one: {}, none: {}",
            self.with_itself[0],
            self.with_itself[1],
            self.two_links[0],
            self.two_links[1],
            self.two_links[2]
        );
        let counts = [&self.groups_at_2[..], &self.with_itself, &self.two_links].concat();
        self.cards > 0 && self.links > 0 && counts.iter().all(|&count| count > 0)
    }
}

/// An index, the links that it must tell, in order, and the numbers of the lone ones.
pub struct Judge<'a> {
    ask: Ask,
    index: &'a [u8],
    links: Vec<(u16, u16)>,
    lone: Vec<usize>,
    /// The number of groups that are no lone links.
    others: usize,
    met: &'a mut Met,
}

impl<'a> Judge<'a> {
    /// Looks at all that is written of lone links.
    pub fn new(
        ask: Ask,
        index: &'a [u8],
        pairs: &[(u16, u16)],
        met: &'a mut Met,
    ) -> Result<Judge<'a>, String> {
        let pairs = pairs.iter().map(|&(a, b)| (a.min(b), a.max(b)));
        let links: Vec<_> = pairs.collect::<BTreeSet<_>>().into_iter().collect();
        let lone = in_no_triangle(&links);
        let others = written(index, &links, &lone)?;
        met.cards += 1;
        met.links += lone.len();
        Ok(Judge {
            ask,
            index,
            links,
            lone,
            others,
            met,
        })
    }

    /// The value of a question's reply, and the fields of what C to G write.
    fn put(&self, question: Question) -> Result<(u32, Vec<u16>), String> {
        let (mut index, mut accounts) = (self.index.to_vec(), question.accounts().to_vec());
        let (mut answer, mut desk) = ([0; ANSWER_MAX], [0; DESK]);
        let lent = Slices {
            index: (index.as_mut_ptr(), index.len()),
            accounts: (accounts.as_mut_ptr(), accounts.len()),
            answer: (answer.as_mut_ptr(), answer.len()),
            window: 0,
            desk: (desk.as_mut_ptr(), desk.len()),
        };
        let reply = unsafe { (self.ask)(&question, &lent) };
        if reply.refusal != 0 {
            return Err(format!("{question:?} refused by {}", reply.refusal));
        }
        let written = match question {
            A(_) | B(..) => &[],
            _ => &answer[..reply.value as usize],
        };
        let fields = written.chunks(2).map(|field| two(field, 0)).collect();
        Ok((reply.value, fields))
    }

    fn numbers(&self, question: Question) -> Result<Vec<u16>, String> {
        let (_, fields) = self.put(question)?;
        Ok(fields[1..].to_vec())
    }

    /// The groups of the lone links that hold these accounts, by number.
    fn lone_with(&self, accounts: &[u16]) -> Vec<u16> {
        let holds = |&(_, &link): &(usize, &usize)| {
            let (a, b) = self.links[link];
            accounts.iter().all(|&account| account == a || account == b)
        };
        let lone = self.lone.iter().enumerate().filter(holds);
        lone.map(|(at, _)| (self.others + at) as u16).collect()
    }

    /// C, D and E: at 2 the groups at 3, then the lone links, by link; D has these only if no other group holds the accounts.
    pub fn accounts(&mut self, accounts: &[u16]) -> Result<(), String> {
        let lone = self.lone_with(accounts);
        let at = |k| self.numbers(C(named(accounts), k));
        let (at_2, at_3) = (at(2)?, at(3)?);
        let every = self.numbers(E(named(accounts)))?;
        let strongest = self.numbers(D(named(accounts)))?;
        let are_others = |groups: &[u16]| groups.iter().all(|&g| usize::from(g) < self.others);
        let above = every.len().saturating_sub(lone.len());
        let right = at_2 == [&at_3[..], &lone].concat()
            && are_others(&at_3)
            && every.ends_with(&lone)
            && are_others(&every[..above])
            && match above {
                0 => strongest == lone,
                _ => !strongest.is_empty() && are_others(&strongest),
            };
        let kind = 2 * usize::from(!at_3.is_empty()) + usize::from(!lone.is_empty());
        self.met.groups_at_2[kind] += 1;
        match right {
            true => Ok(()),
            false => Err(format!(
                "accounts {accounts:?}, lone {lone:?}: C at 2 {at_2:?}, C at 3 {at_3:?}, D {strongest:?}, E {every:?}"
            )),
        }
    }

    fn ends(&self, link: usize) -> Ends {
        ends(self.links[link])
    }

    fn is_lone(&self, link: usize) -> bool {
        self.lone.binary_search(&link).is_ok()
    }

    /// A, B, F and G of a link with itself: F at 2 has a lone link alone, and G no triangle just for a lone one; else F and G are as at 3.
    pub fn itself(&mut self, link: usize) -> Result<(), String> {
        let it = self.ends(link);
        let is_lone = self.is_lone(link);
        let (strength, _) = self.put(A(it))?;
        let (joined, _) = self.put(B(it, it))?;
        let [at_2, at_3] = [2, 3].map(|k| self.numbers(F(it, k)));
        let [chain_at_2, chain_at_3] = [2, 3].map(|k| self.put(G(it, it, k)));
        let (at_2, at_3) = (at_2?, at_3?);
        let (chain_at_2, chain_at_3) = (chain_at_2?.1, chain_at_3?.1);
        let right = joined == strength
            && (strength == 2) == is_lone
            && match is_lone {
                true => at_2 == [link as u16] && at_3.is_empty() && chain_at_2 == [0],
                false => at_2 == at_3 && at_2.len() > 2 && chain_at_2[0] == 1,
            }
            && chain_at_2 == chain_at_3;
        self.met.with_itself[usize::from(!is_lone)] += 1;
        match right {
            true => Ok(()),
            false => Err(format!(
                "{it:?}, lone: {is_lone}: A {strength}, B {joined}, F {at_2:?} and {at_3:?}, G {chain_at_2:?} and {chain_at_3:?}"
            )),
        }
    }

    /// B and G of two different links: at 2 joined as at 3, a lone one with none.
    pub fn two(&mut self, first: usize, second: usize) -> Result<(), String> {
        let (one, other) = (self.ends(first), self.ends(second));
        let lone = [first, second].map(|link| self.is_lone(link));
        let (joined, _) = self.put(B(one, other))?;
        let [at_2, at_3] = [2, 3].map(|k| self.put(G(one, other, k)));
        let (at_2, at_3) = (at_2?.1, at_3?.1);
        let right = at_2 == at_3 && joined != 2 && (joined > 2) == (at_2[0] > 0);
        let apart = !lone.contains(&true) || joined == 0;
        self.met.two_links[lone.iter().filter(|&&is_lone| !is_lone).count()] += 1;
        match right && apart {
            true => Ok(()),
            false => Err(format!(
                "{one:?} and {other:?}, lone: {lone:?}: B {joined}, G {at_2:?} and {at_3:?}"
            )),
        }
    }

    /// So many turns of accounts, links and their ends, drawn.
    pub fn drawn(
        &mut self,
        random: &mut Random,
        accounts: u16,
        turns: usize,
    ) -> Result<(), String> {
        for _ in 0..turns {
            let count = random.within(1..=2);
            let some: Vec<_> = { 0..count }
                .map(|_| match self.links.len() {
                    1.. if !random.one_in(4) => {
                        let (a, b) = random.pick(&self.links);
                        random.pick(&[a, b])
                    }
                    _ => random.below(accounts.into()) as u16,
                })
                .collect();
            self.accounts(&some)?;
            if self.links.is_empty() {
                continue;
            }
            let [first, second] = [0; 2].map(|_| random.below(self.links.len()));
            let (a, b) = self.links[first];
            self.accounts(&[a, b])?;
            self.itself(first)?;
            if first != second {
                self.two(first, second)?;
            }
        }
        Ok(())
    }

    /// Every set of accounts and every two links.
    fn whole(&mut self, accounts: u16) -> Result<(), String> {
        for chosen in 1..1_u32 << accounts {
            let set = (0..accounts).filter(|account| chosen >> account & 1 == 1);
            self.accounts(&set.collect::<Vec<_>>())?;
        }
        for first in 0..self.links.len() {
            self.itself(first)?;
            (0..first).try_for_each(|second| self.two(first, second))?;
        }
        Ok(())
    }
}

/// The numbers of the links of which no account is linked with both ends.
fn in_no_triangle(links: &[(u16, u16)]) -> Vec<usize> {
    let mut near = vec![BTreeSet::new(); 1_024];
    for &(a, b) in links {
        near[usize::from(a)].insert(b);
        near[usize::from(b)].insert(a);
    }
    let is_lone = |&at: &usize| {
        let (a, b) = links[at];
        near[usize::from(a)].is_disjoint(&near[usize::from(b)])
    };
    (0..links.len()).filter(is_lone).collect()
}

/// What the index has of lone links: strength 2 and the last groups, by link, each of one link and with no parent, and no join. Gives how many other groups there are.
fn written(index: &[u8], links: &[(u16, u16)], lone: &[usize]) -> Result<usize, String> {
    if index[0] != 7 {
        return Err(format!("begins with kind {}", index[0]));
    }
    let (joins, groups): (Vec<_>, Vec<_>) = index[5 + 8 * links.len()..index.len() - 1]
        .chunks(6)
        .partition(|record| record[0] == 3);
    let others = groups.len().checked_sub(lone.len());
    let others = others.ok_or("fewer groups than lone links")?;
    for (at, &ends) in links.iter().enumerate() {
        let record = &index[5 + 8 * at..][..8];
        let (strength, group) = (record[5], usize::from(two(record, 6)));
        let place = lone.binary_search(&at);
        let right = match place {
            Ok(place) => strength == 2 && group == others + place,
            Err(_) => strength > 2 && group < others,
        };
        if (two(record, 1), two(record, 3)) != ends || !right {
            return Err(format!("link {at}, lone: {}: {record:?}", place.is_ok()));
        }
    }
    for (at, record) in groups.iter().enumerate() {
        let (parent, strength, least) = (two(record, 1), record[3], two(record, 4));
        let right = match at.checked_sub(others) {
            Some(place) => parent == NONE && strength == 2 && usize::from(least) == lone[place],
            None => strength > 2 && (parent == NONE || usize::from(parent) < others),
        };
        if !right {
            return Err(format!("group {at} of {others} and lone links: {record:?}"));
        }
    }
    let is_lone = |link: u16| lone.binary_search(&link.into()).is_ok();
    match joins
        .iter()
        .any(|join| is_lone(two(join, 1)) || is_lone(two(join, 3)))
    {
        true => Err("a lone link in a join".to_string()),
        false => Ok(others),
    }
}

/// Whether what is written of lone links is right.
pub fn is_written(index: &[u8], pairs: &[(u16, u16)]) -> bool {
    Judge::new(terminal::ask, index, pairs, &mut Met::default()).is_ok()
}

/// Cards of many lone links, the whole of every card of five accounts, and parties of every kind.
pub fn cards() -> impl Iterator<Item = (u16, Pairs)> {
    let star = (1..1_024).map(|a| (0, a)).collect();
    let turned = (0..1_023).map(|a| (a, 1_023)).collect();
    let path = (1..1_024).map(|a| (a - 1, a)).collect();
    let couples = (0..512).map(|a| (2 * a, 2 * a + 1)).collect();
    let Party { accounts, links } = every_kind();
    let larger = [
        (1_024, star),
        (1_024, turned),
        (1_024, path),
        (1_024, couples),
        (96, flat(2_048)),
        (accounts, links),
    ];
    links_of_five().map(|links| (5, links)).chain(larger)
}

/// Judges one of these cards by the library's index: small ones whole, larger ones as drawn.
pub fn judge(ask: Ask, met: &mut Met, accounts: u16, links: &Pairs) -> Result<(), String> {
    let mut index = vec![0; INDEX_MAX];
    let built = terminal::build(&links_file(accounts, links), &mut index);
    index.truncate(built.value as usize);
    let mut judge = Judge::new(ask, &index, links, met)?;
    match accounts {
        ..8 => judge.whole(accounts),
        _ => judge.drawn(&mut Random::new(7), accounts, 40),
    }
}
