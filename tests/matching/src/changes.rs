//! Changes drawn for a card; their faults gone through in order, up to the limit of 2,048 links; and long rows of changes.

use crate::chains::ring;
use crate::changed::Plain;
use crate::known::card_b;
use crate::lent::RULES;
use crate::limits::{all_pairs, flat};
use crate::questions::bad;
use reference::card::Card;
use reference::random::{card, Random, Shape};
use terminal::Change::{self, PutIn, Withdraw};

/// Any account.
fn good(random: &mut Random, plain: &Plain) -> u32 {
    random.below(plain.accounts as usize) as u32
}

/// Some link; two accounts if there is none.
fn link(random: &mut Random, plain: &Plain) -> (u32, u32) {
    match plain.pairs.len() {
        0 => (good(random, plain), good(random, plain)),
        count => {
            let at = random.below(count);
            *plain.pairs.iter().nth(at).expect("a link")
        }
    }
}

/// Two accounts in either order: links, ends of two links, any two, the same one twice, numbers that are no accounts.
fn ends(random: &mut Random, plain: &Plain) -> (u32, u32) {
    let (a, b) = link(random, plain);
    let (a, b) = match random.below(24) {
        0 => (a, bad(random, plain.accounts as u16)),
        1 => (a, b + random.pick(&[1 << 8, 1 << 16, 1 << 31])),
        2 => (a, a),
        3 => [bad(random, plain.accounts as u16); 2].into(),
        4..=9 => (good(random, plain), good(random, plain)),
        10..=13 => (a, link(random, plain).1),
        _ => (a, b),
    };
    match random.one_in(2) {
        true => (a, b),
        false => (b, a),
    }
}

/// A change that is mostly done: a link is withdrawn, other ends are put in.
pub fn draw(random: &mut Random, plain: &Plain) -> Change {
    let (a, b) = ends(random, plain);
    let there = plain.pairs.contains(&(a.min(b), a.max(b)));
    match there != random.one_in(4) {
        true => Withdraw((a, b)),
        false => PutIn((a, b)),
    }
}

/// A card and changes of it.
pub struct Lot {
    pub name: &'static str,
    pub plain: Plain,
    pub changes: Vec<Change>,
}

fn plain(accounts: u16, links: &[(u16, u16)]) -> Plain {
    let pair = |&(a, b): &(u16, u16)| (a.min(b).into(), a.max(b).into());
    Plain {
        accounts: accounts.into(),
        pairs: links.iter().map(pair).collect(),
    }
}

/// Both calls with every two of these numbers.
fn every_two(name: &'static str, plain: Plain, numbers: &[u32]) -> Lot {
    let pairs = { numbers.iter() }.flat_map(|&a| numbers.iter().map(move |&b| (a, b)));
    let changes = pairs.flat_map(|ends| [PutIn(ends), Withdraw(ends)]);
    Lot {
        name,
        changes: changes.collect(),
        plain,
    }
}

/// Accounts, numbers from n up, and numbers that would be accounts if they were cut, on small cards, at 2,047 links and at 2,048; and every change of every card of
/// four accounts. Each lot is gone through on the index and on a damaged one.
pub fn all() -> Vec<Lot> {
    let clique: Vec<_> = { all_pairs(0..64).into_iter() }
        .chain((64..96).map(|b| (0, b)))
        .collect();
    let full = [
        (96, flat(2_048)),
        (1_024, ring(1_024)),
        (1_024, clique.clone()),
        (96, flat(2_047)),
        (96, clique[1..].to_vec()),
    ];
    let no_account = [0x1_0001, u32::MAX];
    let b = [0, 1, 2, 4, 6, 7, 8, 255, 0x1_0000, 0x8000_0002, 0xFFFF_0001];
    let mut all = vec![
        every_two(
            "faults-of-changes",
            plain(7, &card_b()),
            &[&b[..], &no_account].concat(),
        ),
        every_two(
            "changes-of-one-account",
            plain(1, &[]),
            &[0, 1, 0x1_0000, u32::MAX],
        ),
        every_two(
            "changes-of-1024-accounts",
            plain(1_024, &[(0, 1_023), (5, 1_023), (0, 5)]),
            &[0, 1, 5, 1_022, 1_023, 1_024, 0xFFFF],
        ),
    ];
    for (accounts, links) in full {
        let last = u32::from(accounts) - 1;
        let numbers = [0, 1, 33, last, last + 1, 0x1_0001, u32::MAX];
        all.push(every_two(
            "changes-at-the-limit",
            plain(accounts, &links),
            &numbers,
        ));
    }
    let pairs = all_pairs(0..4);
    for chosen in 0..1_u32 << pairs.len() {
        let links = (0..pairs.len()).filter(|at| chosen >> at & 1 == 1);
        let links: Vec<_> = links.map(|at| pairs[at]).collect();
        all.push(every_two("cards-of-four", plain(4, &links), &[0, 1, 2, 3]));
    }
    all.push(Lot {
        name: "longer-by-withdrawing",
        changes: vec![Withdraw((0, 4)), Withdraw((4, 0))],
        plain: longer_without(),
    });
    all
}

/// A card whose index gets longer when 0-4 is withdrawn. With it 0, 2, 3 and 4 are all linked, and all links are one group of strength 4; without it the three cliques
/// are groups of strength 4, in one of strength 3. No card with fewer links was found.
fn longer_without() -> Plain {
    let cliques = [all_pairs(0..4), all_pairs(4..8), all_pairs(7..10)].concat();
    let more = [(3, 7), (3, 8), (3, 9), (0, 4), (2, 4), (3, 4)];
    plain(10, &[&cliques[..], &more].concat())
}

/// A long row of changes: where it begins, and how it goes on.
pub struct Long {
    pub name: String,
    pub plain: Plain,
    pub steps: usize,
    way: Way,
}

enum Way {
    /// As they are drawn.
    Drawn,
    /// Links withdrawn until there is none, then put in again; some changes drawn between.
    DownAndUp,
    /// Put in up to 2,048 links and on, now and then withdrawn.
    Full,
}

impl Long {
    /// The next change of what is there now; `sizes` are the numbers of links so far.
    pub fn next(&self, random: &mut Random, now: &Plain, sizes: &[usize]) -> Change {
        match self.way {
            Way::DownAndUp if random.one_in(6) => draw(random, now),
            Way::DownAndUp if !sizes.contains(&0) => Withdraw(link(random, now)),
            Way::DownAndUp => PutIn(link(random, &self.plain)),
            Way::Full if random.one_in(3) => draw(random, now),
            Way::Full => PutIn((good(random, now), good(random, now))),
            Way::Drawn => draw(random, now),
        }
    }

    /// Whether it went where it should.
    pub fn went(&self, sizes: &[usize]) -> bool {
        match self.way {
            Way::Drawn => true,
            Way::DownAndUp => {
                let after = sizes.iter().skip_while(|&&size| size > 0);
                after
                    .max()
                    .is_some_and(|&most| most > self.plain.pairs.len() / 2)
            }
            Way::Full => sizes.iter().filter(|&&size| size == 2_048).count() > self.steps / 4,
        }
    }
}

/// A good card of this shape.
fn some_card(shape: Shape, most: usize) -> Plain {
    let file = card(RULES, &mut Random::new(most as u64), shape, most);
    Plain::of(&Card::read(RULES, &file).expect("random::card draws good cards"))
}

/// More links at random, up to this number.
fn filled(mut plain: Plain, up_to: usize) -> Plain {
    let mut random = Random::new(up_to as u64);
    while plain.pairs.len() < up_to {
        let (a, b) = (good(&mut random, &plain), good(&mut random, &plain));
        if a != b {
            plain.pairs.insert((a.min(b), a.max(b)));
        }
    }
    plain
}

/// A row on a card of each shape, one down to no links and up again, two around 2,048 links.
pub fn rows() -> Vec<Long> {
    let row = |name: &str, plain, steps, way| Long {
        name: format!("row-{name}"),
        plain,
        steps,
        way,
    };
    let drawn = |(shape, name)| row(name, some_card(shape, 70), 220, Way::Drawn);
    let mut all: Vec<_> = Shape::ALL.into_iter().map(drawn).collect();
    let down = some_card(Shape::Nested, 120);
    all.push(row("down-and-up", down, 450, Way::DownAndUp));
    for (shape, name) in [
        (Shape::Limit, "2048-sparse"),
        (Shape::Planted, "2048-groups"),
    ] {
        let full = filled(some_card(shape, 2_000), 2_045);
        all.push(row(name, full, 220, Way::Full));
    }
    all
}
