//! Question A gone through in order: every two accounts of every small card, and every link of larger cards whose links are in triangles of several weights.

use crate::asked::With;
use crate::chains::{ends, links_of_five, renamed, Lot, Pairs};
use crate::known::{index_of, nest};
use crate::limits::all_pairs;
use reference::card::links_file;
use reference::questions::Ends;
use reference::random::Random;
use terminal::Question::A;
use terminal::{DESK, WINDOWS};

pub fn all() -> impl Iterator<Item = Lot> {
    cards_of_five().chain(larger_cards())
}

fn lot(name: &'static str, accounts: u16, links: &Pairs, asked: impl Iterator<Item = Ends>) -> Lot {
    let with = |at: usize| With {
        room: 0,
        window: at as u32 % WINDOWS,
        record: vec![0; DESK],
    };
    Lot {
        name,
        index: index_of(&links_file(accounts, links)),
        asked: asked
            .enumerate()
            .map(|(at, pair)| (A(pair), Some(with(at))))
            .collect(),
    }
}

/// Every card of five accounts: every two accounts, and one that there is not.
fn cards_of_five() -> impl Iterator<Item = Lot> {
    links_of_five().map(|links| {
        let asked = (0..6).flat_map(|a| (0..6).map(move |b| (a, b)));
        lot("firmness-of-five", 5, &links, asked)
    })
}

/// Each group in the next; cliques of falling size that share two accounts; a dense card, drawn; the accounts as they come and under other numbers.
fn larger_cards() -> impl Iterator<Item = Lot> {
    let mut random = Random::new(5);
    let nested: Pairs = nest(16).into_iter().map(|(pair, _)| pair).collect();
    let mut from = 2;
    let mut shared: Pairs = vec![(0, 1)];
    for size in (3..=9).rev() {
        let own: Vec<u16> = (from..from + size - 2).collect();
        shared.extend({ own.iter() }.flat_map(|&a| [(0, a), (1, a)]));
        shared.extend(all_pairs(from..from + size - 2));
        from += size - 2;
    }
    let mut dense = all_pairs(0..40);
    random.shuffle(&mut dense);
    dense.truncate(330);
    let mut lots = Vec::new();
    for (accounts, pairs) in [(29, nested), (from, shared), (40, dense)] {
        for turn in 0..3 {
            let links = match turn {
                0 => pairs.clone(),
                _ => renamed(&mut random, accounts, &pairs),
            };
            let asked = links.clone().into_iter().map(ends);
            lots.push(lot("firmness-of-larger", accounts, &links, asked));
        }
    }
    lots.into_iter()
}
