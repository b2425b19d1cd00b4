//! Bytes with the head of the other file, and indexes as they were before lone links were groups: every call that takes an index refuses these by 7, a build refuses by
//! 1 at 0 what begins with kind 7.

use crate::asked::Asker;
use crate::changed::{Changer, Plain};
use crate::known::named;
use crate::lent::{compare_all, BUILD, READ, RULES};
use crate::tried::{to_bytes, Record, Trier};
use reference::card::Card;
use reference::fast;
use reference::random::Random;
use reference::rules::Rules;
use terminal::Change::{PutIn, Withdraw};
use terminal::Question::{A, B, C, D, E, F, G};
use terminal::{Trial, MARGIN};

/// The rules before an index began with kind 7.
const BEFORE: Rules = Rules { requests: 6 };

/// The same bytes after another kind of head.
fn headed(kind: u8, bytes: &[u8]) -> Vec<u8> {
    [&[kind], &bytes[1..]].concat()
}

/// A reading is refused by 7.
fn not_read(noise: &mut Random, bytes: &[u8]) -> Result<(), String> {
    match compare_all(&READ, noise, bytes)? {
        Some(_) => Err("read".to_string()),
        None => Ok(()),
    }
}

/// A reading, both changes, the seven questions and a limit tried, which would be good on the card's index, are refused by 7.
fn no_index(noise: &mut Random, card: &Card, bytes: &[u8]) -> Result<(), String> {
    not_read(noise, bytes)?;
    let (a, b) = card.links.first().copied().unwrap_or((0, 0));
    let (link, some) = ((a.into(), b.into()), named(&[a]));
    let mut changer = Changer::new(terminal::alter, noise, &Plain::of(card), bytes, false);
    changer.compare_all(Withdraw(link))?;
    changer.compare_all(PutIn((0, u32::from(card.accounts) - 1)))?;
    let mut asker = Asker::new(terminal::ask, noise, bytes);
    for question in [
        A(link),
        B(link, link),
        C(some.clone(), 2),
        D(some.clone()),
        E(some),
        F(link, 2),
        G(link, link, 2),
    ] {
        let found = asker.compare_all(&question)?;
        if found.reply.refusal != 7 {
            return Err(format!("{question:?} answered"));
        }
    }
    let mut trier = Trier::new(terminal::try_on, noise, bytes, card.accounts, None);
    let trial = Trial { k: 2, limit: 1 };
    let reply = trier.one(trial, &to_bytes(&[Record::bet(0, 1)]), [1, MARGIN * 2_048])?;
    match reply.refusal {
        7 => Ok(()),
        _ => Err("a limit tried".to_string()),
    }
}

/// A build of these bytes is refused by 1 at 0.
fn no_links_file(noise: &mut Random, bytes: &[u8]) -> Result<(), String> {
    let built = compare_all(&BUILD, noise, bytes)?;
    let reply = terminal::build(bytes, &mut []);
    match (built, reply.refusal, reply.value) {
        (None, 1, 0) => Ok(()),
        _ => Err("taken for a links file".to_string()),
    }
}

/// The links file under kind 7, its index under kind 1, each lent for the other, and the index as it was before, under both kinds. Without a lone link the last is the
/// index of today; gives whether there was one.
pub fn compare(noise: &mut Random, file: &[u8], index: &[u8]) -> Result<bool, String> {
    let card = Card::read(RULES, file).expect("a good links file");
    let before = fast::index(BEFORE, &card);
    let lone = before.links.iter().any(|link| link.group.is_none());
    let before = before.to_bytes(BEFORE);
    for bytes in [&headed(7, file), index] {
        no_links_file(noise, bytes)?;
    }
    for bytes in [file, &before, &headed(1, index)] {
        no_index(noise, &card, bytes)?;
    }
    match lone {
        // Refused after all else was looked at, which takes long.
        true if card.links.len() > 80 => not_read(noise, &headed(7, &before))?,
        true => no_index(noise, &card, &headed(7, &before))?,
        false if index != headed(7, &before) => return Err("more than the head moved".to_string()),
        false => {}
    }
    Ok(lone)
}
