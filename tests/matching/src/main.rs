//! Matches the library's C calls against the reference, an independent program: build and reading on random, shuffled and damaged files and on files at the
//! limits, random questions and changes on the random indexes, good and damaged, questions with known answers, questions A, C to E and G, the windows and the faults of
//! changes gone through in order, long rows of changes, lone links judged from the links alone, files with the head of the other file; limits tried on days' bets, drawn,
//! gone through in order and known, and judged from the records and bytes alone; and the lister's text.
//!
//! With no word: all of it. With a number: the files, questions, changes and days of that seed. With a name: that file at the limits, that known answer or day, that row, or
//! that part of what is gone through in order.
//! The last line is `N passed, M failed`, one for each file, question, change and day compared and for each planted fault that the comparison must find.

mod asked;
mod chains;
mod changed;
mod changes;
mod days;
mod firmness;
mod heads;
mod known;
mod lent;
mod limits;
mod listing;
mod lone;
mod parties;
mod planted;
mod planted_changes;
mod planted_days;
mod planted_questions;
mod questions;
mod tried;
mod windows;

use std::process::ExitCode;

use asked::{Asker, Met};
use changed::{Changer, Plain, Row};
use lent::{compare_all, BUILD, RULES};
use limits::Said;
use lone::Judge;
use questions::Asking;
use reference::card::{links_file, Card};
use reference::damage;
use reference::index::Index;
use reference::random::{card, shuffle_pairs, Random, Shape};
use terminal::{Change, Question};
use tried::{Parties, Trier};

/// Each seed makes a card, a shuffled copy of it and two damaged ones, and reads its index and a damaged one, and asks questions on both, and makes changes from both, and
/// tries limits on both.
const SEEDS: u64 = 6_000;

/// One seed in so many has its indexes listed: that runs a program.
const LISTED: u64 = 11;

/// One seed in so many has its card put under other heads, where most calls are refused at once.
const HEADED: u64 = 5;

/// One seed in so many tries a limit on a damaged index, where most are refused at once.
const DAMAGED: u64 = 4;

/// Cards of up to so many links have their days judged from the bytes alone, by groups found without haste.
const JUDGED: usize = 60;

/// So many failures show the file's bytes; the others can be repeated.
const SHOWN: usize = 5;

#[derive(Default)]
struct Count {
    passed: usize,
    failed: usize,
    /// Links files by what the reference says of them: 0 accepted, else refused by that number.
    met: [usize; 7],
    asked: Met,
    changed: changed::Met,
    lone: lone::Met,
    tried: tried::Met,
    /// Cards under other heads: without a lone link, with some.
    heads: [usize; 2],
}

impl Count {
    /// One file compared. A failure says how to repeat just it.
    fn add(&mut self, word: &str, file: &[u8], what: &str, found: Result<(), String>) {
        let Err(text) = found else {
            self.passed += 1;
            return;
        };
        self.failed += 1;
        println!("FAILED {word}, {what}: {text}");
        if self.failed <= SHOWN {
            let hex: String = file.iter().map(|byte| format!("{byte:02x}")).collect();
            println!("  file: {hex}");
        }
        println!("  repeat: bash tests/run {word}");
    }

    /// Compares the build of one links file.
    fn build(&mut self, random: &mut Random, file: &[u8]) -> Result<Option<Vec<u8>>, String> {
        let refused = Card::read(RULES, file).err();
        self.met[refused.map_or(0, |refusal| refusal.number.into())] += 1;
        compare_all(&BUILD, random, file)
    }

    /// Puts the links file and its index under other heads.
    fn other_heads(&mut self, noise: &mut Random, word: &str, file: &[u8], index: &[u8]) {
        let found = heads::compare(noise, file, index);
        if let Ok(lone) = found {
            self.heads[usize::from(lone)] += 1;
        }
        self.add(word, index, "under other heads", found.map(drop));
    }

    /// Asks questions on an index: the first each by itself, the others in a row on one desk record. Those after a failure are left out.
    fn ask(
        &mut self,
        noise: &mut Random,
        word: &str,
        what: &str,
        index: &[u8],
        [each, in_a_row]: [Vec<Question>; 2],
    ) {
        let mut asker = Asker::new(terminal::ask, noise, index);
        for question in each {
            let found = asker.compare_all(&question).map(drop);
            let failed = found.is_err();
            self.add(word, index, &format!("{what} asked {question:?}"), found);
            if failed {
                return;
            }
        }
        let found = asker.in_a_row(&in_a_row);
        self.add(word, index, &format!("{what} asked in a row"), found);
        self.asked.merge(&asker.met);
    }

    /// Makes the changes, each by itself, from an index of these links or from that index damaged. Those after a failure are left out.
    fn change(
        &mut self,
        noise: &mut Random,
        word: &str,
        plain: &Plain,
        index: &[u8],
        changes: &[Change],
    ) {
        // Damage may leave the index of other links.
        let read = Index::read(RULES, index).map(|index| Plain::of(&index.card()));
        let (plain, is_index) = (read.as_ref().unwrap_or(plain), read.is_ok());
        let mut changer = Changer::new(terminal::alter, noise, plain, index, is_index);
        for &change in changes {
            let found = changer.compare_all(change);
            let failed = found.is_err();
            self.add(word, index, &format!("{change:?}"), found);
            if failed {
                return;
            }
        }
        self.changed.merge(&changer.met);
    }

    /// Tries the limits, each day with its own rooms or with rooms of every kind. Those after a failure are left out.
    fn try_days(
        &mut self,
        noise: &mut Random,
        word: &str,
        card: (&[u8], u16, Option<&Parties>),
        days: &[(days::Drawn, Option<[usize; 2]>)],
    ) {
        let (index, accounts, parties) = card;
        let mut trier = Trier::new(terminal::try_on, noise, index, accounts, parties);
        for (day, rooms) in days {
            let found = match rooms {
                Some(rooms) => trier.one(day.trial, &day.records, *rooms).map(drop),
                None => trier.compare_all(day.trial, &day.records),
            };
            let failed = found.is_err();
            self.add(word, index, &format!("{day:?}"), found);
            if failed {
                return;
            }
        }
        self.tried.merge(&trier.met);
    }
}

fn seed(count: &mut Count, seed: u64) {
    // What is drawn must not depend on what is found, so lent memory has numbers of its own.
    let (mut random, mut noise) = (Random::new(seed), Random::new(!seed));
    let shape = Shape::ALL[seed as usize % Shape::ALL.len()];
    let limit = RULES.max_links().into();
    let most = match random.below(8) {
        0 => limit,
        1 => random.within(1..=limit),
        2 | 3 => random.within(1..=300),
        _ => random.within(1..=60),
    };
    let word = seed.to_string();
    let whole = card(RULES, &mut random, shape.0, most);
    let built = count.build(&mut noise, &whole);
    let index = built.clone().ok().flatten();
    let taken = built.and_then(|index| index.map(drop).ok_or("a good card refused".to_string()));
    count.add(&word, &whole, shape.1, taken);

    let drawn = Card::read(RULES, &whole).expect("random::card draws good cards");
    let mut pairs = drawn.links;
    shuffle_pairs(&mut random, &mut pairs);
    let shuffled = links_file(drawn.accounts, &pairs);
    let again = count.build(&mut noise, &shuffled);
    let same = again.and_then(|again| {
        if again == index {
            Ok(())
        } else {
            Err("another index than before shuffling".to_string())
        }
    });
    count.add(&word, &shuffled, &format!("{} shuffled", shape.1), same);

    for _ in 0..2 {
        let damaged = damage::links(RULES, &mut random, &whole);
        let found = count.build(&mut noise, &damaged).map(drop);
        count.add(&word, &damaged, &format!("{} damaged", shape.1), found);
    }

    if let Some(index) = index {
        let damaged = damage::index(RULES, &mut random, &index);
        for (what, bytes) in [("index", &index), ("damaged index", &damaged)] {
            let found = compare_all(&lent::READ, &mut noise, bytes).map(drop);
            count.add(&word, bytes, &format!("{} {what}", shape.1), found);
            if seed % LISTED == 0 {
                let found = listing::compare(bytes);
                count.add(&word, bytes, &format!("{} {what} listed", shape.1), found);
            }
        }

        if seed % HEADED == 0 {
            count.other_heads(&mut noise, &word, &whole, &index);
        }
        let turns = if pairs.len() > 400 { 1 } else { 3 };
        let judge = Judge::new(terminal::ask, &index, &pairs, &mut count.lone);
        let found =
            judge.and_then(|mut judge| judge.drawn(&mut Random::new(seed), drawn.accounts, turns));
        count.add(&word, &index, &format!("{} lone links", shape.1), found);

        // A question costs about one build.
        let (each, in_a_row) = match pairs.len() {
            0..=80 => (14, 14),
            81..=400 => (8, 6),
            _ => (3, 2),
        };
        let asking = Asking::of(&index);
        let mut draw = |number| (0..number).map(|_| asking.draw(&mut random)).collect();
        let (of_index, of_damaged) = ([draw(each), draw(in_a_row)], [draw(each / 3), draw(1)]);
        count.ask(&mut noise, &word, shape.1, &index, of_index);
        let what = format!("{} damaged index", shape.1);
        count.ask(&mut noise, &word, &what, &damaged, of_damaged);

        // A change costs about two.
        let number = match pairs.len() {
            0..=80 => 3,
            81..=400 => 2,
            _ => random.below(2),
        };
        let plain = Plain::of(&Card::read(RULES, &whole).expect("a good card"));
        let mut draw = |number| -> Vec<_> {
            { 0..number }
                .map(|_| changes::draw(&mut random, &plain))
                .collect()
        };
        let (of_index, of_damaged) = (draw(number), draw(1));
        count.change(&mut noise, &word, &plain, &index, &of_index);
        count.change(&mut noise, &word, &plain, &damaged, &of_damaged);

        // A day costs about one, and what its records take.
        let (number, most) = match pairs.len() {
            0..=80 => (2, 40),
            81..=400 => (1, 200),
            _ => (random.below(2), 2_000),
        };
        let refused = usize::from(seed % DAMAGED == 0);
        let mut draw = |number| -> Vec<_> {
            { 0..number }
                .map(|_| days::draw(&mut random, drawn.accounts, &pairs, most))
                .map(|day| (day, None))
                .collect()
        };
        let (of_index, of_damaged) = (draw(number), draw(refused));
        let read = Card::read(RULES, &whole).expect("a good card");
        let parties = (pairs.len() <= JUDGED).then(|| Parties::of(&read));
        let on_index = (index.as_slice(), drawn.accounts, parties.as_ref());
        count.try_days(&mut noise, &word, on_index, &of_index);
        let on_damaged = (damaged.as_slice(), drawn.accounts, None);
        count.try_days(&mut noise, &word, on_damaged, &of_damaged);
    }
}

/// The comparison itself: it must find each fault planted in a call.
fn planted_faults(count: &mut Count) {
    let calls = { planted::found().into_iter() }
        .chain(planted_questions::found())
        .chain(planted_changes::found())
        .chain(planted_days::found());
    for (name, found) in calls {
        if found {
            count.passed += 1;
        } else {
            count.failed += 1;
            println!("FAILED planted fault not found: {name}");
        }
    }
}

fn at_the_limits(count: &mut Count, only: Option<&str>) {
    let wanted = |name: &str| only.is_none_or(|only| only == name);
    for limit in limits::all().iter().filter(|limit| wanted(&limit.name)) {
        let mut random = Random::new(limit.file.len() as u64);
        let found = count
            .build(&mut random, &limit.file)
            .and_then(|index| as_said(limit, index));
        count.add(&limit.name, &limit.file, "at the limits", found);
    }
    for (name, file) in limits::card_a_changed()
        .iter()
        .filter(|(name, _)| wanted(name))
    {
        let mut random = Random::new(1);
        let found = count.build(&mut random, file).map(drop);
        count.add(name, file, "one byte changed", found);
    }
}

/// Library and reference agree; now they and document 01.
fn as_said(limit: &limits::Limit, index: Option<Vec<u8>>) -> Result<(), String> {
    let holds = match (&limit.said, &index) {
        (Said::Length(length), Some(index)) => index.len() == *length,
        (Said::Index(bytes), Some(index)) => index == bytes,
        (Said::Strength(links, strength), Some(index)) => {
            let records = index[5..].chunks(8).take(*links);
            records.clone().count() == *links && records.clone().all(|link| link[5] == *strength)
        }
        (Said::Accepted, Some(_)) => true,
        (Said::Refused(number, place), None) => {
            let reply = terminal::build(&limit.file, &mut []);
            (reply.refusal, reply.value) == (*number, *place)
        }
        _ => false,
    };
    if holds {
        Ok(())
    } else {
        Err("not what document 01 says".to_string())
    }
}

/// Questions whose answers are known without the reference, and lists.
fn known_answers(count: &mut Count, only: Option<&str>) {
    let wanted = |name: &str| only.is_none_or(|only| only == name);
    for (at, known) in known::all().iter().enumerate() {
        if !wanted(&known.name) {
            continue;
        }
        let mut noise = Random::new(at as u64);
        let index = known::index_of(&known.file);
        let mut asker = Asker::new(terminal::ask, &mut noise, &index);
        let found = asker.compare_all(&known.question);
        count.asked.merge(&asker.met);
        let found = found.and_then(|found| match known.holds(&found) {
            true => Ok(()),
            false => Err(format!("{:?}, not the known answer", found.reply)),
        });
        let what = format!("asked {:?}", known.question);
        count.add(&known.name, &index, &what, found);
    }
    for (name, index, found) in listing::known() {
        if wanted(name) {
            count.add(name, &index, "listed", found);
        }
    }
}

/// Questions A, C to E and G and the windows gone through in order. On an index, those after a failure are left out.
fn in_order(count: &mut Count, only: Option<&str>) {
    let wanted = |name: &str| only.is_none_or(|only| only == name);
    let lots = chains::all()
        .chain(firmness::all())
        .chain(parties::all())
        .chain(windows::all());
    for lot in lots.filter(|lot| wanted(lot.name)) {
        let mut noise = Random::new(lot.index.len() as u64);
        let mut asker = Asker::new(terminal::ask, &mut noise, &lot.index);
        for (question, with) in &lot.asked {
            let found = match with {
                Some(with) => asker.compare(question, with),
                None => asker.compare_all(question),
            };
            let failed = found.is_err();
            let what = format!("asked {question:?}");
            count.add(lot.name, &lot.index, &what, found.map(drop));
            if failed {
                break;
            }
        }
        count.asked.merge(&asker.met);
    }
}

/// Small cards whole and cards of many lone links, judged from the links alone, and each under other heads.
fn lone_links(count: &mut Count, only: Option<&str>) {
    let wanted = |name: &str| only.is_none_or(|only| only == name);
    for (accounts, links) in lone::cards() {
        let file = links_file(accounts, &links);
        let index = known::index_of(&file);
        if wanted("lone-links") {
            let found = lone::judge(terminal::ask, &mut count.lone, accounts, &links);
            count.add("lone-links", &index, "judged", found);
        }
        if wanted("other-heads") {
            count.other_heads(&mut Random::new(1), "other-heads", &file, &index);
        }
    }
}

/// Changes gone through in order, from an index and from a damaged one.
fn changes_in_order(count: &mut Count, only: Option<&str>) {
    let wanted = |name: &str| only.is_none_or(|only| only == name);
    for lot in changes::all().iter().filter(|lot| wanted(lot.name)) {
        let mut noise = Random::new(lot.changes.len() as u64);
        let index = lot.plain.built();
        // The strength of the first link, or the head.
        let mut damaged = index.clone();
        damaged[if lot.plain.pairs.is_empty() { 0 } else { 10 }] += 1;
        count.change(&mut noise, lot.name, &lot.plain, &index, &lot.changes);
        count.change(&mut noise, lot.name, &lot.plain, &damaged, &lot.changes);
    }
}

/// Days gone through in order, from an index and some from a damaged one, and those with known bytes and margins.
fn days_in_order(count: &mut Count, only: Option<&str>) {
    let wanted = |name: &str| only.is_none_or(|only| only == name);
    for lot in days::all().iter().filter(|lot| wanted(lot.name)) {
        let mut noise = Random::new(lot.days.len() as u64);
        let file = links_file(lot.accounts, &lot.links);
        let mut index = known::index_of(&file);
        let parties = Parties::of(&Card::read(RULES, &file).expect("a good card"));
        let card = (index.as_slice(), lot.accounts, Some(&parties));
        count.try_days(&mut noise, lot.name, card, &lot.days);
        if lot.on_damaged {
            index[10] += 1;
            let card = (index.as_slice(), lot.accounts, None);
            count.try_days(&mut noise, lot.name, card, &lot.days);
        }
    }
    for day in days::known().iter().filter(|day| wanted(day.name)) {
        let mut noise = Random::new(day.taken.len() as u64);
        let file = links_file(day.accounts, &day.links);
        let index = known::index_of(&file);
        let parties = Parties::of(&Card::read(RULES, &file).expect("a good card"));
        let card = (index.as_slice(), day.accounts, Some(&parties));
        count.try_days(&mut noise, day.name, card, &[(day.day.clone(), None)]);
        let found = match day.holds(terminal::try_on, &index) {
            true => Ok(()),
            false => Err("not the known bytes and margins".to_string()),
        };
        count.add(day.name, &index, "a known day", found);
    }
}

/// Long rows of changes. Those after a failure are left out.
fn rows(count: &mut Count, only: Option<&str>) {
    let wanted = |name: &str| only.is_none_or(|only| only == name);
    for long in changes::rows().iter().filter(|long| wanted(&long.name)) {
        let [mut random, mut noise] = [1, 2].map(Random::new);
        let mut row = Row::new(terminal::alter, &mut noise, long.plain.clone());
        let mut sizes = vec![row.plain.pairs.len()];
        for step in 0..long.steps {
            let change = long.next(&mut random, &row.plain, &sizes);
            let before = row.index().to_vec();
            let found = row.change(change);
            let failed = found.is_err();
            let what = format!("change {step}, {change:?}");
            count.add(&long.name, &before, &what, found);
            if failed {
                return;
            }
            sizes.push(row.plain.pairs.len());
        }
        let went = match long.went(&sizes) {
            true => Ok(()),
            false => Err("never had the links that it should have".to_string()),
        };
        count.add(&long.name, row.index(), "as a whole", went);
        count.changed.merge(&row.met);
    }
}

fn main() -> ExitCode {
    let mut count = Count::default();
    match std::env::args().nth(1) {
        None => {
            planted_faults(&mut count);
            at_the_limits(&mut count, None);
            known_answers(&mut count, None);
            in_order(&mut count, None);
            lone_links(&mut count, None);
            changes_in_order(&mut count, None);
            rows(&mut count, None);
            days_in_order(&mut count, None);
            (0..SEEDS).for_each(|number| seed(&mut count, number));
            println!(
                "links files accepted, and refused by 1 to 6: {:?}",
                count.met
            );
            let (asked, changed, lone) =
                (count.asked.show(), count.changed.show(), count.lone.show());
            println!(
                "cards under other heads, without a lone link and with some: {:?}",
                count.heads
            );
            let tried = count.tried.show();
            let met = [count.met.as_slice(), &count.heads].concat();
            if met.contains(&0) || !asked || !changed || !lone || !tried {
                count.failed += 1;
                println!("FAILED: some refusal or answer was never met");
            }
        }
        Some(word) => match word.parse() {
            Ok(number) => seed(&mut count, number),
            Err(_) => {
                at_the_limits(&mut count, Some(&word));
                known_answers(&mut count, Some(&word));
                in_order(&mut count, Some(&word));
                lone_links(&mut count, Some(&word));
                changes_in_order(&mut count, Some(&word));
                rows(&mut count, Some(&word));
                days_in_order(&mut count, Some(&word));
            }
        },
    }
    println!("{} passed, {} failed", count.passed, count.failed);
    if count.failed == 0 && count.passed > 0 {
        ExitCode::SUCCESS
    } else {
        ExitCode::FAILURE
    }
}
