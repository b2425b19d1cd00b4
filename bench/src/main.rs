//! Times the library's build and reading beside the reference's fast build, from links file to index bytes (and back), and the questions, changes and limits tried
//! beside the library's build, in one run: bench CARDS [IGRAPH]
//!
//! CARDS is a folder of links files, IGRAPH the program made of igraph_truss.c. Prints four tables with empty lines between them. A time is the least of many
//! turns; the calls take turns, so that all meet the same machine. igraph computes strengths only: no forest, no groups, no bytes.

use std::cmp::Reverse;
use std::collections::{BTreeSet, VecDeque};
use std::hint::black_box;
use std::path::Path;
use std::process::Command;
use std::time::{Duration, Instant};

use reference::index::{Index, StrongLink};
use reference::net::Net;
use reference::random::Random;
use reference::records::two;
use reference::rules::{Rules, MAX_ACCOUNTS, MAX_NAMED};
use terminal::{
    Change, Question, Trial, ANSWER_MAX, DESK, INDEX_MAX, LIMIT_MAX, MARGIN, RECORDS_MAX,
};

const TURNS: usize = 3_000;

/// Of the table of questions.
const COLUMNS: usize = 9;

/// The reference with the requests that the library has.
const RULES: Rules = Rules {
    requests: terminal::REQUESTS,
};

struct Least(Duration);

impl Least {
    fn time<T>(&mut self, call: impl FnOnce() -> T) {
        let start = Instant::now();
        black_box(call());
        self.0 = self.0.min(start.elapsed());
    }

    fn micros(&self) -> f64 {
        self.0.as_secs_f64() * 1e6
    }
}

/// A question, what the table says of its answer, and its least time.
struct Asked {
    question: Question,
    note: String,
    least: Least,
}

/// A limit tried on a day, what the table says of it, and its least time.
struct Tried {
    trial: Trial,
    records: Vec<u8>,
    note: String,
    least: Least,
}

/// The least time of igraph's turns, in microseconds.
fn igraph(program: &str, card: &Path) -> Option<f64> {
    let turns = TURNS.to_string();
    let done = Command::new(program).arg(card).arg(turns).output().ok()?;
    let text = String::from_utf8(done.stdout).ok()?;
    text.trim().split("best_us=").nth(1)?.parse().ok()
}

/// By link, the fewest triangles of weight at least k that lead to it from this one; none if there is no chain.
fn lengths(net: &Net, links: usize, from: u16, k: u16) -> Vec<Option<u32>> {
    let mut lengths = vec![None; links];
    lengths[usize::from(from)] = Some(0);
    let mut ahead = VecDeque::from([from]);
    while let Some(link) = ahead.pop_front() {
        let next = lengths[usize::from(link)].map(|length| length + 1);
        for other in net.heavy(link, k).into_iter().flat_map(|(_, pair)| pair) {
            if lengths[usize::from(other)].is_none() {
                lengths[usize::from(other)] = next;
                ahead.push_back(other);
            }
        }
    }
    lengths
}

/// Two links far apart at k, with the fewest triangles between them: in each group at k from some link to the farthest, from that to the farthest, and so on.
fn far_apart(index: &Index, k: u16) -> (u32, u16, u16) {
    const STEPS: usize = 6;
    let net = Net::new(index);
    let mut met = vec![false; index.links.len()];
    let mut found = (0, 0, 0);
    for link in 0..index.links.len() as u16 {
        let mut from = link;
        let new = index.links[usize::from(link)].strength >= k && !met[usize::from(link)];
        for _ in 0..if new { STEPS } else { 0 } {
            let lengths = lengths(&net, index.links.len(), from, k);
            let reached = (0..).zip(&lengths);
            let reached = reached.filter_map(|(link, length)| length.map(|length| (length, link)));
            reached
                .clone()
                .for_each(|(_, link): (_, u16)| met[usize::from(link)] = true);
            let (length, farthest) = reached.max().expect("the link itself");
            found = found.max((length, from, farthest));
            from = farthest;
        }
    }
    found
}

/// Questions G: the longest chain of any k, and the longest at a k in the middle.
fn chains(index: &Index) -> [Question; 2] {
    let strengths = index.links.iter().map(|link| link.strength);
    let greatest = strengths.max().expect("a card with a link");
    // At 2 chains are those at 3; where no link is stronger there is none.
    let middle = (greatest / 2 + 1).max(3).min(greatest);
    let levels = 3.min(greatest)..=greatest;
    let longest = levels.max_by_key(|&k| (far_apart(index, k).0, Reverse(k)));
    [longest.expect("a level"), middle].map(|k| {
        let (_, first, second) = far_apart(index, k);
        let ends = |link: u16| {
            let link = &index.links[usize::from(link)];
            (link.lower.into(), link.higher.into())
        };
        Question::G(ends(first), ends(second), k.into())
    })
}

/// By column of the table, questions with much to do; of several in one column the worst is shown. The second link of A is one with the most links at its ends. The
/// accounts and the link of F are of the group with the most links, the accounts those with the most links in all; C, D and E also name the account that is in the most
/// groups, and the one in the most groups at the least k, again and again. C and F are at the least k.
fn questions(index: &Index) -> [Vec<Question>; COLUMNS] {
    let held_by = |link: &StrongLink| index.climb(link.group).collect::<BTreeSet<_>>();
    let ends = |link: &StrongLink| (link.lower.into(), link.higher.into());
    let links: &[StrongLink] = &index.links;
    let last = links.last().expect("a card with a link");

    let deepest = links.iter().max_by_key(|link| held_by(link).len());
    let deepest = deepest.unwrap_or(last);
    let above = held_by(deepest);
    let way = |link: &&StrongLink| above.symmetric_difference(&held_by(link)).count();
    let farthest = links.iter().max_by_key(way).unwrap_or(last);

    let mut sizes = vec![0; index.groups.len()];
    for group in links.iter().flat_map(held_by) {
        sizes[usize::from(group)] += 1;
    }
    let largest = (0..).zip(sizes).max_by_key(|&(_, links)| links);
    let (largest, _) = largest.expect("a card with a group");
    let in_largest = links.iter().filter(|link| held_by(link).contains(&largest));
    let of_largest = in_largest.clone().next_back().unwrap_or(last);

    let mut links_at = [0; MAX_ACCOUNTS as usize];
    for link in links {
        links_at[usize::from(link.lower)] += 1;
        links_at[usize::from(link.higher)] += 1;
    }
    let at_ends =
        |link: &&StrongLink| links_at[usize::from(link.lower)] + links_at[usize::from(link.higher)];
    let busiest = links.iter().max_by_key(at_ends).unwrap_or(last);
    let accounts = in_largest.flat_map(|link| [link.lower, link.higher]);
    let accounts: BTreeSet<u16> = accounts.collect();
    let mut accounts: Vec<u16> = accounts.into_iter().collect();
    accounts.sort_by_key(|&account| Reverse(links_at[usize::from(account)]));

    let in_most = |of: &dyn Fn(&StrongLink) -> BTreeSet<u16>| -> u16 {
        let mut groups_of = vec![BTreeSet::new(); MAX_ACCOUNTS.into()];
        for link in links {
            for account in [link.lower, link.higher] {
                groups_of[usize::from(account)].extend(of(link));
            }
        }
        let most = (0..).zip(&groups_of).max_by_key(|(_, of)| of.len());
        most.expect("an account").0
    };
    // A group at the least k has no parent, so it is the last above a link.
    let at_least = |link: &StrongLink| held_by(link).into_iter().next_back().into_iter().collect();

    let sixteen = |accounts: &[u16]| -> Vec<u8> {
        let named = accounts.iter().cycle().take(MAX_NAMED);
        named.flat_map(|account| account.to_be_bytes()).collect()
    };
    let mut named = vec![
        sixteen(&accounts),
        sixteen(&[in_most(&held_by)]),
        sixteen(&[in_most(&at_least)]),
    ];
    named.dedup();
    let of_each = |question: &dyn Fn(Vec<u8>) -> Question| -> Vec<Question> {
        named.iter().cloned().map(question).collect()
    };
    let least = RULES.min_k().into();

    let [longest, middle] = chains(index);
    [
        vec![Question::A(ends(last))],
        vec![Question::A(ends(busiest))],
        vec![Question::B(ends(deepest), ends(farthest))],
        of_each(&|named| Question::C(named, least)),
        of_each(&Question::D),
        of_each(&Question::E),
        vec![Question::F(ends(of_largest), least)],
        vec![longest],
        vec![middle],
    ]
}

/// The link in the middle put in, from the index of the card without it, and withdrawn: each change with the index that it is given. A full card can be put
/// together so too.
fn changes(index: &[u8]) -> [(Change, Vec<u8>); 2] {
    let links = Index::read(RULES, index).expect("an index").links;
    let middle = links[links.len() / 2];
    let ends = (middle.lower.into(), middle.higher.into());
    let mut less = vec![0; INDEX_MAX];
    let withdrawn = terminal::change(Change::Withdraw(ends), index, &mut less);
    assert!(withdrawn.refusal == 0, "a withdrawal is refused");
    less.truncate(withdrawn.value as usize);
    let mut whole = vec![0; INDEX_MAX];
    let put_in = terminal::change(Change::PutIn(ends), &less, &mut whole);
    assert!(
        whole[..put_in.value as usize] == *index,
        "the link put in again gives another index"
    );
    [
        (Change::PutIn(ends), less),
        (Change::Withdraw(ends), index.to_vec()),
    ]
}

/// As many bets as there may be, all of them taken, so that each counts in every group of its account: of accounts drawn at random, at 3; of the account that is in
/// the most groups at 3; of the one in the most at 2.
fn days(index: &Index) -> [Tried; 3] {
    let most = |k: u16| {
        let mut groups_of = vec![BTreeSet::new(); index.accounts.into()];
        for (number, link) in index.links.iter().enumerate() {
            for account in [link.lower, link.higher] {
                groups_of[usize::from(account)].extend(index.group_at(number, k));
            }
        }
        let of = (0..).zip(&groups_of).max_by_key(|(_, of)| of.len());
        let (account, of): (u32, _) = of.expect("an account");
        (account, of.len())
    };
    let day = |k: u32, note: String, mut account: Box<dyn FnMut() -> u32>| {
        let mut bet = || [&[0][..], &account().to_be_bytes(), &1_u32.to_be_bytes()].concat();
        Tried {
            trial: Trial {
                k,
                limit: LIMIT_MAX,
            },
            records: (0..RECORDS_MAX).flat_map(|_| bet()).collect(),
            note,
            least: Least(Duration::MAX),
        }
    };
    let (mut random, accounts) = (Random::new(8), index.accounts.into());
    let [(at_3, groups_at_3), (at_2, groups_at_2)] = [most(3), most(2)];
    [
        day(
            3,
            String::new(),
            Box::new(move || random.below(accounts) as u32),
        ),
        day(3, format!(" ({groups_at_3})"), Box::new(move || at_3)),
        day(2, format!(" ({groups_at_2})"), Box::new(move || at_2)),
    ]
}

fn main() {
    let mut words = std::env::args().skip(1);
    let folder = words.next().expect("a folder of links files");
    let peer = words.next();
    let files = std::fs::read_dir(folder).expect("a folder");
    let mut cards: Vec<_> = files.map(|file| file.expect("a file").path()).collect();
    cards.sort();

    println!("| card | accounts | links | greatest strength | build, us | read, us | reference's build, us | build / reference | read / reference | igraph strengths, us |");
    println!("|---|---|---|---|---|---|---|---|---|---|");
    let [mut asked, mut changed, mut tried] = [const { String::new() }; 3];
    for card in &cards {
        let file = std::fs::read(card).expect("a links file");
        let (mut ours, mut theirs) = ([0; INDEX_MAX], [0; INDEX_MAX]);
        let reply = terminal::build(&file, &mut ours);
        if reply.refusal != 0 {
            continue;
        }
        reference::fast::build(RULES, &file, &mut theirs, &mut []);
        assert!(ours == theirs, "the two indexes differ");
        let links = usize::from(two(&file, 3));
        let greatest = (0..links).map(|link| ours[5 + 8 * link + 5]).max();

        let index = &ours[..reply.value as usize].to_vec();
        let mut back = [0; INDEX_MAX];
        assert!(
            terminal::read(index, &mut back).refusal == 0,
            "an index is refused"
        );

        let questions = questions(&Index::read(RULES, index).expect("an index"));
        let (mut answer, mut desk) = ([0; ANSWER_MAX], [0; DESK]);
        let mut asking = questions.map(|column| -> Vec<Asked> {
            let timed = column.into_iter().map(|question| {
                let reply = terminal::put(&question, index, &mut answer, &mut desk);
                assert!(reply.refusal == 0, "a question is refused");
                let count = two(&answer, 0);
                let note = match question {
                    Question::A(_) => format!(" ({} at {})", reply.second, reply.value),
                    Question::C(..) | Question::D(_) | Question::E(_) => format!(" ({count})"),
                    Question::G(_, _, k) => format!(" ({count} at {k})"),
                    _ => String::new(),
                };
                Asked {
                    question,
                    note,
                    least: Least(Duration::MAX),
                }
            });
            timed.collect()
        });

        let changes = changes(index);
        let mut altered = [0; INDEX_MAX];

        let mut days = days(&Index::read(RULES, index).expect("an index"));
        let (mut taken, mut margins) = ([0; RECORDS_MAX], vec![0; MARGIN * 2_048]);
        for day in &days {
            let Tried { trial, records, .. } = day;
            let reply = terminal::try_limit(*trial, index, records, &mut taken, &mut margins);
            assert!(
                reply.refusal == 0 && taken == [1; RECORDS_MAX],
                "a bet is refused"
            );
        }

        let mut library = Least(Duration::MAX);
        let mut reading = Least(Duration::MAX);
        let mut reference = Least(Duration::MAX);
        let mut changing = [const { Least(Duration::MAX) }; 2];
        for _ in 0..TURNS {
            library.time(|| terminal::build(black_box(&file), &mut ours));
            reading.time(|| terminal::read(black_box(index), &mut back));
            reference
                .time(|| reference::fast::build(RULES, black_box(&file), &mut theirs, &mut []));
            for asked in asking.iter_mut().flatten() {
                let question = black_box(&asked.question);
                asked
                    .least
                    .time(|| terminal::put(question, index, &mut answer, &mut desk));
            }
            for ((change, index), least) in changes.iter().zip(&mut changing) {
                least.time(|| terminal::change(black_box(*change), index, &mut altered));
            }
            for day in &mut days {
                let (trial, records) = (day.trial, black_box(&day.records));
                day.least
                    .time(|| terminal::try_limit(trial, index, records, &mut taken, &mut margins));
            }
        }
        let igraph = peer.as_deref().and_then(|program| igraph(program, card));
        let name = card.file_stem().unwrap_or_default().to_string_lossy();
        println!(
            "| {name} | {} | {links} | {} | {:.1} | {:.1} | {:.1} | {:.2} | {:.2} | {} |",
            two(&file, 1),
            greatest.unwrap_or(0),
            library.micros(),
            reading.micros(),
            reference.micros(),
            library.micros() / reference.micros(),
            reading.micros() / reference.micros(),
            igraph.map_or("-".to_string(), |time| format!("{time:.1}")),
        );
        asked += &format!("\n| {name} |");
        for column in &asking {
            let worst = column.iter().max_by_key(|asked| asked.least.0);
            let Asked { note, least, .. } = worst.expect("a question");
            asked += &format!(" {:.2}{note} |", least.micros() / library.micros());
        }
        changed += &format!("\n| {name} |");
        for least in &changing {
            changed += &format!(" {:.2} |", least.micros() / library.micros());
        }
        tried += &format!("\n| {name} |");
        for Tried { note, least, .. } in &days {
            tried += &format!(" {:.2}{note} |", least.micros() / library.micros());
        }
    }
    println!("\n| card | A / build, last link | A / build, most links | B / build | C / build | D / build | E / build | F / build | G / build, longest | G / build, middle |");
    println!("|---|---|---|---|---|---|---|---|---|---|{asked}");
    println!("\n| card | put in / build | withdraw / build |");
    println!("|---|---|---|{changed}");
    println!("\n| card | random accounts at 3 / build | most groups at 3 / build | most groups at 2 / build |");
    println!("|---|---|---|---|{tried}");
}
