//! One change made by the library, by the reference and in a plain set of pairs, and every difference between them.

use std::collections::{BTreeMap, BTreeSet};

use crate::lent::{four_numbers, Lent, RULES};
use reference::card::{links_file, Card};
use reference::changes;
use reference::random::Random;
use terminal::{Change, Reply, Slice, INDEX_MAX};

/// A change in the library, or in the library with a fault.
pub type Alter = unsafe fn(Change, Slice, Slice) -> Reply;

/// A change in the reference.
fn reference(change: Change, index: &[u8], out: &mut [u8]) -> reference::reply::Reply {
    match change {
        Change::PutIn(link) => changes::put_in(RULES, index, link, out, &mut []),
        Change::Withdraw(link) => changes::withdraw(RULES, index, link, out, &mut []),
    }
}

/// The two accounts, the lower first.
fn rising(change: Change) -> (u32, u32) {
    let (Change::PutIn((a, b)) | Change::Withdraw((a, b))) = change;
    (a.min(b), a.max(b))
}

/// A card as a plain set of pairs, the lower account first.
#[derive(Clone)]
pub struct Plain {
    pub accounts: u32,
    pub pairs: BTreeSet<(u32, u32)>,
}

impl Plain {
    pub fn of(card: &Card) -> Plain {
        let pairs = card.links.iter().map(|&(a, b)| (a.into(), b.into()));
        Plain {
            accounts: card.accounts.into(),
            pairs: pairs.collect(),
        }
    }

    /// The links file, in index order.
    pub fn file(&self) -> Vec<u8> {
        let pairs = { self.pairs.iter() }.map(|&(a, b)| (a as u16, b as u16));
        links_file(self.accounts as u16, &pairs.collect::<Vec<_>>())
    }

    /// The library's own index of the set.
    pub fn built(&self) -> Vec<u8> {
        let mut index = vec![0; INDEX_MAX];
        let reply = terminal::build(&self.file(), &mut index);
        assert!(reply.refusal == 0, "a plain set refused");
        index.truncate(reply.value as usize);
        index
    }

    /// The faults of a change but 7 and 12, each judged by itself, in the order of the checks.
    fn faults(&self, change: Change) -> Vec<u32> {
        let (lower, higher) = rising(change);
        let outside = (higher >= self.accounts, 9);
        let there = self.pairs.contains(&(lower, higher));
        let judged = match change {
            Change::PutIn(_) => vec![
                outside,
                (lower == higher, 5),
                (there, 14),
                (self.pairs.len() >= 2_048, 3),
            ],
            Change::Withdraw(_) => vec![outside, (!there, 11)],
        };
        let met = judged.into_iter().filter(|&(is_met, _)| is_met);
        met.map(|(_, number)| number).collect()
    }

    /// The set after a change that has no fault.
    fn altered(&self, change: Change) -> Plain {
        let mut plain = self.clone();
        match change {
            Change::PutIn(_) => plain.pairs.insert(rising(change)),
            Change::Withdraw(_) => plain.pairs.remove(&rising(change)),
        };
        plain
    }
}

/// How often each call had each reply, and which two of its faults came together.
#[derive(Default)]
pub struct Met {
    /// By call: 0 done, else refused by that number.
    replies: [[usize; 15]; 2],
    together: BTreeMap<(usize, u32, u32), usize>,
    /// Withdrawals that made the index longer.
    longer: usize,
}

const NAMES: [&str; 2] = ["fe_put_in", "fe_withdraw"];

/// By call, the refusals that it can have; and those that never come together, since the ends of a link are two accounts below n.
const REFUSALS: [&[u32]; 2] = [&[7, 9, 5, 14, 3, 12], &[7, 9, 11, 12]];
const APART: [(u32, u32); 2] = [(9, 14), (5, 14)];

fn number_of(change: Change) -> usize {
    matches!(change, Change::Withdraw(_)).into()
}

impl Met {
    fn add(&mut self, change: Change, refusal: u32) {
        self.replies[number_of(change)][refusal as usize] += 1;
    }

    fn add_faults(&mut self, change: Change, faults: &[u32]) {
        for (at, &first) in faults.iter().enumerate() {
            for &second in &faults[at + 1..] {
                let pair = (number_of(change), first, second);
                *self.together.entry(pair).or_default() += 1;
            }
        }
    }

    pub fn merge(&mut self, other: &Met) {
        for (to, from) in self.replies.iter_mut().zip(&other.replies) {
            to.iter_mut().zip(from).for_each(|(to, from)| *to += from);
        }
        for (pair, count) in &other.together {
            *self.together.entry(*pair).or_default() += count;
        }
        self.longer += other.longer;
    }

    /// Prints the counts. False if a reply, two faults that can come together, or a longer index of fewer links was never met.
    pub fn show(&self) -> bool {
        let mut all = self.longer > 0;
        let made: usize = self.replies.iter().flatten().sum();
        println!("changes made: {made}, each done or refused by:");
        for (at, name) in NAMES.iter().enumerate() {
            let counts = REFUSALS[at]
                .iter()
                .map(|&n| (n, self.replies[at][n as usize]));
            let done = self.replies[at][0];
            all &= done > 0 && counts.clone().all(|(_, count)| count > 0);
            let counts = counts.map(|(n, count)| format!("by {n}: {count}"));
            let counts: Vec<_> = counts.collect();
            let (two, least) = self.least_together(at);
            all &= least > 0;
            println!(
                "  {name} done: {done}, {}; two faults together, {two} ways: {least} or more",
                counts.join(", ")
            );
        }
        println!("  a link withdrawn and the index longer: {}", self.longer);
        all
    }

    /// In how many ways two faults of a call can come together, and how often the rarest was met.
    fn least_together(&self, call: usize) -> (usize, usize) {
        let refusals = REFUSALS[call];
        let pairs = (0..refusals.len()).flat_map(|at| {
            let later = refusals[at + 1..].iter();
            later.map(move |&second| (refusals[at], second))
        });
        let pairs = pairs.filter(|pair| !APART.contains(pair));
        let met = |(a, b): (u32, u32)| self.together.get(&(call, a, b)).copied().unwrap_or(0);
        let counts: Vec<usize> = pairs.map(met).collect();
        (counts.len(), counts.iter().copied().min().unwrap_or(0))
    }
}

/// Makes the change from one slice into the other. Gives the reply, or the first difference from the reference.
fn compare(
    alter: Alter,
    change: Change,
    index: &mut Lent,
    out: &mut Lent,
) -> Result<Reply, String> {
    let (before, mut right) = (index.bytes.clone(), out.bytes.clone());
    let room = out.to - out.from;
    let expected = reference(
        change,
        &before[index.from..index.to],
        &mut right[out.from..out.to],
    );
    let reply = unsafe { alter(change, index.lend(), out.lend()) };
    let wanted = four_numbers(expected);
    if reply != wanted {
        return Err(format!(
            "room {room}: reply {reply:?}, should be {wanted:?}"
        ));
    }
    for (name, lent, right) in [("index", &index, &before), ("out", &out, &right)] {
        if let Some(text) = lent.differs(right) {
            return Err(format!("room {room}: {name}: {text}"));
        }
    }
    Ok(reply)
}

/// The library, which does as the reference, beside the plain set: the same refusal, or the bytes of a fresh build.
fn as_plain(reply: Reply, out: &Lent, faults: &[u32], built: &[u8]) -> Result<(), String> {
    let refusal = faults.first().copied().unwrap_or(0);
    if reply.refusal != refusal {
        return Err(format!(
            "refused by {}, and by {refusal} of a plain set",
            reply.refusal
        ));
    }
    let written = &out.bytes[out.from..][..if refusal == 0 { reply.value } else { 0 } as usize];
    match refusal == 0 && written != built {
        true => Err("not the bytes of a fresh build".to_string()),
        false => Ok(()),
    }
}

/// An index, or bytes that are none, lent for many changes, each by itself.
pub struct Changer<'a> {
    alter: Alter,
    noise: &'a mut Random,
    index: Lent,
    /// The links; of bytes that are no index, those of the index that it was.
    plain: Plain,
    is_index: bool,
    pub met: Met,
}

impl<'a> Changer<'a> {
    pub fn new(
        alter: Alter,
        noise: &'a mut Random,
        plain: &Plain,
        index: &[u8],
        is_index: bool,
    ) -> Changer<'a> {
        let index = Lent::holding(noise, index);
        Changer {
            alter,
            noise,
            index,
            plain: plain.clone(),
            is_index,
            met: Met::default(),
        }
    }

    /// Makes the change with rooms of every kind. Gives the first difference.
    pub fn compare_all(&mut self, change: Change) -> Result<(), String> {
        let mut faults = self.plain.faults(change);
        if !self.is_index {
            faults.insert(0, 7);
        }
        let old = self.index.to - self.index.from;
        let (built, rooms) = match faults.is_empty() {
            true => {
                let built = self.plain.altered(change).built();
                let length = built.len();
                let more = length + self.noise.within(1..=100);
                let less = self.noise.below(length);
                (built, vec![INDEX_MAX, length, length - 1, old, more, less])
            }
            false => (vec![], vec![0, self.noise.within(1..=INDEX_MAX)]),
        };
        for room in rooms {
            // A room of 0 is short for any index.
            let mut faults = faults.clone();
            if room < built.len() || room == 0 {
                faults.push(12);
            }
            let mut out = Lent::new(self.noise, room);
            let reply = compare(self.alter, change, &mut self.index, &mut out)?;
            as_plain(reply, &out, &faults, &built)
                .map_err(|text| format!("room {room}: {text}"))?;
            self.met.add(change, reply.refusal);
            self.met.add_faults(change, &faults);
        }
        if number_of(change) == 1 && built.len() > old {
            self.met.longer += 1;
        }
        Ok(())
    }
}

/// Changes in a row, each given the last index written, from one of two buffers into the other.
pub struct Row<'a> {
    alter: Alter,
    noise: &'a mut Random,
    /// The set that the last index must tell.
    pub plain: Plain,
    buffers: [Lent; 2],
    last: usize,
    pub met: Met,
}

impl<'a> Row<'a> {
    pub fn new(alter: Alter, noise: &'a mut Random, plain: Plain) -> Row<'a> {
        let mut buffers = [0; 2].map(|_| Lent::new(noise, INDEX_MAX));
        let index = plain.built();
        buffers[0].to = buffers[0].from + index.len();
        let lent = &mut buffers[0];
        lent.bytes[lent.from..lent.to].copy_from_slice(&index);
        Row {
            alter,
            noise,
            plain,
            buffers,
            last: 0,
            met: Met::default(),
        }
    }

    /// The last index written.
    pub fn index(&self) -> &[u8] {
        let lent = &self.buffers[self.last];
        &lent.bytes[lent.from..lent.to]
    }

    /// Makes the change, now and then with a short buffer. Gives the first difference.
    pub fn change(&mut self, change: Change) -> Result<(), String> {
        let mut faults = self.plain.faults(change);
        let altered = faults.is_empty().then(|| self.plain.altered(change));
        let built = altered.as_ref().map_or(vec![], Plain::built);
        let room = match self.noise.below(12) {
            0 => self.noise.below(built.len().max(1)),
            1 => built.len().saturating_sub(1),
            2 => built.len(),
            3 => self.index().len(),
            _ => INDEX_MAX,
        };
        if room < built.len() || room == 0 {
            faults.push(12);
        }
        let [first, second] = &mut self.buffers;
        let (index, out) = match self.last {
            0 => (first, second),
            _ => (second, first),
        };
        out.to = out.from + room;
        let reply = compare(self.alter, change, index, out)?;
        as_plain(reply, out, &faults, &built).map_err(|text| format!("room {room}: {text}"))?;
        self.met.add(change, reply.refusal);
        if reply.refusal == 0 {
            out.to = out.from + reply.value as usize;
            self.last = 1 - self.last;
            self.plain = altered.expect("a change without a fault");
        }
        self.tells()
    }

    /// The last index tells the links of the plain set.
    fn tells(&self) -> Result<(), String> {
        let file = self.plain.file();
        let mut links = vec![0; file.len()];
        let reply = terminal::read(self.index(), &mut links);
        match reply.refusal == 0 && links == file {
            true => Ok(()),
            false => Err("the last index tells other links than the plain set".to_string()),
        }
    }
}
