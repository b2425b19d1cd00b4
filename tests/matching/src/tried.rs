//! A limit tried on a day by the library and by the reference, every difference between them, and the answered day judged from its records and bytes alone.

use std::collections::{BTreeMap, BTreeSet};

use crate::lent::{four_numbers, Lent, RULES};
use reference::bets::{from_c, Tried};
use reference::card::Card;
use reference::index::Index;
use reference::naive::Meaning;
use reference::random::Random;
use terminal::{Day, Reply, Trial, LIMIT_MAX, MARGIN, RECORD, RECORDS_MAX, STAKE_MAX};

/// A trial in the library, or in the library with a fault.
pub type Try = unsafe fn(Trial, &Day) -> Reply;

/// A record as its bytes say.
#[derive(Clone, Copy, Debug, PartialEq, Eq)]
pub struct Record {
    pub kind: u8,
    pub account: u32,
    pub amount: u32,
}

impl Record {
    pub fn bet(account: u32, stake: u32) -> Record {
        Record {
            kind: 0,
            account,
            amount: stake,
        }
    }

    pub fn limit(limit: u32) -> Record {
        Record {
            kind: 1,
            account: 0,
            amount: limit,
        }
    }

    pub fn is_bet(self) -> bool {
        self.kind == 0
    }

    /// Whether the amount is out of range.
    fn is_out(self) -> bool {
        match self.is_bet() {
            true => self.amount == 0 || self.amount > STAKE_MAX,
            false => self.amount > LIMIT_MAX,
        }
    }
}

pub fn to_bytes(records: &[Record]) -> Vec<u8> {
    let bytes = |record: &Record| {
        let [a, b] = [record.account, record.amount].map(u32::to_be_bytes);
        [&[record.kind][..], &a, &b].concat()
    };
    records.iter().flat_map(bytes).collect()
}

/// The whole records; a shorter tail is none.
pub fn read(bytes: &[u8]) -> Vec<Record> {
    let four = |at: &[u8]| at.iter().fold(0, |sum, &byte| sum << 8 | u32::from(byte));
    { bytes.chunks(RECORD) }
        .filter(|bytes| bytes.len() == RECORD)
        .map(|bytes| Record {
            kind: bytes[0],
            account: four(&bytes[1..5]),
            amount: four(&bytes[5..9]),
        })
        .collect()
}

/// One thing wrong with a trial. Records are checked one after the other, an account before an amount; all else stands in the order of the checks.
#[derive(Clone, Copy, Debug, PartialEq, Eq, PartialOrd, Ord)]
pub enum Fault {
    NoIndex,
    Level,
    TooMany,
    Opening,
    Outside,
    Amount,
    ShortTaken,
    ShortMargins,
}

use Fault::*;

impl Fault {
    fn number(self) -> u32 {
        match self {
            NoIndex => 7,
            Level => 10,
            TooMany => 16,
            Opening | Amount => 15,
            Outside => 9,
            ShortTaken | ShortMargins => 12,
        }
    }
}

/// Every two faults, the one that is to be told first; of two of records, in one record or in two.
const CONFLICTS: [(Fault, Fault); 29] = [
    (NoIndex, Level),
    (NoIndex, TooMany),
    (NoIndex, Opening),
    (NoIndex, Outside),
    (NoIndex, Amount),
    (NoIndex, ShortTaken),
    (NoIndex, ShortMargins),
    (Level, TooMany),
    (Level, Opening),
    (Level, Outside),
    (Level, Amount),
    (Level, ShortTaken),
    (Level, ShortMargins),
    (TooMany, Opening),
    (TooMany, Outside),
    (TooMany, Amount),
    (TooMany, ShortTaken),
    (TooMany, ShortMargins),
    (Opening, Outside),
    (Opening, Amount),
    (Opening, ShortTaken),
    (Opening, ShortMargins),
    (Outside, Amount),
    (Amount, Outside),
    (Outside, ShortTaken),
    (Outside, ShortMargins),
    (Amount, ShortTaken),
    (Amount, ShortMargins),
    (ShortTaken, ShortMargins),
];

/// What days there were. Each has to be met.
const KINDS: [&str; 29] = [
    "no record",
    "4,096 records",
    "4,097 records",
    "no group at k",
    "k = 1",
    "k = 2",
    "k = 64",
    "k = 65",
    "kind 1",
    "kind 2",
    "kind 255",
    "a new limit of an account that there is not",
    "a stake of 1",
    "a stake of 1,000,000",
    "a limit of 0",
    "a limit of 1,000,000,000",
    "a tail of 1 to 7 bytes",
    "a tail of 8 bytes",
    "buffers of just the length",
    "a bet taken of an account in several groups",
    "a bet for which one group has room and another not",
    "a bet that leaves a margin of 0",
    "a bet refused by one penny",
    "a bet refused where a margin is below zero",
    "a bet taken after one of the account was refused",
    "a bet taken of an account in no group",
    "a bet refused of an account in no group",
    "a lone pair with a bet taken at 2",
    "a closing margin below zero",
];

/// How often each reply, each two faults and each kind of day was met.
#[derive(Default)]
pub struct Met {
    /// 0 done, else refused by that number.
    replies: BTreeMap<u32, usize>,
    together: BTreeMap<(Fault, Fault), usize>,
    kinds: [usize; KINDS.len()],
    records: usize,
    judged: usize,
}

const REFUSALS: [u32; 6] = [7, 10, 16, 15, 9, 12];

impl Met {
    fn add(&mut self, name: &str) {
        let at = KINDS.iter().position(|kind| *kind == name);
        self.kinds[at.expect("a kind of day")] += 1;
    }

    pub fn merge(&mut self, other: &Met) {
        for (reply, count) in &other.replies {
            *self.replies.entry(*reply).or_default() += count;
        }
        for (pair, count) in &other.together {
            *self.together.entry(*pair).or_default() += count;
        }
        let kinds = self.kinds.iter_mut().zip(other.kinds);
        kinds.for_each(|(to, from)| *to += from);
        self.records += other.records;
        self.judged += other.judged;
    }

    /// Prints the counts. False if a reply, two faults together or a kind of day was never met.
    pub fn show(&self) -> bool {
        let reply = |number: u32| self.replies.get(&number).copied().unwrap_or(0);
        let made: usize = self.replies.values().sum();
        let refused: Vec<_> = { REFUSALS.iter() }
            .map(|&number| format!("by {number}: {}", reply(number)))
            .collect();
        let pair = |pair: &(Fault, Fault)| self.together.get(pair).copied().unwrap_or(0);
        let least = CONFLICTS.iter().map(pair).min().unwrap_or(0);
        println!(
            "limits tried: {made}, done: {}, {}; two faults together, {} ways: {least} or more; records of done days: {}, days judged from their bytes alone: {}",
            reply(0),
            refused.join(", "),
            CONFLICTS.len(),
            self.records,
            self.judged
        );
        for (name, count) in KINDS.iter().zip(self.kinds) {
            println!("  {name}: {count}");
        }
        let all = REFUSALS.iter().all(|&number| reply(number) > 0) && reply(0) > 0;
        all && least > 0 && self.judged > 0 && !self.kinds.contains(&0)
    }
}

/// The accounts of each group at each level, by group number, as the definitions say, followed word for word.
pub struct Parties {
    by_level: BTreeMap<u32, Vec<BTreeSet<u32>>>,
    /// The lone pairs, which are groups at 2.
    lone: BTreeSet<BTreeSet<u32>>,
}

impl Parties {
    pub fn of(card: &Card) -> Parties {
        let meaning = Meaning::of(RULES, card);
        let held = |links: &BTreeSet<usize>| -> BTreeSet<u32> {
            { meaning.accounts_of(links).into_iter() }
                .map(u32::from)
                .collect()
        };
        // The groups at k are stored ones, and stand by their numbers.
        let at = |(&k, sets): (&u16, &BTreeSet<BTreeSet<usize>>)| {
            let stored = { meaning.groups.iter() }.filter(|group| sets.contains(&group.links));
            (
                u32::from(k),
                stored.map(|group| held(&group.links)).collect(),
            )
        };
        let lone = meaning.groups.iter().filter(|group| group.strength == 2);
        Parties {
            by_level: meaning.groups_at.iter().map(at).collect(),
            lone: lone.map(|group| held(&group.links)).collect(),
        }
    }

    pub fn at(&self, k: u32) -> &[BTreeSet<u32>] {
        self.by_level.get(&k).map_or(&[], |sets| sets)
    }
}

/// A signed number of eight bytes.
pub fn margin(bytes: &[u8]) -> i64 {
    let (first, rest) = bytes.split_first().expect("eight bytes");
    let high = i64::from(*first as i8);
    rest.iter()
        .fold(high, |sum, &byte| sum * 256 + i64::from(byte))
}

/// Judges an answered day from its records and bytes: each closing margin is the last limit less the stakes of the taken bets of accounts that the group holds, and
/// each byte is as the margins before it say, which are counted from the bytes before it.
fn judge(
    met: &mut Met,
    parties: &Parties,
    trial: Trial,
    records: &[Record],
    taken: &[u8],
    margins: &[u8],
) -> Result<(), String> {
    let groups = parties.at(trial.k);
    if margins.len() != MARGIN * groups.len() {
        return Err(format!("margins of {} groups", margins.len() / MARGIN));
    }
    let is_bet = |at: &usize| records[*at].is_bet();
    let limit_at = |end: usize| {
        let last = (0..end).rev().find(|at| !is_bet(at));
        last.map_or(trial.limit, |at| records[at].amount).into()
    };
    // The stakes of the bets with byte 1, of accounts that pass.
    let stakes = |end: usize, of: &dyn Fn(u32) -> bool| -> i64 {
        { (0..end).filter(is_bet) }
            .filter(|&at| taken[at] == 1 && of(records[at].account))
            .map(|at| i64::from(records[at].amount))
            .sum()
    };
    let last: i64 = limit_at(records.len());
    for (group, (held, bytes)) in groups.iter().zip(margins.chunks(MARGIN)).enumerate() {
        let (told, right) = (
            margin(bytes),
            last - stakes(records.len(), &|a| held.contains(&a)),
        );
        if told != right {
            return Err(format!(
                "group {group} at {}: margin {told}, by the bytes {right}",
                trial.k
            ));
        }
        if told < 0 {
            met.add("a closing margin below zero");
        }
    }

    // By account that bets: the groups that hold it, and itself if there is none. The stakes are added up from the bytes as they come.
    let mut holding: BTreeMap<u32, Vec<usize>> = BTreeMap::new();
    let mut sums = vec![0; groups.len()];
    let mut alone: BTreeMap<u32, i64> = BTreeMap::new();
    let mut refused = BTreeSet::new();
    let mut limit = i64::from(trial.limit);
    for (at, record) in records.iter().enumerate() {
        if !record.is_bet() {
            limit = record.amount.into();
            if taken[at] != 1 {
                return Err(format!("byte {at} of a new limit is {}", taken[at]));
            }
            continue;
        }
        let (account, stake) = (record.account, i64::from(record.amount));
        let of = holding.entry(account).or_insert_with(|| {
            let all = 0..groups.len();
            all.filter(|&group| groups[group].contains(&account))
                .collect()
        });
        let left: Vec<i64> = match of.is_empty() {
            true => vec![limit - alone.get(&account).copied().unwrap_or(0)],
            false => of.iter().map(|&group| limit - sums[group]).collect(),
        };
        let right = left.iter().all(|&margin| margin >= stake);
        if taken[at] != u8::from(right) {
            return Err(format!(
                "byte {at} is {}, margins {left:?}, stake {stake}",
                taken[at]
            ));
        }
        let some = left.iter().any(|&margin| margin >= stake);
        let least = left.iter().min().copied().unwrap_or(0);
        for (holds, name) in [
            (
                right && of.len() > 1,
                "a bet taken of an account in several groups",
            ),
            (
                some && !right,
                "a bet for which one group has room and another not",
            ),
            (least == stake, "a bet that leaves a margin of 0"),
            (least == stake - 1, "a bet refused by one penny"),
            (least < 0, "a bet refused where a margin is below zero"),
            (
                right && refused.contains(&account),
                "a bet taken after one of the account was refused",
            ),
            (
                right && of.is_empty(),
                "a bet taken of an account in no group",
            ),
            (
                !right && of.is_empty(),
                "a bet refused of an account in no group",
            ),
            (
                right && { of.iter() }.any(|&group| parties.lone.contains(&groups[group])),
                "a lone pair with a bet taken at 2",
            ),
        ] {
            if holds {
                met.add(name);
            }
        }
        if !right {
            refused.insert(account);
            continue;
        }
        of.iter().for_each(|&group| sums[group] += stake);
        if of.is_empty() {
            *alone.entry(account).or_default() += stake;
        }
    }
    met.judged += 1;
    Ok(())
}

/// Whether a day is right, judged from its records and bytes alone.
pub fn is_right(
    parties: &Parties,
    trial: Trial,
    records: &[Record],
    taken: &[u8],
    margins: &[u8],
) -> bool {
    let met = &mut Met::default();
    judge(met, parties, trial, records, taken, margins).is_ok()
}

/// An index, or bytes that are none, lent for many days.
pub struct Trier<'a> {
    try_on: Try,
    noise: &'a mut Random,
    index: Lent,
    /// What the bytes say, if they are an index.
    read: Option<Index>,
    accounts: u32,
    /// What an answered day is judged by; nothing on cards that are large.
    parties: Option<&'a Parties>,
    pub met: Met,
}

impl<'a> Trier<'a> {
    /// Bytes that are no index have the accounts of the index that they were.
    pub fn new(
        try_on: Try,
        noise: &'a mut Random,
        index: &[u8],
        accounts: u16,
        parties: Option<&'a Parties>,
    ) -> Trier<'a> {
        let read = Index::read(RULES, index).ok();
        let accounts = read.as_ref().map_or(accounts, |index| index.accounts);
        Trier {
            try_on,
            index: Lent::holding(noise, index),
            noise,
            read,
            accounts: accounts.into(),
            parties,
            met: Met::default(),
        }
    }

    /// How many margins there are. A level that there is not has those of the nearest: only for telling which buffers would be short.
    fn groups(&self, k: u32) -> usize {
        self.read.as_ref().map_or(1, |index| {
            let all = 0..index.groups.len() as u16;
            let k = k.clamp(2, 64) as u16;
            all.filter(|&group| index.is_group_at(group, k)).count()
        })
    }

    /// All that is wrong with the records and numbers of a trial, in the order in which it is looked at.
    fn faults(&self, trial: Trial, records: &[Record]) -> Vec<Fault> {
        let head = [
            (self.read.is_none(), NoIndex),
            (!(2..=64).contains(&trial.k), Level),
            (records.len() > RECORDS_MAX, TooMany),
            (trial.limit > LIMIT_MAX, Opening),
        ];
        let of = |record: &Record| {
            let outside = record.is_bet() && record.account >= self.accounts;
            [(outside, Outside), (record.is_out(), Amount)]
        };
        let all = head.into_iter().chain(records.iter().flat_map(of));
        { all.filter(|&(is_met, _)| is_met) }
            .map(|(_, fault)| fault)
            .collect()
    }

    /// Tries the limit with rooms of these lengths. Gives the reply, or the first difference.
    fn compare(
        &mut self,
        trial: Trial,
        bytes: &[u8],
        [room, wide]: [usize; 2],
    ) -> Result<Reply, String> {
        let mut records = Lent::holding(self.noise, bytes);
        let [mut taken, mut margins] = [room, wide].map(|length| Lent::new(self.noise, length));
        let before = [self.index.bytes.clone(), records.bytes.clone()];
        let (mut right, mut wider) = (taken.bytes.clone(), margins.bytes.clone());
        let Trial { k, limit } = trial;
        let expected = from_c(
            RULES,
            &before[0][self.index.from..self.index.to],
            Tried { k, limit },
            bytes,
            &mut right[taken.from..taken.to],
            &mut wider[margins.from..margins.to],
            &mut [],
        );
        let day = Day {
            index: self.index.lend(),
            records: records.lend(),
            taken: taken.lend(),
            margins: margins.lend(),
        };
        let reply = unsafe { (self.try_on)(trial, &day) };
        let wanted = four_numbers(expected);
        if reply != wanted {
            return Err(format!("reply {reply:?}, should be {wanted:?}"));
        }
        for (name, lent, right) in [
            ("index", &self.index, &before[0]),
            ("records", &records, &before[1]),
            ("taken", &taken, &right),
            ("margins", &margins, &wider),
        ] {
            if let Some(text) = lent.differs(right) {
                return Err(format!("{name}: {text}"));
            }
        }
        if let (0, Some(parties)) = (reply.refusal, self.parties) {
            let records = read(bytes);
            let taken = &taken.bytes[taken.from..][..records.len()];
            let margins = &margins.bytes[margins.from..][..MARGIN * reply.value as usize];
            judge(&mut self.met, parties, trial, &records, taken, margins)?;
        }
        Ok(reply)
    }

    /// One day with rooms of these lengths, and the refusal as the faults say, each judged by itself.
    pub fn one(&mut self, trial: Trial, bytes: &[u8], rooms: [usize; 2]) -> Result<Reply, String> {
        let (records, groups) = (read(bytes), self.groups(trial.k));
        let mut faults = self.faults(trial, &records);
        let short = [
            (rooms[0] < records.len(), ShortTaken),
            (rooms[1] < MARGIN * groups, ShortMargins),
        ];
        faults.extend(
            { short.iter() }
                .filter(|short| short.0)
                .map(|short| short.1),
        );
        let reply = self
            .compare(trial, bytes, rooms)
            .map_err(|text| format!("rooms {rooms:?}: {text}"))?;
        let first = faults.first().map_or(0, |fault| fault.number());
        if reply.refusal != first {
            return Err(format!(
                "rooms {rooms:?}: refused by {}, its first fault is {first}",
                reply.refusal
            ));
        }
        *self.met.replies.entry(reply.refusal).or_default() += 1;
        faults.dedup();
        let pairs = { faults.iter().enumerate() }
            .flat_map(|(at, &first)| faults[at + 1..].iter().map(move |&second| (first, second)));
        for pair in pairs.collect::<BTreeSet<_>>() {
            *self.met.together.entry(pair).or_default() += 1;
        }
        self.met_day(trial, bytes, &records, reply, rooms);
        Ok(reply)
    }

    fn met_day(
        &mut self,
        trial: Trial,
        bytes: &[u8],
        records: &[Record],
        reply: Reply,
        rooms: [usize; 2],
    ) {
        let (done, by) = (reply.refusal == 0, reply.refusal);
        let of = |test: &dyn Fn(&Record) -> bool| done && records.iter().any(test);
        let limit = |amount: u32| {
            done && trial.limit == amount || of(&|r| !r.is_bet() && r.amount == amount)
        };
        let exact = [records.len(), MARGIN * reply.value as usize];
        let tail = if done { bytes.len() % RECORD } else { 0 };
        for (holds, name) in [
            (done && records.is_empty(), "no record"),
            (done && records.len() == RECORDS_MAX, "4,096 records"),
            (
                by == 16 && records.len() == RECORDS_MAX + 1,
                "4,097 records",
            ),
            (done && reply.value == 0, "no group at k"),
            (by == 10 && trial.k == 1, "k = 1"),
            (done && trial.k == 2, "k = 2"),
            (done && trial.k == 64, "k = 64"),
            (by == 10 && trial.k == 65, "k = 65"),
            (of(&|r| r.kind == 1), "kind 1"),
            (of(&|r| r.kind == 2), "kind 2"),
            (of(&|r| r.kind == 255), "kind 255"),
            (
                of(&|r| !r.is_bet() && r.account >= self.accounts),
                "a new limit of an account that there is not",
            ),
            (of(&|r| r.is_bet() && r.amount == 1), "a stake of 1"),
            (
                of(&|r| r.is_bet() && r.amount == STAKE_MAX),
                "a stake of 1,000,000",
            ),
            (limit(0), "a limit of 0"),
            (limit(LIMIT_MAX), "a limit of 1,000,000,000"),
            ((1..8).contains(&tail), "a tail of 1 to 7 bytes"),
            (tail == 8, "a tail of 8 bytes"),
            (done && rooms == exact, "buffers of just the length"),
        ] {
            if holds {
                self.met.add(name);
            }
        }
        if done {
            self.met.records += records.len();
        }
    }

    /// One day with rooms of every kind.
    pub fn compare_all(&mut self, trial: Trial, bytes: &[u8]) -> Result<(), String> {
        let count = bytes.len() / RECORD;
        let groups = self.groups(trial.k);
        // Enough for any card.
        let large = [count + 40, MARGIN * 2_048 + 40];
        let exact = [count, MARGIN * groups];
        let some = |random: &mut Random, less: usize| less - random.within(1..=less);
        let mut rooms = vec![large, exact];
        if count > 0 {
            rooms.push([count - 1, exact[1]]);
            rooms.push([some(self.noise, count), large[1]]);
        }
        if groups > 0 {
            rooms.push([exact[0], exact[1] - 1]);
            rooms.push([large[0], some(self.noise, exact[1])]);
        }
        if count > 0 && groups > 0 {
            rooms.push([0, 0]);
        }
        rooms.push([
            count + self.noise.within(1..=20),
            exact[1] + self.noise.within(1..=20),
        ]);
        for room in rooms {
            self.one(trial, bytes, room)?;
        }
        Ok(())
    }
}
