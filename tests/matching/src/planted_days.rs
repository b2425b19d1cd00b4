//! Trials with a planted fault, made of the library's. The comparison must find each one, and of the wrong days each is found from the records and bytes alone too.

use std::collections::BTreeSet;

use crate::days::{self, draw, Drawn, Lot};
use crate::known::index_of;
use crate::lent::RULES;
use crate::parties::{beside, clique, nested, pair, triangle, Party};
use crate::planted::{flip, headed};
use crate::planted_changes::reply;
use crate::tried::{is_right, read, to_bytes, Parties, Record, Trier, Try};
use reference::card::{links_file, Card};
use reference::index::Index;
use reference::random::Random;
use terminal::{
    try_on, Day, Reply, Slice, Trial, LIMIT_MAX, MARGIN, RECORD, RECORDS_MAX, STAKE_MAX,
};

unsafe fn bytes<'a>((at, length): Slice) -> &'a mut [u8] {
    std::slice::from_raw_parts_mut(at, length)
}

/// The reply where both buffers are long enough.
unsafe fn with_room(trial: Trial, day: &Day) -> Reply {
    let (mut taken, mut margins) = (vec![0; RECORDS_MAX], vec![0; MARGIN * 2_048]);
    let day = Day {
        taken: (taken.as_mut_ptr(), taken.len()),
        margins: (margins.as_mut_ptr(), margins.len()),
        ..*day
    };
    try_on(trial, &day)
}

/// The same day with other records.
unsafe fn with_records(trial: Trial, day: &Day, mut records: Vec<u8>) -> Reply {
    let records = (records.as_mut_ptr(), records.len());
    try_on(trial, &Day { records, ..*day })
}

// ---- wrong days ----

/// What a wrong day does.
#[derive(Clone, Copy, PartialEq, Eq)]
enum Wrong {
    SomeRoom,
    FirstGroupOnly,
    CountedInTheFirst,
    ExactlyK,
    AboveK,
    EveryStored,
    OwnLinks,
    RefusedCounted,
    RoomForOneMore,
    CutAtZero,
    CutAndForgotten,
    LaterGroupsOnly,
    LimitAdded,
    LimitForgets,
    LastFromStart,
    OpeningInMargin,
    OpeningForGroups,
    AlwaysAlone,
    NeverAlone,
    SharedAlone,
    AloneWritten,
    Falling,
    LowByteFirst,
    NoSign,
    FourBytes,
    LimitNotTaken,
    TakenAsStake,
}

use Wrong::*;

const WRONG: [(&str, Wrong); 27] = [
    ("taken if some group has room", SomeRoom),
    ("taken if the first group has room", FirstGroupOnly),
    ("a stake counted in the first group only", CountedInTheFirst),
    ("groups of strength exactly k", ExactlyK),
    ("the groups at k + 1", AboveK),
    ("every stored group from k up", EveryStored),
    ("accounts of nested links left out", OwnLinks),
    ("refused stakes counted", RefusedCounted),
    ("a margin of just the stake refused", RoomForOneMore),
    ("a margin cut off at 0", CutAtZero),
    ("a margin below 0 forgotten", CutAndForgotten),
    ("a new limit for groups met later only", LaterGroupsOnly),
    ("a new limit added", LimitAdded),
    ("a new limit that forgets the stakes", LimitForgets),
    ("the last limit from the start", LastFromStart),
    ("the opening limit in the closing margin", OpeningInMargin),
    (
        "a new limit for accounts in no group only",
        OpeningForGroups,
    ),
    ("an account in no group always taken", AlwaysAlone),
    ("an account in no group never taken", NeverAlone),
    ("one sum for all accounts in no group", SharedAlone),
    ("margins of accounts in no group", AloneWritten),
    ("margins by falling number", Falling),
    ("margins with the low byte first", LowByteFirst),
    ("a margin without its sign", NoSign),
    ("a sign in four bytes only", FourBytes),
    ("a new limit that is not taken", LimitNotTaken),
    ("the stake for the byte 1", TakenAsStake),
];

/// The bytes of a wrong day on an index, for a good trial.
fn wrong_day(index: &Index, wrong: Wrong, trial: Trial, records: &[Record]) -> [Vec<u8>; 2] {
    let k = trial.k as u16;
    let strength = |group: u16| index.groups[usize::from(group)].strength;
    let is_meant = |&group: &u16| match wrong {
        ExactlyK => strength(group) == k,
        AboveK => index.is_group_at(group, k + 1),
        EveryStored => strength(group) >= k,
        _ => index.is_group_at(group, k),
    };
    let groups: Vec<u16> = (0..index.groups.len() as u16).filter(is_meant).collect();
    let mut holding = vec![BTreeSet::new(); index.accounts.into()];
    for link in &index.links {
        for group in index.climb(link.group) {
            let own = link.group == Some(group);
            if let Ok(place) = groups.binary_search(&group) {
                if own || wrong != OwnLinks {
                    holding[usize::from(link.lower)].insert(place);
                    holding[usize::from(link.higher)].insert(place);
                }
            }
        }
    }
    let alone = |account: usize| match wrong {
        SharedAlone => groups.len(),
        _ => groups.len() + account,
    };
    let mut stakes = vec![0; groups.len() + holding.len()];
    let mut first_limit = vec![None; stakes.len()];
    let last = records.iter().rfind(|record| !record.is_bet());
    let opening = i64::from(trial.limit);
    let mut limit = match (wrong, last) {
        (LastFromStart, Some(last)) => last.amount.into(),
        _ => opening,
    };
    let mut taken = Vec::new();
    for record in records {
        let amount = i64::from(record.amount);
        if !record.is_bet() {
            limit = match wrong {
                LimitAdded => limit + amount,
                LastFromStart => limit,
                _ => amount,
            };
            if wrong == LimitForgets {
                stakes.fill(0);
            }
            if wrong == CutAndForgotten {
                stakes.iter_mut().for_each(|sum| *sum = limit.min(*sum));
            }
            taken.push(u8::from(wrong != LimitNotTaken));
            continue;
        }
        let account = record.account as usize;
        let mut of: Vec<usize> = holding[account].iter().copied().collect();
        let in_none = of.is_empty();
        if in_none {
            of.push(alone(account));
        }
        of.iter().for_each(|&at| {
            first_limit[at].get_or_insert(limit);
        });
        let has_room = |&at: &usize| {
            let limit = match wrong {
                LaterGroupsOnly => first_limit[at].expect("met"),
                OpeningForGroups if !in_none => opening,
                _ => limit,
            };
            limit - stakes[at] >= amount + i64::from(wrong == RoomForOneMore)
        };
        let take = match wrong {
            SomeRoom => of.iter().any(has_room),
            FirstGroupOnly => has_room(&of[0]),
            AlwaysAlone if in_none => true,
            NeverAlone if in_none => false,
            _ => of.iter().all(has_room),
        };
        if wrong == CountedInTheFirst {
            of.truncate(1);
        }
        if take || wrong == RefusedCounted {
            of.iter().for_each(|&at| stakes[at] += amount);
        }
        taken.push(match (take, wrong) {
            (true, TakenAsStake) => record.amount as u8,
            _ => take.into(),
        });
    }
    let limit_of = |at: usize| match wrong {
        OpeningInMargin | OpeningForGroups => opening,
        LaterGroupsOnly => first_limit[at].unwrap_or(limit),
        _ => limit,
    };
    let written = match wrong {
        AloneWritten => stakes.len(),
        _ => groups.len(),
    };
    let mut margins: Vec<i64> = (0..written).map(|at| limit_of(at) - stakes[at]).collect();
    if wrong == Falling {
        margins.reverse();
    }
    let bytes = |margin: &i64| match wrong {
        CutAtZero => margin.max(&0).to_be_bytes(),
        NoSign => margin.abs().to_be_bytes(),
        FourBytes => i64::from(*margin as u32).to_be_bytes(),
        LowByteFirst => margin.to_le_bytes(),
        _ => margin.to_be_bytes(),
    };
    [taken, margins.iter().flat_map(bytes).collect()]
}

unsafe fn wrong<const AT: usize>(trial: Trial, day: &Day) -> Reply {
    if with_room(trial, day).refusal != 0 {
        return try_on(trial, day);
    }
    let index = Index::read(RULES, bytes(day.index)).expect("an index");
    let [taken, margins] = wrong_day(&index, WRONG[AT].1, trial, &read(bytes(day.records)));
    let (to, wide) = (bytes(day.taken), bytes(day.margins));
    if to.len() < taken.len() || wide.len() < margins.len() {
        return reply(12, 0);
    }
    to[..taken.len()].copy_from_slice(&taken);
    wide[..margins.len()].copy_from_slice(&margins);
    reply(0, margins.len() / MARGIN)
}

const WRONG_DAYS: [Try; WRONG.len()] = [
    wrong::<0>,
    wrong::<1>,
    wrong::<2>,
    wrong::<3>,
    wrong::<4>,
    wrong::<5>,
    wrong::<6>,
    wrong::<7>,
    wrong::<8>,
    wrong::<9>,
    wrong::<10>,
    wrong::<11>,
    wrong::<12>,
    wrong::<13>,
    wrong::<14>,
    wrong::<15>,
    wrong::<16>,
    wrong::<17>,
    wrong::<18>,
    wrong::<19>,
    wrong::<20>,
    wrong::<21>,
    wrong::<22>,
    wrong::<23>,
    wrong::<24>,
    wrong::<25>,
    wrong::<26>,
];

// ---- refusals ----

/// One refusal for another, where both faults are there.
unsafe fn instead(trial: Trial, day: &Day, [right, wrong]: [u32; 2], also: bool) -> Reply {
    match with_room(trial, day).refusal == right && also {
        true => reply(wrong, 0),
        false => try_on(trial, day),
    }
}

/// Whether a buffer is short for the records and the groups at k; for bytes that are no index, and levels that there are not, whether both are empty.
unsafe fn is_short(trial: Trial, day: &Day) -> bool {
    let none = Day {
        records: (day.records.0, 0),
        ..*day
    };
    let trial = Trial { limit: 0, ..trial };
    let groups = with_room(trial, &none);
    let count = day.records.1 / RECORD;
    match groups.refusal {
        0 => day.taken.1 < count || day.margins.1 < MARGIN * groups.value as usize,
        _ => day.taken.1 < count,
    }
}

unsafe fn short_before<const NUMBER: u32>(trial: Trial, day: &Day) -> Reply {
    instead(trial, day, [NUMBER, 12], is_short(trial, day))
}

unsafe fn short_margins_before_outside(trial: Trial, day: &Day) -> Reply {
    let enough = day.taken.1 >= day.records.1 / RECORD;
    let short = enough && is_short(trial, day);
    instead(trial, day, [9, 12], short)
}

unsafe fn opening_before_too_many(trial: Trial, day: &Day) -> Reply {
    instead(trial, day, [16, 15], trial.limit > LIMIT_MAX)
}

unsafe fn opening_before_level(trial: Trial, day: &Day) -> Reply {
    instead(trial, day, [10, 15], trial.limit > LIMIT_MAX)
}

unsafe fn too_many_before_level(trial: Trial, day: &Day) -> Reply {
    instead(trial, day, [10, 16], day.records.1 / RECORD > RECORDS_MAX)
}

unsafe fn too_many_before_no_index(trial: Trial, day: &Day) -> Reply {
    instead(trial, day, [7, 16], day.records.1 / RECORD > RECORDS_MAX)
}

unsafe fn level_before_no_index(trial: Trial, day: &Day) -> Reply {
    instead(trial, day, [7, 10], !(2..=64).contains(&trial.k))
}

/// The accounts of the head.
unsafe fn accounts_in(day: &Day) -> u32 {
    match bytes(day.index) {
        [_, high, low, ..] => u32::from(*high) << 8 | u32::from(*low),
        _ => 0,
    }
}

unsafe fn outside(day: &Day) -> impl Fn(&Record) -> bool {
    let accounts = accounts_in(day);
    move |record| record.is_bet() && record.account >= accounts
}

fn is_out(record: &Record) -> bool {
    match record.is_bet() {
        true => record.amount == 0 || record.amount > STAKE_MAX,
        false => record.amount > LIMIT_MAX,
    }
}

unsafe fn outside_before_opening(trial: Trial, day: &Day) -> Reply {
    let met = read(bytes(day.records)).iter().any(outside(day));
    instead(trial, day, [15, 9], met && trial.limit > LIMIT_MAX)
}

unsafe fn amount_before_outside(trial: Trial, day: &Day) -> Reply {
    let (outside, records) = (outside(day), read(bytes(day.records)));
    let first = records.iter().find(|record| outside(record));
    instead(trial, day, [9, 15], first.is_some_and(is_out))
}

unsafe fn every_outside_first(trial: Trial, day: &Day) -> Reply {
    let met = read(bytes(day.records)).iter().any(outside(day));
    instead(trial, day, [15, 9], met && trial.limit <= LIMIT_MAX)
}

unsafe fn every_amount_first(trial: Trial, day: &Day) -> Reply {
    let met = read(bytes(day.records)).iter().any(is_out);
    instead(trial, day, [9, 15], met)
}

unsafe fn limit_of_no_account(trial: Trial, day: &Day) -> Reply {
    let accounts = accounts_in(day);
    let of = |record: &Record| !record.is_bet() && record.account >= accounts;
    let met = read(bytes(day.records)).iter().any(of);
    instead(trial, day, [0, 9], met)
}

unsafe fn place_of_the_record(trial: Trial, day: &Day) -> Reply {
    let given = try_on(trial, day);
    let at = read(bytes(day.records)).iter().position(outside(day));
    match (given.refusal, at) {
        (9, Some(at)) => reply(9, at * RECORD),
        _ => given,
    }
}

unsafe fn most_records_refused(trial: Trial, day: &Day) -> Reply {
    let most = day.records.1 / RECORD == RECORDS_MAX;
    instead(trial, day, [0, 16], most)
}

unsafe fn tail_for_16(trial: Trial, day: &Day) -> Reply {
    let most = day.records.1 > RECORD * RECORDS_MAX;
    instead(trial, day, [0, 16], most)
}

unsafe fn records_beyond_left_out(trial: Trial, day: &Day) -> Reply {
    let most = day.records.1.min(RECORD * RECORDS_MAX);
    let records = bytes(day.records)[..most].to_vec();
    with_records(trial, day, records)
}

unsafe fn level_1_taken(trial: Trial, day: &Day) -> Reply {
    let k = if trial.k == 1 { 2 } else { trial.k };
    try_on(Trial { k, ..trial }, day)
}

unsafe fn level_refused<const K: u32>(trial: Trial, day: &Day) -> Reply {
    instead(trial, day, [0, 10], trial.k == K)
}

unsafe fn level_cut(trial: Trial, day: &Day) -> Reply {
    let k = trial.k & 0xFF;
    try_on(Trial { k, ..trial }, day)
}

unsafe fn three_for_two(trial: Trial, day: &Day) -> Reply {
    let k = if trial.k == 2 { 3 } else { trial.k };
    try_on(Trial { k, ..trial }, day)
}

unsafe fn opening_cut(trial: Trial, day: &Day) -> Reply {
    let limit = trial.limit.min(LIMIT_MAX);
    try_on(Trial { limit, ..trial }, day)
}

unsafe fn greatest_opening_refused(trial: Trial, day: &Day) -> Reply {
    instead(trial, day, [0, 15], trial.limit == LIMIT_MAX)
}

unsafe fn opening_0_refused(trial: Trial, day: &Day) -> Reply {
    instead(trial, day, [0, 15], trial.limit == 0)
}

/// Refused by 15 if some record passes the test.
unsafe fn refused_if(trial: Trial, day: &Day, test: fn(&Record) -> bool) -> Reply {
    let met = read(bytes(day.records)).iter().any(test);
    instead(trial, day, [0, 15], met)
}

unsafe fn greatest_stake_refused(trial: Trial, day: &Day) -> Reply {
    refused_if(trial, day, |r| r.is_bet() && r.amount == STAKE_MAX)
}

unsafe fn greatest_limit_refused(trial: Trial, day: &Day) -> Reply {
    refused_if(trial, day, |r| !r.is_bet() && r.amount == LIMIT_MAX)
}

unsafe fn limit_0_refused(trial: Trial, day: &Day) -> Reply {
    refused_if(trial, day, |r| !r.is_bet() && r.amount == 0)
}

unsafe fn limit_as_a_stake(trial: Trial, day: &Day) -> Reply {
    refused_if(trial, day, |r| !r.is_bet() && r.amount > STAKE_MAX)
}

unsafe fn tail_refused(trial: Trial, day: &Day) -> Reply {
    instead(trial, day, [0, 15], day.records.1 % RECORD != 0)
}

unsafe fn short_margins_filled(trial: Trial, day: &Day) -> Reply {
    let mut room = vec![0; MARGIN * 2_048];
    let margins = (room.as_mut_ptr(), room.len());
    let given = try_on(trial, &Day { margins, ..*day });
    let fits = day.margins.1 / MARGIN;
    if given.refusal != 0 || given.value as usize <= fits {
        return try_on(trial, day);
    }
    bytes(day.margins)[..MARGIN * fits].copy_from_slice(&room[..MARGIN * fits]);
    reply(0, fits)
}

unsafe fn exact_taken_refused(trial: Trial, day: &Day) -> Reply {
    let count = day.records.1 / RECORD;
    instead(trial, day, [0, 12], count > 0 && day.taken.1 == count)
}

unsafe fn exact_margins_refused(trial: Trial, day: &Day) -> Reply {
    let needed = MARGIN * with_room(trial, day).value as usize;
    instead(trial, day, [0, 12], needed > 0 && day.margins.1 == needed)
}

unsafe fn bytes_for_records(trial: Trial, day: &Day) -> Reply {
    let short = day.taken.1 < day.records.1;
    instead(trial, day, [0, 12], short)
}

unsafe fn kind_1_taken(trial: Trial, day: &Day) -> Reply {
    let mut index = headed(7, day.index.0, day.index.1);
    let index = (index.as_mut_ptr(), index.len());
    try_on(trial, &Day { index, ..*day })
}

// ---- records ----

/// The same day with each record changed.
unsafe fn edited(trial: Trial, day: &Day, edit: fn(&mut Record)) -> Reply {
    let mut records = read(bytes(day.records));
    records.iter_mut().for_each(edit);
    with_records(trial, day, to_bytes(&records))
}

unsafe fn account_cut(trial: Trial, day: &Day) -> Reply {
    edited(trial, day, |record| record.account &= 0xFFFF)
}

unsafe fn amount_cut(trial: Trial, day: &Day) -> Reply {
    edited(trial, day, |record| record.amount &= 0xFFFF)
}

unsafe fn amount_of_31_bits(trial: Trial, day: &Day) -> Reply {
    edited(trial, day, |record| record.amount &= 0x7FFF_FFFF)
}

unsafe fn stake_0_taken(trial: Trial, day: &Day) -> Reply {
    edited(trial, day, |record| {
        if record.is_bet() {
            record.amount = record.amount.max(1);
        }
    })
}

unsafe fn stake_cut(trial: Trial, day: &Day) -> Reply {
    edited(trial, day, |record| {
        if record.is_bet() && record.amount == STAKE_MAX + 1 {
            record.amount = STAKE_MAX;
        }
    })
}

unsafe fn other_kinds_bets(trial: Trial, day: &Day) -> Reply {
    edited(trial, day, |record| {
        if record.kind > 1 {
            record.kind = 0;
        }
    })
}

unsafe fn even_kinds_bets(trial: Trial, day: &Day) -> Reply {
    edited(trial, day, |record| record.kind &= 1)
}

unsafe fn tail_filled(trial: Trial, day: &Day) -> Reply {
    let mut records = bytes(day.records).to_vec();
    records.resize(records.len().next_multiple_of(RECORD), 0);
    with_records(trial, day, records)
}

unsafe fn last_left_out(trial: Trial, day: &Day) -> Reply {
    let records = read(bytes(day.records));
    let less = records.len().saturating_sub(1);
    if with_room(trial, day).refusal != 15 {
        return try_on(trial, day);
    }
    with_records(trial, day, to_bytes(&records[..less]))
}

// ---- replies and memory ----

unsafe fn bytes_for_a_value(trial: Trial, day: &Day) -> Reply {
    let given = try_on(trial, day);
    let value = given.value * MARGIN as u32;
    Reply { value, ..given }
}

unsafe fn records_for_a_value(trial: Trial, day: &Day) -> Reply {
    let given = try_on(trial, day);
    match given.refusal {
        0 => reply(0, day.records.1 / RECORD),
        _ => given,
    }
}

unsafe fn second_number(trial: Trial, day: &Day) -> Reply {
    let second = (day.records.1 / RECORD) as u32;
    Reply {
        second,
        ..try_on(trial, day)
    }
}

unsafe fn third_number(trial: Trial, day: &Day) -> Reply {
    let third = 1;
    Reply {
        third,
        ..try_on(trial, day)
    }
}

unsafe fn after_taken(trial: Trial, day: &Day) -> Reply {
    let (given, count) = (try_on(trial, day), day.records.1 / RECORD);
    if given.refusal == 0 && count < day.taken.1 {
        flip(day.taken.0.add(count));
    }
    given
}

unsafe fn after_margins(trial: Trial, day: &Day) -> Reply {
    let given = try_on(trial, day);
    let written = MARGIN * given.value as usize;
    if given.refusal == 0 && written < day.margins.1 {
        flip(day.margins.0.add(written));
    }
    given
}

unsafe fn around<const SLICE: usize, const AFTER: bool>(trial: Trial, day: &Day) -> Reply {
    let given = try_on(trial, day);
    let (at, length) = [day.index, day.records, day.taken, day.margins][SLICE];
    flip(if AFTER { at.add(length) } else { at.sub(1) });
    given
}

unsafe fn changed<const SLICE: usize>(trial: Trial, day: &Day) -> Reply {
    let given = try_on(trial, day);
    let (at, length) = [day.index, day.records][SLICE];
    if length > 0 {
        flip(at);
    }
    given
}

/// A refusal by this number, or by any for 0, that has touched a buffer.
unsafe fn refused_and_written<const NUMBER: u32, const SLICE: usize>(
    trial: Trial,
    day: &Day,
) -> Reply {
    let given = try_on(trial, day);
    let (at, length) = [day.taken, day.margins][SLICE];
    let meant = given.refusal != 0 && [0, given.refusal].contains(&NUMBER);
    if meant && length > 0 {
        flip(at);
    }
    given
}

const FAULTS: [(&str, Try); 70] = [
    ("12 before 9", short_before::<9>),
    ("12 of the margins before 9", short_margins_before_outside),
    ("12 before 15", short_before::<15>),
    ("12 before 16", short_before::<16>),
    ("12 before 10", short_before::<10>),
    ("12 before 7", short_before::<7>),
    ("15 of the opening limit before 16", opening_before_too_many),
    ("15 of the opening limit before 10", opening_before_level),
    ("16 before 10", too_many_before_level),
    ("16 before 7", too_many_before_no_index),
    ("10 before 7", level_before_no_index),
    ("9 before 15 of the opening limit", outside_before_opening),
    ("15 before 9 in one record", amount_before_outside),
    ("9 of any record before 15", every_outside_first),
    ("15 of any record before 9", every_amount_first),
    ("9 of a new limit", limit_of_no_account),
    ("a place", place_of_the_record),
    ("4,096 records refused", most_records_refused),
    ("16 for a tail", tail_for_16),
    ("records beyond 4,096 left out", records_beyond_left_out),
    ("k = 1 taken", level_1_taken),
    ("k = 2 refused", level_refused::<2>),
    ("k = 64 refused", level_refused::<64>),
    ("k cut to a byte", level_cut),
    ("k = 2 taken for 3", three_for_two),
    ("an opening limit above the most taken", opening_cut),
    (
        "an opening limit of the most refused",
        greatest_opening_refused,
    ),
    ("an opening limit of 0 refused", opening_0_refused),
    ("a stake of the most refused", greatest_stake_refused),
    ("a new limit of the most refused", greatest_limit_refused),
    ("a new limit of 0 refused", limit_0_refused),
    ("a new limit held to a stake's range", limit_as_a_stake),
    ("a tail refused", tail_refused),
    ("margins that do not fit left out", short_margins_filled),
    ("12 for just as many bytes as records", exact_taken_refused),
    ("12 for margins of just the length", exact_margins_refused),
    (
        "a byte for each byte of records asked for",
        bytes_for_records,
    ),
    ("an index of kind 1 taken", kind_1_taken),
    ("accounts cut to two bytes", account_cut),
    ("amounts cut to two bytes", amount_cut),
    ("amounts cut to 31 bits", amount_of_31_bits),
    ("a stake of 0 taken", stake_0_taken),
    ("a stake of one more than the most taken", stake_cut),
    ("a kind above 1 for a bet", other_kinds_bets),
    ("an even kind for a bet", even_kinds_bets),
    ("a tail for a record", tail_filled),
    ("15 not given for the last record", last_left_out),
    ("bytes for a value", bytes_for_a_value),
    ("records for a value", records_for_a_value),
    ("a second number", second_number),
    ("a third number", third_number),
    ("a byte after the records' bytes changed", after_taken),
    ("a byte after the margins changed", after_margins),
    ("a byte before the index changed", around::<0, false>),
    ("a byte after the index changed", around::<0, true>),
    ("a byte before the records changed", around::<1, false>),
    ("a byte after the records changed", around::<1, true>),
    ("a byte before the first buffer changed", around::<2, false>),
    ("a byte after the first buffer changed", around::<2, true>),
    (
        "a byte before the second buffer changed",
        around::<3, false>,
    ),
    ("a byte after the second buffer changed", around::<3, true>),
    ("a byte of the index changed", changed::<0>),
    ("a byte of the records changed", changed::<1>),
    (
        "a refusal that touched the first buffer",
        refused_and_written::<0, 0>,
    ),
    (
        "a refusal that touched the second buffer",
        refused_and_written::<0, 1>,
    ),
    (
        "12 after the first buffer was written",
        refused_and_written::<12, 0>,
    ),
    (
        "12 after the second buffer was written",
        refused_and_written::<12, 1>,
    ),
    ("9 after bytes were written", refused_and_written::<9, 0>),
    ("15 after bytes were written", refused_and_written::<15, 0>),
    ("nothing done", |_, _| reply(0, 0)),
];

/// So many days find every fault.
const DAYS: usize = 400;

/// Groups of several strengths, in each other and beside each other, lone pairs, and accounts without a link.
fn card() -> (u16, Vec<(u16, u16)>) {
    let row = [pair(), triangle(), nested(6), clique(4), triangle(), pair()];
    let Party { accounts, links } = beside(&row);
    (accounts + 3, links)
}

/// By days drawn on that card and on its index under kind 1, then by what is gone through in order on card A, on its index and on a damaged one.
fn found_in_days(lots: &[Lot], try_on: Try) -> bool {
    let (accounts, links) = card();
    let index = index_of(&links_file(accounts, &links));
    let mut turned = index.clone();
    turned[0] = 1;
    let [mut random, mut first, mut second] = [1, 2, 3].map(Random::new);
    let mut on_index = Trier::new(try_on, &mut first, &index, accounts, None);
    let mut on_turned = Trier::new(try_on, &mut second, &turned, accounts, None);
    let drawn = (0..DAYS).any(|at| {
        let Drawn { trial, records } = draw(&mut random, accounts, &links, 40);
        let trier = if at % 8 == 7 {
            &mut on_turned
        } else {
            &mut on_index
        };
        trier.compare_all(trial, &records).is_err()
    });
    drawn
        || lots.iter().any(|lot| {
            let index = index_of(&links_file(lot.accounts, &lot.links));
            let mut damaged = index.clone();
            damaged[10] += 1;
            [index, damaged].iter().any(|index| {
                let mut noise = Random::new(4);
                let mut trier = Trier::new(try_on, &mut noise, index, lot.accounts, None);
                lot.days.iter().any(|(day, rooms)| {
                    let found = match rooms {
                        Some(rooms) => trier.one(day.trial, &day.records, *rooms).map(drop),
                        None => trier.compare_all(day.trial, &day.records),
                    };
                    found.is_err()
                })
            })
        })
}

/// By the records and bytes of good days alone, without the reference's.
fn found_in_bytes(wrong: Wrong) -> bool {
    let (accounts, links) = card();
    let card = Card::read(RULES, &links_file(accounts, &links)).expect("a good card");
    let index = reference::fast::index(RULES, &card);
    let parties = Parties::of(&card);
    let mut random = Random::new(5);
    let is_good = |trial: Trial, records: &[Record]| {
        let outside = |r: &Record| r.is_bet() && r.account >= accounts.into();
        (2..=64).contains(&trial.k)
            && trial.limit <= LIMIT_MAX
            && !records
                .iter()
                .any(|record| outside(record) || is_out(record))
    };
    (0..DAYS).any(|_| {
        let Drawn { trial, records } = draw(&mut random, accounts, &links, 40);
        let records = read(&records);
        if !is_good(trial, &records) {
            return false;
        }
        let [taken, margins] = wrong_day(&index, wrong, trial, &records);
        !is_right(&parties, trial, &records, &taken, &margins)
    })
}

/// Each fault with whether it was found.
pub fn found() -> Vec<(String, bool)> {
    let lots = days::of_small_cards();
    let wrong = WRONG.iter().map(|wrong| wrong.0).zip(WRONG_DAYS);
    let mut all: Vec<_> = { FAULTS.into_iter().chain(wrong) }
        .map(|(name, try_on)| (format!("{name}, a day"), found_in_days(&lots, try_on)))
        .collect();
    for (name, wrong) in WRONG {
        let found = found_in_bytes(wrong);
        all.push((format!("{name}, from the bytes alone"), found));
    }
    all
}
