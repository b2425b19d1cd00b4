//! Changes with a planted fault, made of the library's. The comparison must find each one, in single changes and, but for those of bytes that are no index, in rows.

use crate::changed::{Alter, Changer, Plain, Row};
use crate::changes::{draw, rows};
use crate::known::card_b;
use crate::lent::RULES;
use crate::limits::flat;
use crate::planted::{flip, headed, WRONG};
use reference::card::{links_file, Card};
use reference::index::Index;
use reference::random::Random;
use reference::records::two;
use terminal::Change::{self, PutIn, Withdraw};
use terminal::{alter, Reply, Slice, INDEX_MAX};

pub fn reply(refusal: u32, value: usize) -> Reply {
    Reply {
        refusal,
        value: value as u32,
        second: 0,
        third: 0,
    }
}

fn ends(change: Change) -> (u32, u32) {
    let (PutIn(ends) | Withdraw(ends)) = change;
    ends
}

fn with_ends(change: Change, ends: (u32, u32)) -> Change {
    match change {
        PutIn(_) => PutIn(ends),
        Withdraw(_) => Withdraw(ends),
    }
}

unsafe fn bytes<'a>((at, length): Slice) -> &'a mut [u8] {
    std::slice::from_raw_parts_mut(at, length)
}

/// The reply where the second buffer is long enough.
unsafe fn with_room(change: Change, index: Slice) -> Reply {
    let mut room = [0; INDEX_MAX];
    alter(change, index, (room.as_mut_ptr(), room.len()))
}

/// Writes these bytes as a result.
unsafe fn write(result: &[u8], out: Slice) -> Reply {
    match bytes(out).get_mut(..result.len()) {
        Some(front) => {
            front.copy_from_slice(result);
            reply(0, result.len())
        }
        None => reply(12, 0),
    }
}

/// Whether the call is one of those that put in.
fn puts_in(change: Change) -> bool {
    matches!(change, PutIn(_))
}

fn links_in(index: &[u8]) -> usize {
    two(index, 3).into()
}

/// Where the record of the link is in an index.
fn record_of(index: &[u8], (a, b): (u32, u32)) -> usize {
    let pair = |at: usize| (two(index, at + 1).into(), two(index, at + 3).into());
    let mut records = (0..links_in(index)).map(|link| 5 + 8 * link);
    { records.find(|&at| pair(at) == (a.min(b), a.max(b))) }.expect("the link put in")
}

/// Changes what a done change wrote.
unsafe fn then(change: Change, index: Slice, out: Slice, wrong: impl FnOnce(&mut [u8])) -> Reply {
    let reply = alter(change, index, out);
    if reply.refusal == 0 {
        wrong(&mut bytes(out)[..reply.value as usize]);
    }
    reply
}

unsafe fn put_at_the_end(change: Change, index: Slice, out: Slice) -> Reply {
    then(change, index, out, |written| {
        if puts_in(change) {
            let (at, end) = (record_of(written, ends(change)), 5 + 8 * links_in(written));
            written[at..end].rotate_left(8);
        }
    })
}

unsafe fn higher_first(change: Change, index: Slice, out: Slice) -> Reply {
    then(change, index, out, |written| {
        if puts_in(change) {
            let at = record_of(written, ends(change));
            written[at + 1..at + 5].rotate_left(2);
        }
    })
}

unsafe fn one_account_less(change: Change, index: Slice, out: Slice) -> Reply {
    then(change, index, out, |written| {
        if !puts_in(change) {
            let n = two(written, 1) - 1;
            written[1..3].copy_from_slice(&n.to_be_bytes());
        }
    })
}

unsafe fn last_byte(change: Change, index: Slice, out: Slice) -> Reply {
    then(change, index, out, |written| {
        flip(&written[written.len() - 1])
    })
}

unsafe fn old_index_back(change: Change, index: Slice, out: Slice) -> Reply {
    match with_room(change, index).refusal {
        0 => write(bytes(index), out),
        _ => alter(change, index, out),
    }
}

/// The links of another set in place of the altered ones.
unsafe fn altered_otherwise(
    change: Change,
    index: Slice,
    out: Slice,
    wrong: impl FnOnce(&mut Plain),
) -> Reply {
    let mut room = [0; INDEX_MAX];
    let done = alter(change, index, (room.as_mut_ptr(), room.len()));
    if done.refusal != 0 {
        return alter(change, index, out);
    }
    let mut file = [0; INDEX_MAX];
    let read = terminal::read(&room[..done.value as usize], &mut file);
    let file = &file[..read.value as usize];
    let mut plain = Plain::of(&Card::read(RULES, file).expect("a links file"));
    wrong(&mut plain);
    write(&plain.built(), out)
}

unsafe fn neighbour_withdrawn(change: Change, index: Slice, out: Slice) -> Reply {
    altered_otherwise(change, index, out, |plain| {
        let (a, b) = ends(change);
        let pair = (a.min(b), a.max(b));
        let next = plain.pairs.range(pair..).next().copied();
        if let (false, Some(next)) = (puts_in(change), next) {
            plain.pairs.remove(&next);
            plain.pairs.insert(pair);
        }
    })
}

unsafe fn last_link_pushed_out(change: Change, index: Slice, out: Slice) -> Reply {
    altered_otherwise(change, index, out, |plain| {
        if puts_in(change) {
            plain.pairs.pop_last();
        }
    })
}

unsafe fn one_account_more(change: Change, index: Slice, out: Slice) -> Reply {
    altered_otherwise(change, index, out, |plain| {
        if puts_in(change) {
            plain.accounts = (plain.accounts + 1).min(1_024);
        }
    })
}

unsafe fn accounts_cut(change: Change, index: Slice, out: Slice) -> Reply {
    let (a, b) = ends(change);
    alter(with_ends(change, (a & 0xFFFF, b & 0xFFFF)), index, out)
}

unsafe fn one_order_only(change: Change, index: Slice, out: Slice) -> Reply {
    let (a, b) = ends(change);
    match with_room(change, index).refusal {
        0 if a > b && !puts_in(change) => reply(11, 0),
        _ => alter(change, index, out),
    }
}

unsafe fn there_in_one_order_only(change: Change, index: Slice, out: Slice) -> Reply {
    let (a, b) = ends(change);
    match with_room(change, index).refusal {
        14 if a > b => write(bytes(index), out),
        _ => alter(change, index, out),
    }
}

/// One refusal for another, where both faults are there.
unsafe fn instead(
    change: Change,
    index: Slice,
    out: Slice,
    [right, wrong]: [u32; 2],
    also: bool,
) -> Reply {
    match with_room(change, index).refusal == right && also {
        true => reply(wrong, 0),
        false => alter(change, index, out),
    }
}

unsafe fn full_before_there(change: Change, index: Slice, out: Slice) -> Reply {
    let full = bytes(index).len() > 5 && links_in(bytes(index)) == 2_048;
    instead(change, index, out, [14, 3], full)
}

unsafe fn full_before_equal(change: Change, index: Slice, out: Slice) -> Reply {
    let full = bytes(index).len() > 5 && links_in(bytes(index)) == 2_048;
    instead(change, index, out, [5, 3], full)
}

unsafe fn full_one_early(change: Change, index: Slice, out: Slice) -> Reply {
    let full = bytes(index).len() > 5 && links_in(bytes(index)) == 2_047;
    instead(change, index, out, [0, 3], full && puts_in(change))
}

unsafe fn short_before_full(change: Change, index: Slice, out: Slice) -> Reply {
    instead(change, index, out, [3, 12], out.1 < index.1)
}

unsafe fn short_before_there(change: Change, index: Slice, out: Slice) -> Reply {
    instead(change, index, out, [14, 12], out.1 < index.1)
}

unsafe fn short_before_no_link(change: Change, index: Slice, out: Slice) -> Reply {
    instead(change, index, out, [11, 12], out.1 == 0)
}

unsafe fn short_before_no_index(change: Change, index: Slice, out: Slice) -> Reply {
    instead(change, index, out, [7, 12], out.1 == 0)
}

unsafe fn no_link_for_outside(change: Change, index: Slice, out: Slice) -> Reply {
    instead(change, index, out, [9, 11], !puts_in(change))
}

unsafe fn equal_before_outside(change: Change, index: Slice, out: Slice) -> Reply {
    let (a, b) = ends(change);
    instead(change, index, out, [9, 5], a == b && puts_in(change))
}

unsafe fn equal_for_no_link(change: Change, index: Slice, out: Slice) -> Reply {
    let (a, b) = ends(change);
    instead(change, index, out, [11, 5], a == b)
}

unsafe fn outside_before_no_index(change: Change, index: Slice, out: Slice) -> Reply {
    let n = if index.1 > 2 { two(bytes(index), 1) } else { 0 };
    let (a, b) = ends(change);
    instead(change, index, out, [7, 9], a.max(b) >= n.into())
}

unsafe fn equal_before_no_index(change: Change, index: Slice, out: Slice) -> Reply {
    let (a, b) = ends(change);
    instead(change, index, out, [7, 5], a == b && puts_in(change))
}

unsafe fn exact_is_12(change: Change, index: Slice, out: Slice) -> Reply {
    let needed = with_room(change, index).value as usize;
    instead(change, index, out, [0, 12], out.1 == needed)
}

unsafe fn old_length_needed(change: Change, index: Slice, out: Slice) -> Reply {
    instead(change, index, out, [0, 12], out.1 < index.1)
}

unsafe fn place_of_the_link(change: Change, index: Slice, out: Slice) -> Reply {
    let given = alter(change, index, out);
    match given.refusal {
        5 | 14 => reply(given.refusal, 5),
        _ => given,
    }
}

unsafe fn other_value(change: Change, index: Slice, out: Slice) -> Reply {
    let reply = alter(change, index, out);
    let value = match reply.refusal {
        0 => index.1 as u32,
        _ => reply.value,
    };
    Reply { value, ..reply }
}

unsafe fn second_number(change: Change, index: Slice, out: Slice) -> Reply {
    let second = 1;
    Reply {
        second,
        ..alter(change, index, out)
    }
}

unsafe fn refused_and_written(change: Change, index: Slice, out: Slice) -> Reply {
    let reply = alter(change, index, out);
    if reply.refusal != 0 && out.1 > 0 {
        flip(out.0);
    }
    reply
}

unsafe fn begun_when_short(change: Change, index: Slice, out: Slice) -> Reply {
    let reply = alter(change, index, out);
    if reply.refusal == 12 && out.1 > 5 {
        out.0.copy_from_nonoverlapping(index.0, 5);
    }
    reply
}

unsafe fn after_index(change: Change, index: Slice, out: Slice) -> Reply {
    let reply = alter(change, index, out);
    if reply.refusal == 0 && (reply.value as usize) < out.1 {
        flip(out.0.add(reply.value as usize));
    }
    reply
}

unsafe fn after_buffer(change: Change, index: Slice, out: Slice) -> Reply {
    flip(out.0.add(out.1));
    alter(change, index, out)
}

unsafe fn before_buffer(change: Change, index: Slice, out: Slice) -> Reply {
    flip(out.0.sub(1));
    alter(change, index, out)
}

unsafe fn changed_index(change: Change, index: Slice, out: Slice) -> Reply {
    let reply = alter(change, index, out);
    flip(index.0);
    reply
}

unsafe fn changed_after_the_old(change: Change, index: Slice, out: Slice) -> Reply {
    let reply = alter(change, index, out);
    flip(index.0.add(index.1));
    reply
}

unsafe fn kind_1_taken(change: Change, index: Slice, out: Slice) -> Reply {
    let mut index = headed(7, index.0, index.1);
    alter(change, (index.as_mut_ptr(), index.len()), out)
}

unsafe fn kind_1_written(change: Change, index: Slice, out: Slice) -> Reply {
    then(change, index, out, |written| written[0] = 1)
}

/// A wrong index of the altered links.
unsafe fn wrong_index<const AT: usize>(change: Change, index: Slice, out: Slice) -> Reply {
    let mut room = [0; INDEX_MAX];
    let done = alter(change, index, (room.as_mut_ptr(), room.len()));
    if done.refusal != 0 {
        return alter(change, index, out);
    }
    let mut altered = Index::read(RULES, &room[..done.value as usize]).expect("an index");
    WRONG[AT].1(&mut altered);
    write(&altered.to_bytes(RULES), out)
}

/// Each fault, and whether a row meets it: the bytes given there are always an index.
const FAULTS: [(&str, Alter, bool); 45] = [
    (WRONG[0].0, wrong_index::<0>, true),
    (WRONG[1].0, wrong_index::<1>, true),
    (WRONG[2].0, wrong_index::<2>, true),
    (WRONG[3].0, wrong_index::<3>, true),
    (WRONG[4].0, wrong_index::<4>, true),
    (WRONG[5].0, wrong_index::<5>, true),
    (WRONG[6].0, wrong_index::<6>, true),
    ("an index of kind 1 altered", kind_1_taken, false),
    ("kind 1 written", kind_1_written, true),
    ("a link put in at the end", put_at_the_end, true),
    ("the higher account first", higher_first, true),
    ("an account less", one_account_less, true),
    ("an account more", one_account_more, true),
    ("the last byte", last_byte, true),
    ("the old index written back", old_index_back, true),
    ("the neighbour withdrawn", neighbour_withdrawn, true),
    ("the last link pushed out", last_link_pushed_out, true),
    ("accounts cut to two bytes", accounts_cut, true),
    ("withdrawn in one order only", one_order_only, true),
    ("14 in one order only", there_in_one_order_only, true),
    ("3 before 14", full_before_there, true),
    ("3 before 5", full_before_equal, true),
    ("3 at 2,047 links", full_one_early, true),
    ("12 before 3", short_before_full, true),
    ("12 before 14", short_before_there, true),
    ("12 before 11", short_before_no_link, true),
    ("12 before 7", short_before_no_index, false),
    ("11 for 9", no_link_for_outside, true),
    ("5 before 9", equal_before_outside, true),
    ("5 for 11", equal_for_no_link, true),
    ("9 before 7", outside_before_no_index, false),
    ("5 before 7", equal_before_no_index, false),
    ("12 at the exact length", exact_is_12, true),
    ("12 below the old length", old_length_needed, true),
    ("a place", place_of_the_link, true),
    ("the old length for a value", other_value, true),
    ("a second number", second_number, true),
    (
        "a refusal that touched the buffer",
        refused_and_written,
        true,
    ),
    ("a head written before 12", begun_when_short, true),
    ("a byte after the index changed", after_index, true),
    ("a byte after the buffer changed", after_buffer, true),
    ("a byte before the buffer changed", before_buffer, true),
    ("a byte of the old index changed", changed_index, true),
    (
        "a byte after the old index changed",
        changed_after_the_old,
        true,
    ),
    ("nothing done", |_, _, _| reply(0, 0), true),
];

/// So many single changes find every fault.
const CHANGES: usize = 2_000;

/// On card B with lone links, one in eight each on its index damaged, on that index under kind 1, on a card of 2,047 links, on one of 2,048.
fn found_by_one(alter: Alter) -> bool {
    let plain = |accounts, links: &[(u16, u16)]| {
        let file = links_file(accounts, links);
        Plain::of(&Card::read(RULES, &file).expect("a good links file"))
    };
    let small = plain(9, &[&card_b()[..], &[(1, 7), (7, 8)]].concat());
    let large = [2_047, 2_048].map(|links| plain(96, &flat(links)));
    let (mut damaged, mut turned) = (small.built(), small.built());
    damaged[10] += 1;
    turned[0] = 1;
    let [mut random, mut first, mut second, mut third, mut fourth, mut fifth] =
        [1, 2, 3, 4, 5, 6].map(Random::new);
    let mut on_small = Changer::new(alter, &mut first, &small, &small.built(), true);
    let mut on_damaged = Changer::new(alter, &mut second, &small, &damaged, false);
    let mut on_2047 = Changer::new(alter, &mut third, &large[0], &large[0].built(), true);
    let mut on_2048 = Changer::new(alter, &mut fourth, &large[1], &large[1].built(), true);
    let mut on_turned = Changer::new(alter, &mut fifth, &small, &turned, false);
    (0..CHANGES).any(|at| {
        let (plain, changer) = match at % 8 {
            4 => (&small, &mut on_turned),
            5 => (&large[0], &mut on_2047),
            6 => (&large[1], &mut on_2048),
            7 => (&small, &mut on_damaged),
            _ => (&small, &mut on_small),
        };
        changer.compare_all(draw(&mut random, plain)).is_err()
    })
}

/// In the rows that are run, the short ones first.
fn found_in_a_row(alter: Alter) -> bool {
    rows().into_iter().any(|long| {
        let [mut random, mut noise] = [1, 2].map(Random::new);
        let mut row = Row::new(alter, &mut noise, long.plain.clone());
        let mut sizes = vec![row.plain.pairs.len()];
        (0..long.steps).any(|_| {
            let change = long.next(&mut random, &row.plain, &sizes);
            let found = row.change(change).is_err();
            sizes.push(row.plain.pairs.len());
            found
        })
    })
}

/// Each fault with whether it was found.
pub fn found() -> Vec<(String, bool)> {
    let mut all = Vec::new();
    for (name, alter, in_rows) in FAULTS {
        all.push((format!("{name}, a change"), found_by_one(alter)));
        if in_rows {
            all.push((format!("{name}, in a row"), found_in_a_row(alter)));
        }
    }
    all
}
