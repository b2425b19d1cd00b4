//! Calls with a planted fault, made of the library's build and reading. The comparison must find each one.

use crate::known::index_of;
use crate::lent::{compare_all, Pair, BUILD, READ, RULES};
use crate::lone;
use reference::card::{links_file, Card};
use reference::fast;
use reference::index::{Index, StrongLink};
use reference::random::Random;
use reference::rules::Rules;
use terminal::{fe_build, fe_read, Call, Reply, INDEX_MAX};

/// Flips a bit of a byte that is not the call's to change.
pub unsafe fn flip(byte: *const u8) {
    *byte.cast_mut() ^= 1;
}

unsafe extern "C" fn before_buffer(l: *const u8, m: usize, i: *mut u8, n: usize) -> Reply {
    flip(i.sub(1));
    fe_build(l, m, i, n)
}

unsafe extern "C" fn after_buffer(l: *const u8, m: usize, i: *mut u8, n: usize) -> Reply {
    flip(i.add(n));
    fe_build(l, m, i, n)
}

unsafe extern "C" fn after_index(l: *const u8, m: usize, i: *mut u8, n: usize) -> Reply {
    let reply = fe_build(l, m, i, n);
    if reply.refusal == 0 && (reply.value as usize) < n {
        flip(i.add(reply.value as usize));
    }
    reply
}

unsafe extern "C" fn last_byte(l: *const u8, m: usize, i: *mut u8, n: usize) -> Reply {
    let reply = fe_build(l, m, i, n);
    if reply.refusal == 0 {
        flip(i.add(reply.value as usize - 1));
    }
    reply
}

unsafe extern "C" fn changed_when_refused(l: *const u8, m: usize, i: *mut u8, n: usize) -> Reply {
    let reply = fe_build(l, m, i, n);
    if reply.refusal != 0 && n > 0 {
        flip(i);
    }
    reply
}

unsafe extern "C" fn changed_links(l: *const u8, m: usize, i: *mut u8, n: usize) -> Reply {
    let reply = fe_build(l, m, i, n);
    flip(l);
    reply
}

unsafe extern "C" fn before_links(l: *const u8, m: usize, i: *mut u8, n: usize) -> Reply {
    flip(l.sub(1));
    fe_build(l, m, i, n)
}

unsafe extern "C" fn other_value(l: *const u8, m: usize, i: *mut u8, n: usize) -> Reply {
    let reply = fe_build(l, m, i, n);
    let value = reply.value + 1;
    Reply { value, ..reply }
}

unsafe extern "C" fn third_number(l: *const u8, m: usize, i: *mut u8, n: usize) -> Reply {
    let third = 1;
    Reply {
        third,
        ..fe_build(l, m, i, n)
    }
}

unsafe extern "C" fn exact_is_12(l: *const u8, m: usize, i: *mut u8, n: usize) -> Reply {
    let reply = fe_build(l, m, i, n);
    let exact = reply.refusal == 0 && reply.value as usize == n;
    Reply {
        refusal: if exact { 12 } else { reply.refusal },
        value: if exact { 0 } else { reply.value },
        ..reply
    }
}

/// The group of each link and the parent of each group by the new numbers; `kept` has the old ones in their new order, and what names another names none.
fn renumber(index: &mut Index, kept: &[usize]) {
    let number = |old: u16| kept.iter().position(|&group| group == usize::from(old));
    let new = |old: Option<u16>| old.and_then(number).map(|number| number as u16);
    index.groups = kept.iter().map(|&group| index.groups[group]).collect();
    index
        .groups
        .iter_mut()
        .for_each(|g| g.parent = new(g.parent));
    index.links.iter_mut().for_each(|l| l.group = new(l.group));
}

/// The numbers of the groups from 3 up, and of the lone links.
fn above_and_lone(index: &Index) -> [Vec<usize>; 2] {
    let all = 0..index.groups.len();
    let (above, lone) = all.partition(|&group| index.groups[group].strength > 2);
    [above, lone]
}

fn lone_left_out(index: &mut Index) {
    let [above, _] = above_and_lone(index);
    renumber(index, &above);
}

fn lone_numbered_first(index: &mut Index) {
    let [above, lone] = above_and_lone(index);
    renumber(index, &[lone, above].concat());
}

fn lone_backwards(index: &mut Index) {
    let [above, mut lone] = above_and_lone(index);
    lone.reverse();
    renumber(index, &[above, lone].concat());
}

fn with_a_parent(index: &mut Index) {
    let [above, lone] = above_and_lone(index);
    let parent = above.last().map(|&group| group as u16);
    lone.iter().for_each(|&at| index.groups[at].parent = parent);
}

fn lone_of_strength_3(index: &mut Index) {
    let [_, lone] = above_and_lone(index);
    lone.iter().for_each(|&at| index.groups[at].strength = 3);
}

/// Each lone link goes to the group of the first other link that it shares an account with and that passes the test.
fn lone_to_another(index: &mut Index, pass: fn(&StrongLink) -> bool) {
    for at in 0..index.links.len() {
        let StrongLink { lower, higher, .. } = index.links[at];
        let shares = |other: &&StrongLink| {
            let ends = [other.lower, other.higher];
            ends != [lower, higher] && (ends.contains(&lower) || ends.contains(&higher))
        };
        let first = index.links.iter().filter(shares).find(|other| pass(other));
        if let (2, Some(first)) = (index.links[at].strength, first) {
            index.links[at].group = first.group;
        }
    }
    let named = |&group: &usize| {
        let mut links = index.links.iter();
        links.any(|link| link.group == Some(group as u16))
    };
    let kept: Vec<_> = (0..index.groups.len()).filter(named).collect();
    renumber(index, &kept);
}

fn lone_together(index: &mut Index) {
    lone_to_another(index, |other| other.strength == 2);
}

fn lone_in_a_group_of_3(index: &mut Index) {
    lone_to_another(index, |other| other.strength > 2);
}

/// Wrong indexes of a card with lone links beside each other and beside a triangle.
pub const WRONG: [(&str, fn(&mut Index)); 7] = [
    ("lone links in no group", lone_left_out),
    (
        "lone links that share an account in one group",
        lone_together,
    ),
    ("a lone link in the group beside it", lone_in_a_group_of_3),
    ("a lone group with a parent", with_a_parent),
    ("a lone group of strength 3", lone_of_strength_3),
    ("lone groups before the others", lone_numbered_first),
    ("lone groups by falling link", lone_backwards),
];

/// Writes a result if there is room.
pub unsafe fn deliver(result: &[u8], i: *mut u8, n: usize) -> Reply {
    let (refusal, value) = match result.len() <= n {
        true => (0, result.len()),
        false => (12, 0),
    };
    i.copy_from_nonoverlapping(result.as_ptr(), value);
    Reply {
        refusal,
        value: value as u32,
        second: 0,
        third: 0,
    }
}

unsafe extern "C" fn wrong<const AT: usize>(l: *const u8, m: usize, i: *mut u8, n: usize) -> Reply {
    let mut room = [0; INDEX_MAX];
    let reply = fe_build(l, m, room.as_mut_ptr(), room.len());
    if reply.refusal != 0 {
        return reply;
    }
    let built = &room[..reply.value as usize];
    let mut index = Index::read(RULES, built).expect("an index, since it was built");
    WRONG[AT].1(&mut index);
    deliver(&index.to_bytes(RULES), i, n)
}

const WRONG_BUILDS: [Call; WRONG.len()] = [
    wrong::<0>, wrong::<1>, wrong::<2>, wrong::<3>, wrong::<4>, wrong::<5>, wrong::<6>,
];

unsafe extern "C" fn kind_1_written(l: *const u8, m: usize, i: *mut u8, n: usize) -> Reply {
    let reply = fe_build(l, m, i, n);
    if reply.refusal == 0 {
        *i = 1;
    }
    reply
}

/// The bytes under this kind of head, if they have the other.
pub unsafe fn headed(kind: u8, at: *const u8, length: usize) -> Vec<u8> {
    let mut bytes = std::slice::from_raw_parts(at, length).to_vec();
    if let Some(head @ (1 | 7)) = bytes.first_mut() {
        *head = kind;
    }
    bytes
}

unsafe extern "C" fn kind_7_built(l: *const u8, m: usize, i: *mut u8, n: usize) -> Reply {
    fe_build(headed(1, l, m).as_ptr(), m, i, n)
}

unsafe extern "C" fn kind_1_read(i: *const u8, m: usize, l: *mut u8, n: usize) -> Reply {
    fe_read(headed(7, i, m).as_ptr(), m, l, n)
}

unsafe extern "C" fn kind_7_read_back(i: *const u8, m: usize, l: *mut u8, n: usize) -> Reply {
    let reply = fe_read(i, m, l, n);
    if reply.refusal == 0 {
        *l = 7;
    }
    reply
}

/// An index without groups of lone links taken for the index.
unsafe extern "C" fn before_read(i: *const u8, m: usize, l: *mut u8, n: usize) -> Reply {
    match Index::read(BEFORE, &headed(1, i, m)) {
        Ok(index) => deliver(&index.card().to_links_file(), l, n),
        Err(_) => fe_read(i, m, l, n),
    }
}

/// The rules before lone links were groups.
const BEFORE: Rules = Rules { requests: 6 };

const BUILDS: [(&str, Call); 12] = [
    ("a byte before the buffer changed", before_buffer),
    ("a byte after the buffer changed", after_buffer),
    ("a byte after the index changed", after_index),
    ("the index's last byte", last_byte),
    ("the buffer changed by a refused call", changed_when_refused),
    ("a byte of the links changed", changed_links),
    ("a byte before the links changed", before_links),
    ("another value", other_value),
    ("a third number", third_number),
    ("12 at the exact length", exact_is_12),
    ("kind 1 written", kind_1_written),
    ("a links file of kind 7 built", kind_7_built),
];

const READINGS: [(&str, Call); 3] = [
    ("an index of kind 1 read", kind_1_read),
    ("a links file of kind 7 read back", kind_7_read_back),
    ("an index without lone groups read", before_read),
];

/// Each fault with whether it was found, and whether a wrong index was, judged from the links alone.
pub fn found() -> Vec<(String, bool)> {
    let links = [(0, 1), (0, 2), (2, 1), (3, 2), (3, 4)];
    let file = links_file(5, &links);
    let index = index_of(&file);
    let card = Card::read(RULES, &file).expect("a good links file");
    let before = fast::index(BEFORE, &card).to_bytes(BEFORE);
    let under = |kind: u8, bytes: &[u8]| [&[kind], &bytes[1..]].concat();
    let of_build = [file.clone(), under(7, &file)];
    let of_reading = [index.clone(), under(1, &index), under(7, &before), before];

    let found = |pair: Pair, inputs: &[Vec<u8>]| {
        { inputs.iter() }.any(|input| compare_all(&pair, &mut Random::new(1), input).is_err())
    };
    let mut all = Vec::new();
    let wrong = WRONG.iter().map(|wrong| wrong.0).zip(WRONG_BUILDS);
    for (name, library) in BUILDS.into_iter().chain(wrong) {
        let pair = Pair { library, ..BUILD };
        all.push((name.to_string(), found(pair, &of_build)));
    }
    for (name, library) in READINGS {
        let pair = Pair { library, ..READ };
        all.push((name.to_string(), found(pair, &of_reading)));
    }
    for (name, wrong) in WRONG {
        let mut index = Index::read(RULES, &index).expect("an index");
        wrong(&mut index);
        let written = lone::is_written(&index.to_bytes(RULES), &links);
        all.push((format!("{name}, from the links alone"), !written));
    }
    all
}
