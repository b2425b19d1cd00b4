//! The seven questions from windows that there are and that there are not, with every fault beside it: 13 comes first, and 12 of the desk record last.

use crate::asked::With;
use crate::chains::Lot;
use crate::known::{card_b, index_of};
use reference::card::links_file;
use terminal::Question::{self, A, B, C, D, E, F, G};
use terminal::DESK;

const WINDOWS: [u32; 8] = [0, 1, 30, 31, 32, 33, 1 << 31, u32::MAX];
const LENGTHS: [usize; 6] = [0, 4, DESK - 1, DESK, DESK + 1, 200];

/// On card B: an answer, and refusals by 8, 9, 10 and 11 where there are such, alone and together. With the rooms around what is needed.
fn questions() -> Vec<(Question, [usize; 3])> {
    let few = [0, 3, 4];
    let mut all = vec![
        (A((2, 3)), few),
        (A((2, 7)), few),
        (A((0, 6)), few),
        (B((2, 3), (3, 4)), few),
        (B((2, 3), (3, 0x1_0004)), few),
        (B((0, 6), (3, 4)), few),
        (F((0, 1), 4), [0, 13, 14]),
        (F((0, 7), 1), [0, 13, 14]),
        (F((0, 6), 1), [0, 13, 14]),
        (F((0, 1), 65), [0, 13, 14]),
        (F((0, 6), 4), [0, 13, 14]),
        (G((0, 1), (5, 6), 3), [0, 31, 32]),
        (G((0, 1), (5, 7), 1), [0, 31, 32]),
        (G((0, 1), (0, 6), 1), [0, 31, 32]),
        (G((0, 1), (5, 6), 65), [0, 31, 32]),
        (G((0, 6), (5, 6), 3), [0, 31, 32]),
    ];
    for accounts in [
        vec![0, 3],
        vec![],
        vec![0; 34],
        vec![0, 7, 0],
        vec![0, 3, 0, 7],
    ] {
        all.push((C(accounts.clone(), 4), [0, 5, 6]));
        all.push((C(accounts.clone(), 1), [0, 5, 6]));
        all.push((D(accounts.clone()), [0, 5, 6]));
        all.push((E(accounts), [0, 7, 8]));
    }
    all
}

/// Each question from each window with each room and desk record, on the index and on a damaged one.
pub fn all() -> impl Iterator<Item = Lot> {
    let index = index_of(&links_file(7, &card_b()));
    let mut damaged = index.clone();
    damaged[10] += 1;
    [index, damaged].into_iter().map(|index| {
        let mut asked = Vec::new();
        for (question, rooms) in questions() {
            for (window, length) in { WINDOWS.iter() }.flat_map(|&w| LENGTHS.map(|l| (w, l))) {
                for room in rooms {
                    // At the top, below it, and where a carry goes through all bytes.
                    let tallies = [u32::MAX, 0xFF_FFFF, u32::MAX - 1, 0, 0xFFFF];
                    let tallies = tallies.iter().cycle().skip(asked.len() % 5);
                    let bytes = tallies.flat_map(|tally: &u32| tally.to_be_bytes());
                    let record = bytes.take(length).collect();
                    let with = With {
                        room,
                        window,
                        record,
                    };
                    asked.push((question.clone(), Some(with)));
                }
            }
        }
        Lot {
            name: "windows",
            index,
            asked,
        }
    })
}
