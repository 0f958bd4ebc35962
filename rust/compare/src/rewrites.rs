//! A guest that rewrites its page tables. It maps a page by an entry of level 1, uses it, and later maps another one there; the
//! tables are pages of its own by an entry of the root that names the root.

use crate::{answer, open};
use walker::numbers::{address_of, page_from, FRAME_WORDS};
use walker::random::{Run, Sizes};
use walker::{Answer, Call, Choices};

/// How the guest works: on so many tables in turn, with so many loads and stores of a page after each entry stored.
#[derive(Clone, Copy, Debug)]
pub struct Habit {
    pub tables: u64,
    pub uses: u64,
}

/// What the calls of a run cost, and how many automatic marks were set at its end.
#[derive(Clone, Copy, Debug, PartialEq, Eq)]
pub struct Costs {
    pub references: u64,
    pub exits: u64,
    pub marks: usize,
}

const LEVELS: u32 = 4;
/// The entries of each table that are used, and the pages that they name in turn.
const SLOTS: u64 = 8;
const PAGES: u64 = 61;
/// The root's entry that names the root.
const SELF: u64 = 510;

/// Guest frames: the root, the tables of levels 3 and 2, those of level 1, then the pages.
const ROOT: u64 = 0;
const FIRST_TABLE: u64 = 3;

/// A run of so many rounds: an entry is stored and its page used.
pub fn run(habit: Habit, rounds: u64, automatic: bool) -> Run {
    let first_page = FIRST_TABLE + habit.tables;
    let guest_frames = first_page + PAGES;
    let (h, s) = (8, 16 + habit.tables);
    let sizes = Sizes { levels: LEVELS, frames: h + s + guest_frames, h, s };
    let mut words = vec![0; (sizes.frames * FRAME_WORDS) as usize];
    let mut put = |table: u64, place: u64, named: u64| {
        words[((h + s + table) * FRAME_WORDS + place) as usize] = present(named);
    };
    put(ROOT, 0, 1);
    put(ROOT, SELF, ROOT);
    put(1, 0, 2);
    (0..habit.tables).for_each(|table| put(2, table, FIRST_TABLE + table));
    let mut calls: Vec<Call> =
        (0..guest_frames).map(|guest| Call::Map { guest, host: h + s + guest, writable: true }).collect();
    for round in 0..rounds {
        let (table, slot) = (round % habit.tables, round / habit.tables % SLOTS);
        let entry = address(&[SELF, 0, 0, table]) + 8 * slot;
        let page = address(&[0, 0, table, slot]) + 8 * (round % FRAME_WORDS);
        calls.push(Call::store_word(entry, present(first_page + round % PAGES)));
        calls.extend((0..habit.uses).map(|number| match number {
            0 => Call::store_word(page, round),
            _ => Call::load_word(page),
        }));
    }
    Run { sizes, choices: Choices { bits: false, automatic }, words, calls }
}

fn present(frame: u64) -> u64 {
    frame << 12 | 3
}

fn address(indexes: &[u64]) -> u64 {
    address_of(page_from(indexes, LEVELS), LEVELS)
}

/// The proved unit's answers to the calls of a run, and what they cost.
pub fn served(run: &Run) -> (Vec<Answer>, Costs) {
    let mut memory = run.words.clone();
    let mut unit = open(run, &mut memory);
    let said: Vec<Answer> = run.calls.iter().map(|call| answer(&mut unit, &mut memory, call)).collect();
    let (references, exits) = sum(&said);
    let marks = unit.marks().filter(|mark| mark.kind == cangrieb::Kind::Automatic).count();
    (said, Costs { references, exits, marks })
}

/// The references and exits of all answers.
pub fn sum(said: &[Answer]) -> (u64, u64) {
    let counts = said.iter().map(|answer| answer.counts());
    counts.fold((0, 0), |all, one| (all.0 + one.0, all.1 + one.1))
}
