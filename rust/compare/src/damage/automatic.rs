//! The automatic choice of a damaged record: how it is spoiled, which rules it breaks then, what a call may change of it, and
//! which of its words are nobody's.

use super::{count, count_if, Counts};
use crate::{is_set, listed_marks, window};
use cangrieb::{Record, Tally};
use std::collections::BTreeSet;
use walker::book::{Kind, ListedMark};
use walker::numbers::indexes;
use walker::random::Random;
use walker::{Answer, Call};

/// The bits of a ring's word that name a prefix: three indexes.
const PREFIX_BITS: u32 = 27;

/// The rules of the choice that a record breaks: it is refused with 3.
pub fn broken_rules(record: &Record) -> Vec<&'static str> {
    let Tally { on, charged, count, .. } = record.head.choice;
    let named = named_places(record);
    let (places, others): (Vec<u64>, Vec<u64>) = named.iter().partition(|place| **place < 64);
    let is_unset = |place: &u64| !is_set(record, *place as usize);
    let is_of_another_level = |place: &u64| record.place[*place as usize] & 7 != 1;
    let is_twice = |at: usize| named[..at].contains(&named[at]);
    let rules = [
        (on > 1, "a choice neither on nor off"),
        (on == 0 && charged != 0, "charges, the choice off"),
        (on == 0 && count != 0, "automatic marks, the choice off"),
        (count > 64, "more automatic marks than places"),
        (!others.is_empty(), "an automatic mark at no place"),
        (places.iter().any(is_unset), "an automatic mark that is not set"),
        (places.iter().any(is_of_another_level), "an automatic mark of another level"),
        ((1..named.len()).any(is_twice), "an automatic mark twice"),
    ];
    rules.iter().filter(|(is_broken, _)| *is_broken).map(|(_, name)| *name).collect()
}

/// The words of the order that count.
fn named_places(record: &Record) -> &[u64] {
    &record.order[..record.head.choice.count.min(64) as usize]
}

/// The record as if it had been opened with the choice off.
pub fn without_choice(record: &Record) -> Record {
    let mut other = *record;
    other.head.choice = Tally::default();
    other
}

// How it is spoiled.

/// The choice turned, or neither on nor off; other numbers of automatic marks, charges anywhere.
pub fn damage_tally(record: &mut Record, random: &mut Random) {
    let choice = &mut record.head.choice;
    match random.below(8) {
        0 => choice.on = 2 + random.below(3),
        1 => choice.on ^= 1 << random.below(64),
        2 => choice.on ^= 1,
        3 => choice.count = random.pick(&[64, 65, 66, 1 << 32, u64::MAX]),
        4 => choice.count = choice.count.wrapping_add(1 + random.below(3)),
        5 => choice.count = random.below(choice.count.min(64) + 1),
        6 => choice.charged = random.word() & random.word(),
        _ => choice.at = random.word() >> random.below(64),
    }
}

/// Other places among those of the automatic marks, or another prefix charged. The operator's marks of level 1 may become
/// automatic, which breaks no rule.
pub fn damage_rows(record: &mut Record, random: &mut Random) {
    let named = named_places(record).to_vec();
    let some = random.below(named.len().max(1) as u64) as usize;
    match random.below(8) {
        0 => record.order[some] = random.below(64),
        1 => record.order[some] = random.pick(&[64, 65, 1 << 32, u64::MAX]),
        2 => record.order[some] = record.order[random.below(64) as usize],
        3 if !named.is_empty() => {
            let place = &mut record.place[(named[some] % 64) as usize];
            *place = *place & !7 | random.below(8);
        }
        4 if !named.is_empty() => record.head.set &= !(1 << (named[some] % 64)),
        5 => (0..64).for_each(|_| add_automatic_mark(record, random.below(64))),
        _ => (0..random.below(64)).for_each(|_| damage_ring(record, random)),
    }
}

/// The mark at that place, if it can be automatic and is not yet, is the last one set.
fn add_automatic_mark(record: &mut Record, place: u64) {
    let could_be = is_set(record, place as usize) && record.place[place as usize] & 7 == 1;
    let count = record.head.choice.count as usize;
    if record.head.choice.on == 1 && could_be && count < 64 && !named_places(record).contains(&place) {
        record.order[count] = place;
        record.head.choice.count += 1;
    }
}

/// A charge to any prefix, or to that of some mark of level 1.
fn damage_ring(record: &mut Record, random: &mut Random) {
    let key = record.place[random.below(64) as usize];
    record.ring[random.below(64) as usize] = if random.one_in(4) { random.word() } else { key >> 3 };
}

// What a call may change of it.

/// After a call that was not refused, on a record that broke no rule. It breaks none of the choice then, and no two marks are
/// alike.
pub fn check_changes(call: &Call, said: &Answer, before: &Record, after: &Record, counts: &mut Counts) {
    let (was, is) = (before.head.choice, after.head.choice);
    let shown = || format!("{call:?} => {said:?}: {was:?}, then {is:?}");
    assert!(is.on == was.on && broken_rules(after).is_empty(), "{}: {:?}", shown(), broken_rules(after));
    let keys: BTreeSet<u64> = (0..64).filter(|at| is_set(after, *at)).map(|at| after.place[at]).collect();
    assert_eq!(keys.len(), after.head.set.count_ones() as usize, "{}: two marks alike", shown());
    let charged = is.charged != requested(was) && matches!(call, Call::Store { .. });
    let moves = charged || matches!(call, Call::SetMark { .. } | Call::ClearMark { .. });
    let rows = |record: &Record| (record.head.set, record.head.choice.count, record.place, record.order);
    assert!(moves || rows(before) == rows(after), "{}: the marks", shown());
    if charged {
        assert!(was.on == 1 && is.charged == requested(was) + 1, "{}: the window", shown());
        let at = (was.at % 64) as usize;
        let others_stand = (0..64).all(|other| other == at || before.ring[other] == after.ring[other]);
        assert!(is.at == (at as u64 + 1) % 64 && others_stand, "{}: the ring", shown());
        count(counts, "choice: a charge".into());
    } else {
        let expected = match call {
            Call::Load { .. } | Call::Store { .. } => requested(was),
            Call::Root { .. } => 0,
            _ => was.charged,
        };
        let ring_stands = (was.at, before.ring) == (is.at, after.ring);
        assert!(is.charged == expected && ring_stands, "{}: the window", shown());
    }
    if moves {
        check_marks(call, before, after, counts);
    }
}

/// The window after a request that is charged to nobody.
fn requested(choice: Tally) -> u64 {
    choice.charged << choice.on
}

/// Which marks a store that is charged, or a mark that is set or cleared, may change.
fn check_marks(call: &Call, before: &Record, after: &Record, counts: &mut Counts) {
    let marks = |record: &Record| -> Vec<(Kind, Vec<u64>, u32)> {
        let listed = listed_marks(record).into_iter();
        listed.map(|ListedMark { mark, kind, .. }| (kind, mark.prefix, mark.level)).collect()
    };
    let (was, is) = (marks(before), marks(after));
    let gone: Vec<_> = was.iter().filter(|mark| !is.contains(mark)).collect();
    let new: Vec<_> = is.iter().filter(|mark| !was.contains(mark)).collect();
    let kinds = |marks: &[&(Kind, Vec<u64>, u32)]| -> Vec<Kind> { marks.iter().map(|mark| mark.0).collect() };
    let (operators, automatic) = ([Kind::Operator], [Kind::Automatic]);
    let taken_over = matches!((&gone[..], &new[..]), ([old], [new]) if (&old.1, old.2) == (&new.1, new.2));
    let room_made = kinds(&gone) == automatic && (taken_over || was.len() == 64);
    let may_be = match call {
        Call::Store { .. } => {
            let (set, cleared) = (kinds(&new) == automatic, !gone.is_empty());
            count_if(counts, set, "choice: an automatic mark set");
            count_if(counts, cleared, "choice: one cleared for a store");
            gone.is_empty() && new.is_empty() || set && !taken_over && (gone.is_empty() || room_made)
        }
        Call::SetMark { .. } => {
            count_if(counts, taken_over, "choice: an automatic mark taken over");
            count_if(counts, room_made && !taken_over, "choice: one cleared for the operator");
            kinds(&new) == operators && (gone.is_empty() || room_made)
        }
        _ => new.is_empty() && kinds(&gone) == operators,
    };
    assert!(may_be, "{call:?}: without {gone:?}, with {new:?}");
}

// What is listed.

/// The marks of a record that broke no rule are listed as its words say.
pub fn check_listed(record: &Record) {
    let window = window(record);
    let named = named_places(record);
    let set = (0..64).filter(|place| is_set(record, *place as usize));
    let expected = set.map(|place| {
        let (level, prefix) = (record.place[place as usize] & 7, record.place[place as usize] >> 3);
        let kind = if named.contains(&place) { Kind::Automatic } else { Kind::Operator };
        let indexes = indexes(prefix, 4u32.saturating_sub(level as u32));
        let charges = window.iter().flatten().filter(|charged| **charged == indexes).count();
        (level as u32, indexes, kind, charges)
    });
    let listed = listed_marks(record).into_iter();
    let said = listed.map(|ListedMark { mark, kind, charges }| (mark.level, mark.prefix, kind, charges));
    assert!(said.eq(expected), "{record:?}");
}

// What is nobody's.

/// The record with other words where they are nobody's: the ring's but for the prefixes that count, the order behind the
/// automatic marks, where the ring is written next but for its place in it.
pub fn with_noise(record: &Record, random: &mut Random) -> Record {
    let mut other = *record;
    let choice = &mut other.head.choice;
    let counted = choice.charged.count_ones() as u64;
    let at = choice.at;
    choice.at = at & 63 | random.word() << 6;
    for back in 1..=64 {
        let word = &mut other.ring[(at.wrapping_sub(back) & 63) as usize];
        let kept = if back <= counted { PREFIX_BITS } else { 0 };
        *word = *word & !(u64::MAX << kept) | random.word() << kept;
    }
    let end = named_places(record).len();
    other.order[end..].iter_mut().for_each(|word| *word = random.word());
    other
}

/// What counts in a record.
pub fn what_counts(record: &Record) -> (Record, Vec<Option<Vec<u64>>>) {
    let mut rest = *record;
    rest.head.choice.at = 0;
    rest.ring = [0; 64];
    let end = named_places(record).len();
    rest.order[end..].fill(0);
    (rest, window(record))
}
