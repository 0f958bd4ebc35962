//! A guest that rewrites its page tables, with the automatic choice off and on: the same values, fewer exits. The second walker
//! says the same.

use compare::rewrites::{run, served, sum, Costs, Habit};
use walker::book::Kind;
use walker::random::Run;
use walker::Answer;

const ROUNDS: u64 = 10_000;

/// What the unit takes, and that the walker's answers are the same.
fn costs(run: &Run) -> (Vec<Answer>, Costs) {
    let (said, costs) = served(run);
    let mut walker = run.open().unwrap();
    let expected: Vec<Answer> = run.calls.iter().map(|call| walker.call(call)).collect();
    assert!(said == expected, "{:?}", run.sizes);
    let marks = walker.listed_marks().iter().filter(|listed| listed.kind == Kind::Automatic).count();
    assert_eq!((costs.references, costs.exits, costs.marks), (sum(&expected).0, sum(&expected).1, marks));
    (said, costs)
}

/// Costs with the choice off and on. All calls are granted, and with the same values.
fn off_and_on(tables: u64, uses: u64) -> [Costs; 2] {
    let habit = Habit { tables, uses };
    let [(off, without), (on, with)] = [false, true].map(|automatic| costs(&run(habit, ROUNDS, automatic)));
    let values = |said: &[Answer]| -> Vec<Option<u64>> {
        let value = |answer: &Answer| match *answer {
            Answer::Value { value, .. } => Some(value),
            Answer::Ok | Answer::Done { .. } => None,
            ref other => panic!("{other:?}"),
        };
        said.iter().map(value).collect()
    };
    assert!(values(&off) == values(&on));
    [without, with]
}

/// Without the choice each round costs an exit for the entry stored and one for its page. With it only the first rounds do, until
/// each table has its mark; then the guest's own table is read, for four references more.
#[test]
fn tables_written_often() {
    for (tables, uses) in [(1, 4), (4, 4), (12, 1)] {
        let [off, on] = off_and_on(tables, uses);
        assert!(off.exits >= 2 * ROUNDS - 16 * tables && off.marks == 0, "{off:?}");
        assert!(on.exits < 40 * tables && on.marks == tables as usize, "{on:?}");
        assert!(on.references > off.references, "{off:?}, {on:?}");
    }
}

/// So seldom that no three charges of a table are in the window together: all is as without the choice.
#[test]
fn tables_written_seldom() {
    let [off, on] = off_and_on(4, 16);
    assert!(off == on && on.marks == 0, "{off:?}, {on:?}");
}
