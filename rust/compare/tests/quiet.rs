//! What a settled controller costs (document 02, 5). In random runs of both units, half of them with the automatic choice, the
//! second walker finds the quiet stretches.
//! Over each of them the exits in the proved unit's answers are as many as the different paths touched that were not held at
//! its start, and what is held after it is what was held and what was touched. Wrong figures and wrong conditions are tried on
//! the same runs, and each must be seen to be wrong.
//! TIMES sets how many times as many runs there are; `-- --nocapture` shows how often each thing happened.

use std::collections::BTreeSet;

use compare::{answer, memory_before, open};
use walker::events::Events;
use walker::machine::{Access, Word};
use walker::numbers::{different_proper_prefixes, frame_of, word_in_frame};
use walker::quiet::{once_translated, part, End, Part, Stretch};
use walker::random::{quiet_run, run, Random, Run, Sizes};
use walker::{Answer, Call, Unit};

const CALLS: usize = 1000;

/// A stretch of fewer granted requests is checked, but not counted.
const LEAST: u64 = 2;

/// A call of a run and the proved unit's answer, with the walker as it was before it.
struct Met<'a> {
    seed: u64,
    number: usize,
    walker: &'a Unit,
    call: &'a Call,
    said: Answer,
    part: Result<Part, End>,
    /// That of a load or store that was not refused, may it stand in a stretch or not.
    path: Option<Vec<u64>>,
}

impl<'a> Met<'a> {
    fn new(seed: u64, number: usize, walker: &'a Unit, call: &'a Call, said: Answer) -> Met<'a> {
        let part = part(walker, call, &said);
        let mut met = Met { seed, number, walker, call, said, part, path: None };
        met.path = met.address().and_then(|address| walker.path_of(address));
        met
    }

    /// The address of a load or store that was not refused.
    fn address(&self) -> Option<u64> {
        match (self.call, self.said) {
            (_, Answer::No(_)) => None,
            (Call::Load { address, .. } | Call::Store { address, .. }, _) => Some(*address),
            _ => None,
        }
    }

    /// The level of the large page that it went to, if it did.
    fn large_level(&self) -> Option<u32> {
        let walk = self.walker.machine().plain_walk(self.address()?, Access::Load);
        walk.large_level()
    }

    fn is_device_store(&self) -> bool {
        matches!(self.call, Call::DeviceStore { .. })
    }

    /// The exits that are paid: a forecast only says what its list would cost.
    fn paid(&self) -> u64 {
        if matches!(self.call, Call::Forecast { .. }) {
            0
        } else {
            self.said.counts().1
        }
    }
}

// Stretches by the paper.

/// A stretch that goes on, and what it had so far.
struct Live {
    seed: u64,
    first: usize,
    stretch: Stretch,
    /// The exits in the proved unit's answers.
    paid: u64,
    /// The granted requests at each depth, and their exits.
    granted: [u64; 6],
    paid_at: [u64; 6],
    /// The requests whose path was not held at the start, each of them, and their pages. Where a page is a large one, those as a
    /// whole, and the paths that the marks alone would give.
    touches: u64,
    pages: BTreeSet<u64>,
    wholes: BTreeSet<Vec<u64>>,
    by_marks: BTreeSet<Vec<u64>>,
    /// The exits that forecasts said.
    forecast: u64,
    /// The shadow tables in use at the start.
    tables: u64,
    /// What else it had, each once.
    others: BTreeSet<&'static str>,
}

impl Live {
    fn start(met: &Met) -> Live {
        Live {
            seed: met.seed,
            first: met.number,
            stretch: Stretch::start(met.walker),
            paid: 0,
            granted: [0; 6],
            paid_at: [0; 6],
            touches: 0,
            pages: BTreeSet::new(),
            wholes: BTreeSet::new(),
            by_marks: BTreeSet::new(),
            forecast: 0,
            tables: met.walker.book().tables_in_use(),
            others: BTreeSet::new(),
        }
    }

    fn place(&self) -> String {
        format!("seed {}, the stretch from call {} on, {:?}", self.seed, self.first, self.stretch)
    }

    /// Takes the call, if it may stand in the stretch. Up to each of its calls it is a stretch too, and costs its figure.
    fn take(&mut self, met: &Met) -> Result<(), End> {
        let part = met.part.clone()?;
        let different = self.stretch.touched.len();
        self.stretch.take(&part)?;
        self.paid += met.paid();
        let Met { number, call, said, .. } = met;
        assert_eq!(
            self.paid,
            self.stretch.figure(),
            "{}: exits up to call {number}: {call:?} => {said:?}",
            self.place()
        );
        match part {
            Part::Request { path } => self.note_request(met, path, self.stretch.touched.len() > different),
            Part::Nothing => self.note_nothing(met),
        }
        Ok(())
    }

    fn note_request(&mut self, met: &Met, path: Option<Vec<u64>>, is_new: bool) {
        let depth = path.as_ref().map_or(5, |path| 4 - path.len());
        self.granted[depth] += 1;
        self.paid_at[depth] += met.paid();
        self.others.extend(matches!(met.call, Call::Store { .. }).then_some("a store"));
        let large = met.large_level();
        self.others.extend(large.map(|level| large_name(level, depth == 0)));
        let Some(path) = path else { return };
        self.others.extend((!is_new).then_some("a path touched twice"));
        if self.stretch.held.contains(&path) {
            self.others.insert("a path touched that was held at the start");
        } else {
            self.touches += 1;
            self.pages.extend(met.address().map(frame_of));
            let above =
                large.filter(|_| depth == 0).map_or(path.len(), |level| path.len() - level as usize + 1);
            self.wholes.insert(path[..above].to_vec());
            let book = met.walker.book();
            self.by_marks.extend(met.address().and_then(|address| book.path(address, book.depth(address))));
        }
    }

    fn note_nothing(&mut self, met: &Met) {
        let refused = matches!(met.said, Answer::No(_));
        self.others.extend(refused.then_some("a refused call"));
        self.others.insert(match met.call {
            Call::Load { .. } | Call::Store { .. } => "a refused load or store",
            Call::DeviceStore { .. } => "a refused device store",
            Call::Root { .. } | Call::Map { .. } | Call::Unmap { .. } => "a refused root load, map or unmap",
            Call::SetMark { .. } | Call::ClearMark { .. } => "a refused mark change",
            Call::Forecast { .. } if refused => "a refused forecast",
            Call::Forecast { .. } => "a forecast",
        });
        self.forecast += met.said.counts().1;
    }

    /// The stretch is over. What the walker holds is what was held and what was touched, and the proved record has as many
    /// tables in use as these paths need.
    fn close(self, walker: &Unit, used: u64, why: &str, events: &mut Events) {
        let held: Vec<&Vec<u64>> = walker.book().held.keys().collect();
        let expected = self.stretch.held_after();
        assert_eq!(held, expected.iter().collect::<Vec<_>>(), "{}: held after it", self.place());
        assert_eq!(used, self.stretch.tables(), "{}: tables in use after it", self.place());
        if self.granted.iter().sum::<u64>() >= LEAST {
            self.note(walker, why, events);
        }
    }

    fn note(&self, walker: &Unit, why: &str, events: &mut Events) {
        events.add("stretches");
        events.add(format!("of {} requests", length_class(self.granted.iter().sum())));
        events.add(format!("at the cost of {}", COSTS[self.paid.min(2) as usize]));
        events.add(format!("ended by {why}"));
        for depth in 0..=5 {
            events.add_if(self.granted[depth] > 0, &format!("with a request at depth {depth}"));
            events.add_many(format!("exits paid at depth {depth}"), self.paid_at[depth] as usize);
        }
        for what in self.others.iter().copied().chain(self.others_at_end(walker)) {
            events.add(format!("with {what}"));
        }
        for (name, figure) in self.wrong_figures() {
            events.add_if(figure != self.paid, &format!("wrong figure: {name}"));
        }
    }

    fn others_at_end(&self, walker: &Unit) -> Vec<&'static str> {
        let depths = self.granted.iter().filter(|many| **many > 0).count();
        let met = [
            (depths > 1, "requests at several depths"),
            (!self.stretch.held.is_subset(&self.stretch.touched), "a path held at the start and not touched"),
            (self.stretch.tables() == walker.machine().shadow_frames, "every shadow table in use"),
        ];
        met.into_iter().filter(|(is_met, _)| *is_met).map(|(_, what)| what).collect()
    }

    /// What it would cost if the paper said something else.
    fn wrong_figures(&self) -> [(&'static str, u64); 8] {
        [
            ("each touch counts", self.touches),
            ("depth 5 has a path", self.paid + (self.granted[5] > 0) as u64),
            ("paths held at the start count", self.stretch.touched.len() as u64),
            ("pages count", self.pages.len() as u64),
            ("new tables count", self.stretch.tables() - self.tables),
            ("forecasts are paid", self.paid + self.forecast),
            ("a large page has one path", self.wholes.len() as u64),
            ("the marks alone give the path", self.by_marks.len() as u64),
        ]
    }
}

fn large_name(level: u32, depth_0: bool) -> &'static str {
    match (level, depth_0) {
        (2, true) => "a 2 MiB page at depth 0",
        (2, false) => "a 2 MiB page read directly",
        (_, true) => "a 1 GiB page at depth 0",
        (_, false) => "a 1 GiB page read directly",
    }
}

const COSTS: [&str; 3] = ["no exit", "one exit", "more exits"];
const LENGTH_CLASSES: [&str; 5] = ["2 or 3", "4 to 7", "8 to 15", "16 to 31", "32 or more"];

fn length_class(requests: u64) -> &'static str {
    LENGTH_CLASSES[(requests.ilog2() as usize - 1).min(4)]
}

fn why(end: End) -> &'static str {
    match end {
        End::Fault => "a fault",
        End::OtherCall => "another call",
        End::WatchedFrame => "a store into a watched frame",
        End::NoRoom => "a path that does not fit",
    }
}

// Stretches by wrong conditions.

/// Whether a condition lets the call into the stretch.
type Lets = fn(&Stretch, &Met) -> bool;

/// Each is the paper's but in one point.
const WRONG_CONDITIONS: [(&str, Lets); 8] = [
    ("the tables already held do not count", |stretch, met| {
        met.part.is_ok() && tables(stretch.touched.iter(), met) <= room(met)
    }),
    ("each path fits by itself with those already held", |stretch, met| {
        met.part.is_ok() && tables(stretch.held.iter(), met) <= room(met)
    }),
    ("one table more than S", |stretch, met| {
        met.part.is_ok() && tables(stretch.held.union(&stretch.touched), met) <= room(met) + 1
    }),
    ("watched is judged before the store", |stretch, met| {
        fits(stretch, met) && (met.part.is_ok() || into_watched(met) && !watched_before(met))
    }),
    ("a store that drops no path is into no watched frame", |stretch, met| {
        fits(stretch, met) && (met.part.is_ok() || into_watched(met) && !drops(met))
    }),
    ("faults are let in", |stretch, met| {
        fits(stretch, met) && (met.part.is_ok() || met.part == Err(End::Fault))
    }),
    ("device stores are let in", |stretch, met| {
        fits(stretch, met) && (met.part.is_ok() || met.is_device_store())
    }),
    ("root loads, maps, unmaps and mark changes are let in", |stretch, met| {
        let change = met.part == Err(End::OtherCall) && !met.is_device_store();
        fits(stretch, met) && (met.part.is_ok() || change)
    }),
];

/// The shadow tables of some paths and the call's.
fn tables<'a>(paths: impl Iterator<Item = &'a Vec<u64>>, met: &'a Met) -> u64 {
    different_proper_prefixes(paths.chain(&met.path))
}

fn room(met: &Met) -> u64 {
    met.walker.machine().shadow_frames
}

fn fits(stretch: &Stretch, met: &Met) -> bool {
    tables(stretch.held.union(&stretch.touched), met) <= room(met)
}

fn into_watched(met: &Met) -> bool {
    met.part == Err(End::WatchedFrame)
}

fn watched_before(met: &Met) -> bool {
    let walk = met.address().map(|address| met.walker.machine().plain_walk(address, Access::Store));
    let page = walk.and_then(|walk| walk.end.ok());
    page.is_some_and(|page| met.walker.book().watched(page.host))
}

/// Whether some path held once the store is translated read the word stored to.
fn drops(met: &Met) -> bool {
    let Some(address) = met.address() else { return false };
    let walk = met.walker.machine().plain_walk(address, Access::Store);
    let Ok(page) = walk.end else { return false };
    let word = Word { frame: page.host, index: word_in_frame(address) };
    !once_translated(met.walker, address, &walk).drop_by_word(word).is_empty()
}

/// A stretch that a wrong condition lets go on.
struct Loose {
    condition: usize,
    stretch: Stretch,
    paid: u64,
    granted: u64,
}

impl Loose {
    fn start(walker: &Unit, condition: usize) -> Loose {
        Loose { condition, stretch: Stretch::start(walker), paid: 0, granted: 0 }
    }

    /// Takes the call, if the condition lets it in.
    fn take(&mut self, met: &Met) -> bool {
        // A path touched before takes no more room, by whichever condition.
        let again = met.path.as_ref().is_none_or(|path| self.stretch.touched.contains(path));
        let lets = WRONG_CONDITIONS[self.condition].1;
        let taken = met.part.is_ok() && again || lets(&self.stretch, met);
        if taken {
            self.stretch.touched.extend(met.path.clone());
            self.paid += met.paid();
            self.granted += matches!(met.said, Answer::Value { .. } | Answer::Done { .. }) as u64;
        }
        taken
    }

    /// The condition is seen to be wrong where the exits are not the figure.
    fn close(self, events: &mut Events) {
        let differs = self.granted >= LEAST && self.paid != self.stretch.figure();
        events.add_if(differs, &format!("wrong condition: {}", WRONG_CONDITIONS[self.condition].0));
    }
}

// Runs.

/// The stretches that go on, and what those before them had.
#[derive(Default)]
struct Stretches {
    live: Vec<Live>,
    loose: Vec<Loose>,
    events: Events,
}

impl Stretches {
    /// The next call; before it the proved record had so many shadow tables in use. A stretch starts where another ended,
    /// and by chance at any call, so that often some of its paths are held.
    fn meet(&mut self, met: &Met, used: u64, chance: bool) {
        for mut live in std::mem::take(&mut self.live) {
            match live.take(met) {
                Ok(()) => self.live.push(live),
                Err(end) => live.close(met.walker, used, why(end), &mut self.events),
            }
        }
        for mut loose in std::mem::take(&mut self.loose) {
            if loose.take(met) {
                self.loose.push(loose);
            } else {
                loose.close(&mut self.events);
            }
        }
        if self.live.is_empty() || chance {
            self.start(met);
        }
    }

    /// A stretch by the paper, and one by each wrong condition, from this call on.
    fn start(&mut self, met: &Met) {
        let mut live = Live::start(met);
        if live.take(met).is_ok() {
            self.live.push(live);
        }
        for condition in 0..WRONG_CONDITIONS.len() {
            let mut loose = Loose::start(met.walker, condition);
            if loose.take(met) {
                self.loose.push(loose);
            }
        }
    }

    fn end(mut self, walker: &Unit, used: u64) -> Events {
        for live in self.live {
            live.close(walker, used, "the end of the run", &mut self.events);
        }
        self.loose.into_iter().for_each(|loose| loose.close(&mut self.events));
        self.events
    }
}

fn stretches_of(seed: u64, run: &Run) -> Events {
    let mut memory = memory_before(run, &mut Random::new(!seed));
    let mut record = open(run, &mut memory);
    let mut walker = run.open().unwrap();
    let mut chances = Random::new(seed ^ 0x7175_6965);
    let mut stretches = Stretches::default();
    for (number, call) in run.calls.iter().enumerate() {
        let used = record.head.shadow.used;
        let said = answer(&mut record, &mut memory, call);
        stretches.meet(&Met::new(seed, number, &walker, call, said), used, chances.one_in(6));
        assert_eq!(said, walker.call(call), "seed {seed}, {:?}, call {number}: {call:?}", run.sizes);
    }
    stretches.end(&walker, record.head.shadow.used)
}

/// What the runs of each kind of memory must have had, and how often at least.
fn events() -> Vec<(u64, String)> {
    let mut names = vec![(1000, "stretches".into())];
    let mut add = |least: u64, name: String| names.push((least, name));
    LENGTH_CLASSES.iter().for_each(|class| add(100, format!("of {class} requests")));
    COSTS.iter().for_each(|cost| add(1000, format!("at the cost of {cost}")));
    for end in [End::Fault, End::OtherCall, End::WatchedFrame, End::NoRoom] {
        add(100, format!("ended by {}", why(end)));
    }
    (0..=5).for_each(|depth| add(1000, format!("with a request at depth {depth}")));
    (0..=4).for_each(|depth| add(100, format!("exits paid at depth {depth}")));
    add(0, "exits paid at depth 5".into());
    let others = [
        "requests at several depths",
        "a store",
        "a path touched twice",
        "a path touched that was held at the start",
        "a path held at the start and not touched",
        "every shadow table in use",
        "a forecast",
        "a refused call",
        "a refused load or store",
        "a refused device store",
        "a refused root load, map or unmap",
        "a refused mark change",
    ];
    others.iter().for_each(|what| add(100, format!("with {what}")));
    for level in [2, 3] {
        for depth_0 in [true, false] {
            add(100, format!("with {}", large_name(level, depth_0)));
        }
    }
    add(1, "with a refused forecast".into());
    let figures = [
        "each touch counts",
        "depth 5 has a path",
        "paths held at the start count",
        "pages count",
        "new tables count",
        "forecasts are paid",
    ];
    figures.iter().for_each(|name| add(100, format!("wrong figure: {name}")));
    // One guest in four has large pages.
    let of_large = ["a large page has one path", "the marks alone give the path"];
    of_large.iter().for_each(|name| add(10, format!("wrong figure: {name}")));
    WRONG_CONDITIONS.iter().for_each(|(name, _)| add(10, format!("wrong condition: {name}")));
    names
}

/// So many runs, of which two in three are quiet ones.
fn all_quiet(first_seed: u64, runs: u64, sizes: fn(&mut Random) -> Sizes) {
    let mut all = Events::default();
    let times: u64 = std::env::var("TIMES").map_or(1, |text| text.parse().expect("TIMES is a number"));
    for seed in first_seed..first_seed + runs * times {
        let sizes = sizes(&mut Random::new(seed.wrapping_add(1)));
        let sort = if seed % 3 == 0 { run } else { quiet_run };
        all.join(&stretches_of(seed, &sort(seed, sizes, CALLS)));
    }
    for (least, event) in events() {
        println!("{:>9} {event}", all.count(&event));
        assert!(all.count(&event) >= least, "{} times: {event}", all.count(&event));
    }
}

#[test]
fn the_job_programs_sizes() {
    all_quiet(0, 240, |_| Sizes { levels: 4, frames: 16, h: 4, s: 4 });
}

#[test]
fn small_memories() {
    all_quiet(10_000, 240, |random| Sizes::small(random, 4));
}

#[test]
fn hundreds_of_frames() {
    all_quiet(20_000, 240, |random| Sizes::large(random, 4));
}

#[test]
fn few_shadow_tables() {
    all_quiet(30_000, 180, |random| Sizes { levels: 4, frames: 80, h: 12, s: 4 + random.below(4) });
}
