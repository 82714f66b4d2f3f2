//! Agreement: both libraries on the same random files and lists of calls.

use crate::proved::{self, End, PlainCall, PlainSlot, Ran};
use crate::random::Random;
use crate::{calls, files};
use plain::{Call, Kind, Slot, SlotValue, Table, Tally, Workload};

/// What was compared, and where the two differ.
#[derive(Default)]
pub struct Tried {
    pub cases: usize,
    pub accepted: usize,
    /// How many files had each fault number.
    pub faults: [usize; 8],
    /// How many states' sets, and how many workloads written, were compared.
    pub sets: usize,
    pub writes: usize,
    /// How many answers of each kind were compared: began, released, worked, locked, waiting, gone, finished,
    /// collected, left, refused.
    pub answers: [usize; 10],
    pub differences: usize,
}

impl Tried {
    /// Counts a difference and tells the first few.
    pub fn differ(
        &mut self,
        what: &str,
        seed: u64,
        proved: impl std::fmt::Debug,
        plain: impl std::fmt::Debug,
    ) {
        self.differences += 1;
        if self.differences <= 5 {
            println!("difference: {what}, seed {seed}: proved {proved:?}, plain {plain:?}");
        }
    }
}

/// The file of a seed: of seven, two keep the rules, one has turned arcs, and four are damaged.
fn file_of(seed: u64) -> (Random, Vec<u8>) {
    let mut random = Random::new(seed);
    let mut parts = files::parts(&mut random);
    let file = match random.below(7) {
        0 | 1 => parts.bytes(),
        2 => {
            files::turn_arcs(&mut random, &mut parts);
            parts.bytes()
        }
        _ => files::damaged(&mut random, parts.bytes()),
    };
    (random, file)
}

/// What reading tells, in the form of the proved library.
fn plain_told(file: &[u8]) -> proved::FileTold {
    match plain::read(file) {
        Ok((workload, span)) => proved::FileTold {
            end: End {
                number: 0,
                place: span.place,
            },
            note_length: span.length,
            items: workload.item_count(),
            codes: workload.code_count(),
            types: workload.type_count(),
        },
        Err(fault) => proved::FileTold {
            end: End {
                number: fault.number,
                place: fault.place,
            },
            note_length: 0,
            items: 0,
            codes: 0,
            types: 0,
        },
    }
}

/// Looks up a type, and one past the last, with both.
fn type_agrees(tried: &mut Tried, seed: u64, file: &[u8], workload: &Workload, t: u8) {
    let plain = match workload.state_count(t) {
        Some(states) => (
            End::DONE,
            states,
            workload.local_root(t),
            workload.local_items(t),
        ),
        None => (End::NOTHING, 0, Some(0), Some(0)),
    };
    let (told, local) = proved::job_type(file, t);
    let told = (told.end, told.states, Some(told.root), Some(local));
    if told != plain {
        tried.differ("a type", seed, told, plain);
    }
}

/// Looks up the sets of a state, and of one past the last, with both.
fn state_agrees(tried: &mut Tried, seed: u64, file: &[u8], workload: &Workload, t: u8, s: u8) {
    let plain = match (workload.unreachable(t, s), workload.unlockable(t, s)) {
        (Some(never), Some(left)) => (End::DONE, never, left),
        _ => (End::NOTHING, 0, 0),
    };
    let told = proved::state(file, t, s);
    tried.sets += 1;
    if told != plain {
        tried.differ("a state's sets", seed, told, plain);
    }
}

/// Looks up all types and states, and a few that are not there, with both.
fn looks_agree(tried: &mut Tried, seed: u64, file: &[u8], workload: &Workload) {
    for t in 0..=workload.type_count() {
        type_agrees(tried, seed, file, workload, t);
        for s in 0..=workload.state_count(t).unwrap_or(0) {
            state_agrees(tried, seed, file, workload, t, s);
        }
    }
}

/// Writes the workload again with its own note or another, into a buffer of any length, with both.
fn writing_agrees(
    tried: &mut Tried,
    random: &mut Random,
    seed: u64,
    file: &[u8],
    workload: &Workload,
    own: &[u8],
) {
    let other: Vec<u8> = (0..*random.pick(&[0, 3, 999, 1_000, 1_001, 1_500]))
        .map(|_| random.byte())
        .collect();
    let note = if random.once_in(2) { own } else { &other };
    let whole = file.len() - own.len() + note.len();
    let length = match random.below(4) {
        0 => random.below(whole),
        1 => whole - 1,
        2 => whole,
        _ => whole + random.below(60),
    };
    let mut one: Vec<u8> = (0..length).map(|_| random.byte()).collect();
    let mut two = one.clone();
    let told = proved::write(file, note, &mut one);
    let plain = match plain::write(workload, note, &mut two) {
        Ok(length) => (0, length),
        Err(refusal) => (refusal, 0),
    };
    tried.writes += 1;
    if told.end != End::DONE || (told.refusal, told.length) != plain {
        tried.differ("writing", seed, told, plain);
    }
    if one != two {
        tried.differ("written bytes", seed, "one buffer", "another");
    }
}

/// Reads the file of a seed with both, and compares all that is then told of it.
fn file_agrees(tried: &mut Tried, seed: u64) {
    let (mut random, file) = file_of(seed);
    if let Ok((workload, span)) = plain::read(&file) {
        let note = &file[span.place..span.place + span.length];
        looks_agree(tried, seed, &file, &workload);
        writing_agrees(tried, &mut random, seed, &file, &workload, note);
    }
    let told = proved::read(&file);
    let plain = plain_told(&file);
    tried.cases += 1;
    if told != plain {
        tried.differ("reading", seed, told, plain);
    }
    if plain.end.number == 0 {
        tried.accepted += 1;
    }
    tried.faults[usize::from(plain.end.number)] += 1;
}

/// Reads so many files with both.
pub fn files_agree(count: u64) -> Tried {
    let mut tried = Tried::default();
    for seed in 0..count {
        file_agrees(&mut tried, seed);
    }
    tried
}

/// How long a row a run gets: as long as the workload has items, or longer or shorter.
fn row_length(random: &mut Random, items: usize) -> usize {
    match random.below(16) {
        0 => items - 1,
        1 => items + random.below(10),
        2 => *random.pick(&[4_095, 4_096, 4_097, 5_000]),
        _ => items,
    }
}

/// A file of a seed that keeps the rules, with its workload, and a list of calls.
struct Run {
    random: Random,
    file: Vec<u8>,
    workload: Workload,
    length: usize,
    calls: Vec<Call>,
}

impl Run {
    /// The run of a seed, for a kind with so many codes, which mostly suffice.
    fn of(seed: u64, codes: u8) -> Self {
        let mut random = Random::new(seed);
        let mut parts = files::parts(&mut random);
        if parts.codes > codes && !random.once_in(12) {
            parts.keep_codes(codes);
        }
        let file = parts.bytes();
        let length = row_length(&mut random, parts.parents.len());
        let calls = calls::calls(&mut random, parts.types.len());
        let (workload, _span) = plain::read(&file).expect("the parts keep the rules");
        Run {
            random,
            file,
            workload,
            length,
            calls,
        }
    }

    /// The calls in the form of the proved library.
    fn plain_calls(&self) -> Vec<PlainCall> {
        self.calls.iter().map(|&call| call.into()).collect()
    }

    /// What the plain table answers and then shows, in the form of the proved library, and the values at last.
    fn on_plain_table<K: Kind>(&self, values: Vec<K::Value>) -> (Ran, Vec<K::Value>) {
        let mut table = Table::<K>::new(values, self.workload.clone());
        let answers = self
            .calls
            .iter()
            .map(|&call| table.call(call).into())
            .collect();
        let shown = (0..).map_while(|i| table.shown(i)).collect();
        let ran = Ran {
            end: End::DONE,
            answers,
            shown,
        };
        (ran, table.finish())
    }
}

/// Compares what a list of calls came to.
fn compare(tried: &mut Tried, seed: u64, proved: &Ran, plain: &Ran) {
    tried.cases += 1;
    for answer in &plain.answers {
        tried.answers[answer.kind()] += 1;
    }
    if proved.end != plain.end {
        tried.differ("a run's end", seed, proved.end, plain.end);
    }
    if let Some(i) = (0..plain.answers.len()).find(|&i| proved.answers[i] != plain.answers[i]) {
        tried.differ(
            "an answer",
            seed,
            (i, proved.answers[i]),
            (i, plain.answers[i]),
        );
    }
    if proved.shown != plain.shown {
        tried.differ("what items show", seed, &proved.shown, &plain.shown);
    }
}

/// Makes the calls of a seed over a row of tallies with both; the row itself is compared too.
fn tallies_agree(tried: &mut Tried, seed: u64) {
    let mut run = Run::of(seed, Tally::CODES);
    let mut row: Vec<i32> = (0..run.length).map(|_| run.random.signed()).collect();
    let (plain, last) = run.on_plain_table::<Tally>(row.clone());
    let proved = proved::run_tallies(&run.file, &run.plain_calls(), &mut row);
    compare(tried, seed, &proved, &plain);
    if row != last {
        tried.differ("the row", seed, "a row", "another");
    }
}

/// Where a row of so many values is cut in two: anywhere, also at an end.
fn cut(random: &mut Random, length: usize) -> usize {
    match random.below(8) {
        0 => 0,
        1 => length,
        2 => length.min(plain::STORE_LIMIT),
        _ => random.below(length + 1),
    }
}

/// Makes the calls of a seed over two rows of tallies that are joined, and with the plain table over one row:
/// of each part, and of both together, the first values count, up to the limit of a store.
fn joined_agree(tried: &mut Tried, seed: u64) {
    let mut run = Run::of(seed, Tally::CODES);
    let mut front: Vec<i32> = (0..run.length).map(|_| run.random.signed()).collect();
    let mut back = front.split_off(cut(&mut run.random, run.length));
    let counted = |row: &[i32]| row[..row.len().min(plain::STORE_LIMIT)].to_vec();
    let mut row = counted(&front);
    row.extend(counted(&back));
    let (plain, last) = run.on_plain_table::<Tally>(row);
    let (of_front, of_back) = last.split_at(counted(&front).len());
    let mut wanted = (front.clone(), back.clone());
    wanted.0[..of_front.len()].copy_from_slice(of_front);
    wanted.1[..of_back.len()].copy_from_slice(of_back);
    let proved = proved::run_joined(&run.file, &run.plain_calls(), &mut front, &mut back);
    compare(tried, seed, &proved, &plain);
    if (front, back) != wanted {
        tried.differ("the joined rows", seed, "two rows", "others");
    }
}

/// Makes the calls of a seed over slots with both.
fn slots_agree(tried: &mut Tried, seed: u64) {
    let mut run = Run::of(seed, Slot::CODES);
    let slot = |random: &mut Random| {
        if random.once_in(2) {
            SlotValue::Free
        } else {
            SlotValue::Held(random.signed())
        }
    };
    let row: Vec<SlotValue> = (0..run.length).map(|_| slot(&mut run.random)).collect();
    let slots: Vec<PlainSlot> = row.iter().map(|&slot| slot.into()).collect();
    let (plain, _last) = run.on_plain_table::<Slot>(row);
    compare(
        tried,
        seed,
        &proved::run_slots(&run.file, &run.plain_calls(), &slots),
        &plain,
    );
}

/// Makes so many random lists of calls with both: of four, two are over tallies, one over joined rows of them, and one over slots.
pub fn runs_agree(count: u64) -> Tried {
    let mut tried = Tried::default();
    for seed in (1 << 40)..(1 << 40) + count {
        match seed % 4 {
            0 => slots_agree(&mut tried, seed),
            1 => joined_agree(&mut tried, seed),
            _ => tallies_agree(&mut tried, seed),
        }
    }
    tried
}
