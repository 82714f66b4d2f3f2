//! Speed: both libraries on the same inputs in one run, by turns, and medians of ratios.

use crate::clock::timed;
use crate::files::Parts;
use crate::proved::{self, PlainAnswer, PlainCall};
use crate::shapes;
use plain::{Answer, Call, Table, Tally, Told, Workload};
use std::hint::black_box;
use two_phase::{Progress, TwoPhase};

/// How often each side has its turn.
const TURNS: usize = 31;

/// The middle one of some numbers.
fn median(mut numbers: Vec<f64>) -> f64 {
    numbers.sort_by(f64::total_cmp);
    numbers[numbers.len() / 2]
}

/// What the turns of two sides came to.
#[derive(Clone, Copy)]
struct Compared {
    proved: f64,
    plain: f64,
    /// The median of the ratios of each pair of turns.
    ratio: f64,
    /// The ratio of the best turns: other work on the machine disturbs it least.
    best_ratio: f64,
}

impl Compared {
    fn of(turns: &[(f64, f64)]) -> Self {
        let proved: Vec<f64> = turns.iter().map(|turn| turn.0).collect();
        let plain: Vec<f64> = turns.iter().map(|turn| turn.1).collect();
        let best = |times: &[f64]| times.iter().copied().fold(f64::INFINITY, f64::min);
        Compared {
            ratio: median(turns.iter().map(|(a, b)| a / b).collect()),
            best_ratio: best(&proved) / best(&plain),
            proved: median(proved),
            plain: median(plain),
        }
    }

    /// The same for something that takes so many times as long.
    fn times(self, scale: f64) -> Self {
        Compared {
            proved: self.proved * scale,
            plain: self.plain * scale,
            ..self
        }
    }
}

/// Lets two sides take turns, after one turn each that does not count.
fn by_turns(mut first: impl FnMut() -> f64, mut second: impl FnMut() -> f64) -> Compared {
    first();
    second();
    let turns: Vec<(f64, f64)> = (0..TURNS).map(|_| (first(), second())).collect();
    Compared::of(&turns)
}

/// Tells one comparison in a line.
fn tell(what: &str, unit: &str, compared: Compared) {
    println!(
        "speed {what} proved_ns={:.1} plain_ns={:.1} ratio={:.3} best_ratio={:.3} per={unit}",
        compared.proved, compared.plain, compared.ratio, compared.best_ratio
    );
}

/// Reading a file, plans included.
fn reading(name: &str, parts: &Parts) {
    let file = parts.bytes();
    let times = 40;
    let proved = || {
        timed(|| (0..times).for_each(|_| _ = black_box(proved::read(black_box(&file)))))
            / times as f64
    };
    let plain = || {
        timed(|| (0..times).for_each(|_| drop(black_box(plain::read(black_box(&file))))))
            / times as f64
    };
    tell(
        &format!("read shape={name} bytes={}", file.len()),
        "file",
        by_turns(proved, plain),
    );
}

/// A table on the plain side, its items all 0.
fn plain_table(file: &[u8]) -> Table<Tally> {
    let (workload, _span) = plain::read(file).expect("a file of ours");
    Table::new(vec![0; workload.item_count().into()], workload)
}

/// Calls that take so many jobs, of the types in turn, from begin to collect, each stepping in its turn.
/// They leave all places empty, so that they can be made again.
fn rounds_of_jobs(file: &[u8], jobs: usize) -> Vec<Call> {
    let mut table = plain_table(file);
    let types = table.workload().type_count();
    let mut calls: Vec<Call> = (0..jobs as u8)
        .map(|p| Call::Begin(p, p % types, 1))
        .collect();
    for &call in &calls {
        table.call(call);
    }
    let mut running: Vec<u8> = (0..jobs as u8).collect();
    while !running.is_empty() {
        running.retain(|&place| {
            calls.push(Call::Step(place));
            table.step(place) != Ok(Told::Finished)
        });
    }
    calls.extend((0..jobs as u8).map(Call::Collect));
    calls
}

/// Makes the calls on a plain table, and then so many times again; the last answers.
fn plain_rounds(file: &[u8], calls: &[Call], again: u32) -> Vec<Answer> {
    let mut table = plain_table(file);
    let mut answers = Vec::new();
    for _ in 0..=again {
        answers = Vec::with_capacity(calls.len());
        for &call in black_box(calls) {
            answers.push(table.call(call));
        }
        black_box(&answers);
    }
    answers
}

/// How many calls a turn makes: so many that reading the file, about 0.1 ms at most, counts little.
const CALLS_A_TURN: usize = 400_000;

/// How many rounds of a list make a turn.
fn rounds_a_turn(calls: &[Call]) -> u32 {
    (CALLS_A_TURN / calls.len()).max(2) as u32
}

/// What a call of a list costs on both sides.
fn per_call(file: &[u8], calls: &[Call]) -> Compared {
    let list: Vec<PlainCall> = calls.iter().map(|&call| call.into()).collect();
    let mut answers = vec![PlainAnswer::default(); list.len()];
    let mut row = vec![0; 64];
    let rounds = rounds_a_turn(calls);
    let expected: Vec<PlainAnswer> = plain_rounds(file, calls, rounds - 1)
        .into_iter()
        .map(Into::into)
        .collect();
    proved::run_rounds(file, &list, rounds - 1, &mut row, &mut answers);
    assert_eq!(answers, expected, "both sides answer alike");
    let many = f64::from(rounds) * list.len() as f64;
    let proved = || {
        timed(|| {
            _ = black_box(proved::run_rounds(
                file,
                &list,
                rounds - 1,
                &mut row,
                &mut answers,
            ))
        }) / many
    };
    let plain = || timed(|| drop(black_box(plain_rounds(file, calls, rounds - 1)))) / many;
    by_turns(proved, plain)
}

/// One step, by the number of items and of jobs.
fn steps() {
    for items in [8, 32, 64] {
        for jobs in [1, 4, 16] {
            for (shape, parts) in [
                ("chain", shapes::down_a_chain(items)),
                ("tree", shapes::over_a_tree(items)),
            ] {
                let file = parts.bytes();
                let calls = rounds_of_jobs(&file, jobs);
                tell(
                    &format!(
                        "step shape={shape} items={items} jobs={jobs} calls={}",
                        calls.len()
                    ),
                    "call",
                    per_call(&file, &calls),
                );
            }
        }
    }
}

/// What finished when a two-phase table took the jobs of so many rounds.
struct Finished {
    jobs: u64,
    restarts: u64,
}

/// The two-phase table does the jobs of the rounds: each begins, steps in its turn, and is collected.
fn two_phase_rounds(workload: &Workload, jobs: usize, rounds: u32) -> Finished {
    let mut table = TwoPhase::<Tally>::new(vec![0; workload.item_count().into()], workload.clone());
    let types = workload.type_count();
    let mut finished = 0;
    for _ in 0..rounds {
        for place in 0..jobs as u8 {
            table.begin(place, place % types, 1);
        }
        let mut running: u32 = (1 << jobs) - 1;
        while running != 0 {
            for place in 0..jobs as u8 {
                if running >> place & 1 == 1 && table.step(place) == Progress::Finished {
                    running &= !(1 << place);
                }
            }
        }
        for place in 0..jobs as u8 {
            finished += u64::from(table.collect(place).is_some());
        }
    }
    Finished {
        jobs: finished,
        restarts: table.restarts(),
    }
}

/// What a job costs on the two-phase table, and how often it is restarted.
fn two_phase_job(file: &[u8], jobs: usize, rounds: u32) -> (f64, f64) {
    let (workload, _span) = plain::read(file).expect("a file of ours");
    let told = two_phase_rounds(&workload, jobs, rounds);
    let turn = || timed(|| _ = black_box(two_phase_rounds(black_box(&workload), jobs, rounds)));
    let finished = told.jobs as f64;
    (
        median((0..TURNS).map(|_| turn()).collect()) / finished,
        told.restarts as f64 / finished,
    )
}

/// Whole runs, on both sides and against the two-phase table: jobs a second.
fn whole_runs(name: &str, parts: &Parts, jobs: usize) {
    let file = parts.bytes();
    let calls = rounds_of_jobs(&file, jobs);
    let per = per_call(&file, &calls);
    let scale = calls.len() as f64 / jobs as f64;
    tell(
        &format!("run shape={name} jobs={jobs} calls={}", calls.len()),
        "job",
        per.times(scale),
    );
    let (proved, plain) = (per.proved * scale, per.plain * scale);
    let (locked, restarts) = two_phase_job(&file, jobs, rounds_a_turn(&calls));
    println!(
        "speed against=two_phase shape={name} jobs={jobs} proved_jobs_per_s={:.0} plain_jobs_per_s={:.0} two_phase_jobs_per_s={:.0} proved_over_two_phase={:.3} restarts_per_job={restarts:.3}",
        1e9 / proved,
        1e9 / plain,
        1e9 / locked,
        locked / proved
    );
}

/// Tells all comparisons.
pub fn speed() {
    reading("chain", &shapes::largest_chain());
    reading("web", &shapes::largest_web());
    reading("small", &shapes::down_a_chain(8));
    steps();
    whole_runs("apart", &shapes::apart(), 8);
    whole_runs("crossing", &shapes::crossing(), 8);
    whole_runs("chain", &shapes::down_a_chain(64), 16);
}

/// One thing on one side, so often, for a profiler: `read` or `step`, of a shape, `proved` or `plain`.
pub fn repeat(what: &str, shape: &str, side: &str, times: u32) {
    let parts = match shape {
        "web" => shapes::largest_web(),
        "small" => shapes::down_a_chain(8),
        "tree" => shapes::over_a_tree(64),
        "chain64" => shapes::down_a_chain(64),
        "crossing" => shapes::crossing(),
        _ => shapes::largest_chain(),
    };
    let file = parts.bytes();
    match (what, side) {
        ("read", "proved") => {
            (0..times).for_each(|_| _ = black_box(proved::read(black_box(&file))))
        }
        ("read", _) => (0..times).for_each(|_| drop(black_box(plain::read(black_box(&file))))),
        (_, "proved") => {
            let calls = rounds_of_jobs(&file, 8);
            let list: Vec<PlainCall> = calls.iter().map(|&call| call.into()).collect();
            let mut answers = vec![PlainAnswer::default(); list.len()];
            println!("calls={}", list.len() as u64 * u64::from(times));
            proved::run_rounds(&file, &list, times, &mut vec![0; 64], &mut answers);
        }
        _ => {
            let calls = rounds_of_jobs(&file, 8);
            println!("calls={}", calls.len() as u64 * u64::from(times));
            drop(black_box(plain_rounds(&file, &calls, times)));
        }
    }
}
