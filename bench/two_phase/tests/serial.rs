//! Random workloads: what finished jobs did is what they do alone, in some
//! order.

#[path = "../../plain/tests/support/mod.rs"]
mod support;

use plain::{read, Kind, Slot, SlotValue, Tally};
use support::{is_serial, Course, Random, Size, Workload};
use two_phase::{Progress, TwoPhase};

const SIZE: Size = Size {
    items: 5,
    types: 3,
    states: 7,
    codes: 0,
    circles: false,
};

fn serial<K>(seed: u64, value: fn(&mut Random) -> K::Value)
where
    K: Kind + Clone,
    K::Value: std::fmt::Debug,
{
    let random = &mut Random::new(seed);
    let mut restarts = 0;
    for _ in 0..8_000 {
        let codes = K::CODES;
        let workload = Workload::random(random, &Size { codes, ..SIZE });
        let jobs: Vec<(usize, i32)> = (0..1 + random.below(5))
            .map(|_| (random.below(workload.types.len()), random.number()))
            .collect();
        let first: Vec<K::Value> = workload.parents.iter().map(|_| value(random)).collect();
        let (read, _) = read(&workload.file(b"")).unwrap();
        let mut table = TwoPhase::<K>::new(first.clone(), read);
        for (place, &(t, argument)) in (0..).zip(&jobs) {
            assert!(table.begin(place, t as u8, argument));
        }
        let works = run_all(random, &mut table, &workload, &jobs);
        let courses: Vec<Course> = (0..)
            .zip(works)
            .map(|(place, works)| Course {
                works,
                register: table.collect(place).unwrap(),
            })
            .collect();
        let shown: Vec<i64> = (0..first.len()).map_while(|i| table.shown(i)).collect();
        assert!(
            is_serial::<K>(&workload, &first, &jobs, &courses, &shown),
            "{workload:?} {jobs:?} {first:?} {courses:?} {shown:?}"
        );
        restarts += table.restarts();
    }
    assert!(restarts > 100, "{restarts}");
}

/// Steps the jobs in a random order until all are finished, and answers the
/// works that were not undone. The registers are those of a run alone: a work
/// tells its item, and the rest follows from the states.
fn run_all<K: Kind + Clone>(
    random: &mut Random,
    table: &mut TwoPhase<K>,
    workload: &Workload,
    jobs: &[(usize, i32)],
) -> Vec<Vec<support::Work>> {
    let mut works = vec![vec![]; jobs.len()];
    let mut states = vec![0; jobs.len()];
    let mut registers: Vec<i32> = jobs.iter().map(|job| job.1).collect();
    let mut left: Vec<usize> = (0..jobs.len()).collect();
    while !left.is_empty() {
        let at = random.below(left.len());
        let j = left[at];
        let state = &workload.types[jobs[j].0][states[j]];
        let before = table.clone().finish()[state.item];
        match table.step(j as u8) {
            Progress::Worked(item) => {
                assert_eq!(usize::from(item), state.item);
                works[j].push((state.item, state.code, state.operand, registers[j]));
                registers[j] = K::act(before, state.code, state.operand, registers[j]).1;
            }
            Progress::Gone(s) => states[j] = s.into(),
            Progress::Finished => {
                left.swap_remove(at);
            }
            Progress::Waiting(..) => {
                // If all wait, a circle closes when the last begins to.
                let mut copy = table.clone();
                let moves = |&j: &usize| !matches!(copy.step(j as u8), Progress::Waiting(..));
                assert!(left.iter().any(moves), "stuck");
            }
            Progress::Restarted(victim) => {
                let victim = usize::from(victim);
                assert!(left.contains(&victim));
                works[victim].clear();
                states[victim] = 0;
                registers[victim] = jobs[victim].1;
            }
            Progress::Locked(_) => {}
            Progress::Idle => panic!("an unfinished job is idle"),
        }
    }
    works
}

/// Sixteen jobs, each of which locks eight items of a circle of sixteen, all
/// stepped in turn: nobody starves.
#[test]
fn round_and_round() {
    let line = |t: usize| {
        let state = |s: usize| support::State {
            item: (2 * t + s) % 16,
            code: 1,
            operand: 1,
            arcs: if s < 7 { vec![s + 1] } else { vec![] },
        };
        (0..8).map(state).collect()
    };
    let workload = Workload {
        parents: (0..16).map(|i: usize| i.checked_sub(1)).collect(),
        codes: 4,
        types: (0..8).map(line).collect(),
    };
    let (workload, _) = read(&workload.file(b"")).unwrap();
    let mut table = TwoPhase::<Tally>::new(vec![0; 16], workload);
    let mut begun = 0;
    let mut finished = 0;
    for _ in 0..100_000 {
        if finished == 1_000 {
            break;
        }
        for place in 0..16 {
            if table.step(place) == Progress::Idle {
                finished += usize::from(table.collect(place).is_some());
                if begun < 1_000 {
                    begun += 1;
                    assert!(table.begin(place, (begun % 8) as u8, 0));
                }
            }
        }
    }
    assert_eq!(finished, 1_000);
    assert!(table.restarts() > 100);
    let total: i64 = (0..16).map(|i| table.shown(i).unwrap()).sum();
    assert_eq!(total, 8_000);
}

#[test]
fn tallies() {
    serial::<Tally>(11, Random::number);
}

#[test]
fn slots() {
    serial::<Slot>(12, |random| match random.chance(2) {
        true => SlotValue::Free,
        false => SlotValue::Held(random.number()),
    });
}
