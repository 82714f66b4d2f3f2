//! Random workloads: the fast code against the rules word by word, and the
//! promise of the table.

mod support;

use plain::{read, write, Answer, Call, Fault, Kind, Slot, SlotValue, Table, Tally, Told};
use support::{is_serial, Course, Random, Set, Size, Workload};

const SMALL: Size = Size {
    items: 6,
    types: 3,
    states: 6,
    codes: 4,
    circles: false,
};

const BIG: Size = Size {
    items: 20,
    types: 4,
    states: 12,
    codes: 4,
    circles: true,
};

/// As many items as there can be.
const WIDE: Size = Size {
    items: 64,
    types: 3,
    states: 14,
    codes: 4,
    circles: true,
};

fn bits(set: Set) -> u64 {
    set.into_iter().fold(0, |bits, d| bits | 1 << d)
}

#[test]
fn files_and_sets() {
    let random = &mut Random::new(1);
    for round in 0..300 {
        let size = if round % 30 == 0 { &WIDE } else { &BIG };
        let workload = Workload::random(random, size);
        let note: Vec<u8> = (0..random.below(40)).map(|_| random.next() as u8).collect();
        let file = workload.file(&note);
        let (got, span) = read(&file).unwrap();
        assert_eq!(file[span.place..][..span.length], note[..]);
        let mut buffer = vec![0; file.len()];
        assert_eq!(write(&got, &note, &mut buffer), Ok(file.len()));
        assert_eq!(buffer, file);
        same_sets(&workload, &got);
    }
}

fn same_sets(workload: &Workload, got: &plain::Workload) {
    for t in 0..workload.types.len() {
        let tt = t as u8;
        assert_eq!(got.local_root(tt), Some(workload.local_root(t) as u8));
        assert_eq!(got.local_items(tt), Some(bits(workload.local(t))));
        for s in 0..workload.types[t].len() {
            let ss = s as u8;
            assert_eq!(
                got.unreachable(tt, ss),
                Some(bits(workload.unreachable(t, s)))
            );
            assert_eq!(
                got.unlockable(tt, ss),
                Some(bits(workload.unlockable(t, s)))
            );
        }
    }
}

#[test]
fn changed_files() {
    let random = &mut Random::new(2);
    let (mut read_again, mut refused) = (0, 0);
    for _ in 0..20_000 {
        let mut file = Workload::random(random, &SMALL).file(b"note");
        for _ in 0..1 + random.below(2) {
            let place = random.below(file.len());
            file[place] = random.below(8).wrapping_sub(1) as u8;
        }
        match read(&file) {
            Ok((workload, span)) => {
                let mut buffer = vec![0; file.len()];
                let note = &file[span.place..][..span.length];
                assert_eq!(write(&workload, note, &mut buffer), Ok(file.len()));
                assert_eq!(buffer, file);
                read_again += 1;
            }
            Err(fault) => {
                assert!((1..=7).contains(&fault.number));
                assert!(fault.place < file.len() + usize::from(fault.number == 1));
                refused += 1;
            }
        }
    }
    assert!(read_again > 1_000 && refused > 1_000);
}

#[test]
fn wrong_trees() {
    let random = &mut Random::new(6);
    let mut right = 0;
    for _ in 0..20_000 {
        let n = 1 + random.below(5);
        let row: Vec<u8> = (0..n)
            .map(|_| match random.below(12) {
                0 | 1 => 255,
                2 => (n + random.below(255 - n)) as u8,
                _ => random.below(n) as u8,
            })
            .collect();
        let mut file = b"TLW\x00\x01".to_vec();
        file.extend([n as u8, 1, 1]);
        file.extend(&row);
        file.extend([1, 0, 0, 0, 0, 0, 0, 0, 0, 0, 0, 0, 0, 0]);
        let place = (0..n).find(|&i| wrong_item(&row, i)).map(|i| 8 + i);
        right += usize::from(place.is_none());
        let fault = place.map(|place| Fault { number: 4, place });
        assert_eq!(read(&file).err(), fault, "{row:?}");
    }
    assert!(right > 1_000);
}

/// The conditions of fault 4, one by one.
fn wrong_item(row: &[u8], item: usize) -> bool {
    let mut at = item;
    for _ in 0..row.len() {
        if row[at] == 255 {
            break;
        }
        at = row[at].into();
        if at >= row.len() {
            return true;
        }
    }
    row[at] != 255 || row[item] == 255 && row[..item].contains(&255)
}

#[test]
fn strays() {
    let random = &mut Random::new(7);
    let mut right = 0;
    for _ in 0..20_000 {
        let count = 1 + random.below(7);
        let mut state = || support::State {
            item: 0,
            code: 0,
            operand: 0,
            arcs: (0..random.below(4)).map(|_| random.below(count)).collect(),
        };
        let workload = Workload {
            parents: vec![None],
            codes: 1,
            types: vec![(0..count).map(|_| state()).collect()],
        };
        let ends = |&q: &usize| workload.types[0][q].arcs.is_empty();
        let place = (0..count)
            .find(|s| {
                !workload.reached(0, 0).contains(s) || !workload.reached(0, *s).iter().any(ends)
            })
            .map(|s| 10 + 11 * s);
        right += usize::from(place.is_none());
        let fault = place.map(|place| Fault { number: 6, place });
        assert_eq!(read(&workload.file(b"")).err(), fault, "{workload:?}");
    }
    assert!(right > 1_000);
}

fn random_call(random: &mut Random) -> Call {
    let places = if random.chance(20) { 18 } else { 5 };
    let place = random.below(places) as u8;
    match random.below(40) {
        0..=2 => Call::Begin(place, random.below(5) as u8, random.number()),
        3 => Call::Collect(place),
        4 if random.chance(2) => Call::Leave(place),
        _ => Call::Step(place),
    }
}

fn same_answers<K: Kind>(seed: u64, codes: u8, rounds: usize, value: fn(&mut Random) -> K::Value) {
    let random = &mut Random::new(seed);
    let mut told = [0; 6];
    for round in 0..rounds {
        let size = match round % 20 {
            0 => &WIDE,
            1..=10 => &SMALL,
            _ => &BIG,
        };
        let workload = Workload::random(random, &Size { codes, ..*size });
        let few = usize::from(random.chance(30));
        let values: Vec<K::Value> = (few..workload.parents.len() + random.below(3))
            .map(|_| value(random))
            .collect();
        let (fast, _) = read(&workload.file(b"")).unwrap();
        let mut fast = Table::<K>::new(values.clone(), fast);
        let mut slow = support::Table::<K>::new(values, workload);
        for _ in 0..400 {
            let call = random_call(random);
            let answer = fast.call(call);
            assert_eq!(answer, slow.call(call), "{call:?} {:?}", slow.workload);
            count(&mut told, answer);
        }
        for i in 0..slow.values.len() + 1 {
            assert_eq!(
                fast.shown(i),
                slow.values.get(i).map(|&value| K::show(value))
            );
        }
    }
    assert!(told.iter().all(|&count| count > 50), "{told:?}");
}

fn count(told: &mut [usize; 6], answer: Answer) {
    if let Answer::Stepped(step) = answer {
        told[match step {
            Told::Released(_) => 0,
            Told::Worked(_) => 1,
            Told::Locked(_) => 2,
            Told::Waiting(..) => 3,
            Told::Gone(_) => 4,
            Told::Finished => 5,
        }] += 1;
    }
}

#[test]
fn tallies_by_the_rules() {
    same_answers::<Tally>(3, 4, 400, Random::number);
}

#[test]
fn slots_by_the_rules() {
    same_answers::<Slot>(4, 3, 400, |random| match random.chance(2) {
        true => SlotValue::Free,
        false => SlotValue::Held(random.number()),
    });
}

#[test]
fn as_if_alone_and_never_stuck() {
    let random = &mut Random::new(5);
    for _ in 0..600 {
        let workload = Workload::random(random, &SMALL);
        let jobs: Vec<(usize, i32)> = (0..1 + random.below(4))
            .map(|_| (random.below(workload.types.len()), random.number()))
            .collect();
        let first: Vec<i32> = workload.parents.iter().map(|_| random.number()).collect();
        let (fast, _) = read(&workload.file(b"")).unwrap();
        let mut table = Table::<Tally>::new(first.clone(), fast);
        for (place, &(t, argument)) in (0..).zip(&jobs) {
            table.begin(place, t as u8, argument).unwrap();
        }
        let works = run_all(random, &mut table, &workload, &jobs);
        let courses: Vec<Course> = (0..)
            .zip(works)
            .map(|(place, works)| Course {
                works,
                register: table.collect(place).unwrap(),
            })
            .collect();
        let shown: Vec<i64> = (0..first.len()).map_while(|i| table.shown(i)).collect();
        assert!(
            is_serial::<Tally>(&workload, &first, &jobs, &courses, &shown),
            "{workload:?} {jobs:?} {first:?} {courses:?} {shown:?}"
        );
    }
}

/// Steps the jobs in a random order until all are finished, and answers their
/// works, told from the answers alone.
fn run_all(
    random: &mut Random,
    table: &mut Table<Tally>,
    workload: &Workload,
    jobs: &[(usize, i32)],
) -> Vec<Vec<support::Work>> {
    let mut works = vec![vec![]; jobs.len()];
    let mut states = vec![0; jobs.len()];
    let mut registers: Vec<i32> = jobs.iter().map(|job| job.1).collect();
    let mut left: Vec<usize> = (0..jobs.len()).collect();
    while !left.is_empty() {
        let at = random.below(left.len());
        let j = left[at];
        let state = &workload.types[jobs[j].0][states[j]];
        let before = table.shown(state.item).unwrap() as i32;
        match table.step(j as u8).unwrap() {
            Told::Worked(item) => {
                assert_eq!(usize::from(item), state.item);
                works[j].push((state.item, state.code, state.operand, registers[j]));
                registers[j] = Tally::act(before, state.code, state.operand, registers[j]).1;
            }
            Told::Gone(s) => states[j] = s.into(),
            Told::Finished => {
                left.swap_remove(at);
            }
            Told::Waiting(..) => {
                let moves = |&j: &usize| {
                    let mut copy = table.clone();
                    !matches!(copy.step(j as u8), Ok(Told::Waiting(..)))
                };
                assert!(left.iter().any(moves), "stuck");
            }
            Told::Released(_) | Told::Locked(_) => {}
        }
    }
    works
}
