//! How long a step and a reading take: `cargo run --release --example pace`.

use std::hint::black_box;
use std::time::Instant;

use plain::{read, Table, Tally, Told};
use two_phase::{Progress, TwoPhase};

/// A tree of 31 items and eight types, each a line of eight states that walk
/// down to a leaf, add there, and go on to the next leaf.
fn file() -> Vec<u8> {
    let mut file = b"TLW\x00\x01\x1f\x08\x04\xff".to_vec();
    file.extend((1..31u8).map(|item| (item - 1) / 2));
    for t in 0..8u8 {
        file.push(8);
        for s in 0..8 {
            let item = 15 + (2 * t + s) % 16;
            let arcs = if s < 7 { [1, s + 1, 0, 0, 0] } else { [0; 5] };
            file.extend([item, 1, 0, 0, 0, 1]);
            file.extend(arcs);
        }
    }
    file.extend([0, 0]);
    file
}

fn report(what: &str, count: u64, start: Instant) {
    let each = start.elapsed().as_nanos() as f64 / count as f64;
    println!("{what}: {count}, {each:.1} ns each");
}

fn plain_table(places: u8) {
    let (workload, _) = read(&file()).unwrap();
    let mut table = Table::<Tally>::new(vec![0; 31], workload);
    let (mut steps, mut jobs) = (0u64, 0u64);
    let start = Instant::now();
    while jobs < 100_000 {
        for place in 0..places {
            let told = match table.step(place) {
                Ok(told) => told,
                Err(_) => {
                    black_box(table.collect(place).is_ok());
                    jobs += 1;
                    table.begin(place, (jobs % 8) as u8, 0).unwrap();
                    continue;
                }
            };
            black_box(told == Told::Finished);
            steps += 1;
        }
    }
    report(&format!("plain, {places} places, steps"), steps, start);
    report(&format!("plain, {places} places, jobs"), jobs, start);
}

fn two_phase_table(places: u8) {
    let (workload, _) = read(&file()).unwrap();
    let mut table = TwoPhase::<Tally>::new(vec![0; 31], workload);
    let (mut steps, mut jobs) = (0u64, 0u64);
    let start = Instant::now();
    while jobs < 100_000 {
        for place in 0..places {
            if black_box(table.step(place)) == Progress::Idle {
                black_box(table.collect(place));
                jobs += 1;
                assert!(table.begin(place, (jobs % 8) as u8, 0));
                continue;
            }
            steps += 1;
        }
    }
    report(&format!("two-phase, {places} places, steps"), steps, start);
    report(&format!("two-phase, {places} places, jobs"), jobs, start);
    println!("two-phase restarts: {}", table.restarts());
}

fn reading() {
    let file = file();
    let count = 200_000;
    let start = Instant::now();
    for _ in 0..count {
        black_box(read(black_box(&file)).is_ok());
    }
    report("readings of 64 states", count, start);
}

fn main() {
    for places in [1, 4, 16] {
        plain_table(places);
        two_phase_table(places);
    }
    reading();
}
