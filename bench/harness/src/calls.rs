//! Random lists of calls.

use crate::random::Random;
use plain::Call;

/// How a list is made: over how many places and types, and how often a call is out of the way.
struct Habit {
    places: usize,
    types: usize,
    odd: usize,
}

impl Habit {
    fn place(&self, random: &mut Random) -> u8 {
        if random.once_in(self.odd) {
            return random.byte() % 20;
        }
        random.below(self.places) as u8
    }

    fn job_type(&self, random: &mut Random) -> u8 {
        if random.once_in(self.odd) {
            return random.byte() % 10;
        }
        random.below(self.types) as u8
    }

    fn call(&self, random: &mut Random) -> Call {
        let place = self.place(random);
        match random.below(12) {
            0..=2 => Call::Begin(place, self.job_type(random), random.signed()),
            3 | 4 => Call::Collect(place),
            5 if random.once_in(3) => Call::Leave(place),
            _ => Call::Step(place),
        }
    }
}

/// A random list over a workload with so many types: short or long, over few places or all.
pub fn calls(random: &mut Random, types: usize) -> Vec<Call> {
    let habit = Habit {
        places: *random.pick(&[1, 2, 3, 4, 8, 16, 16]),
        types,
        odd: *random.pick(&[4, 40, 1_000]),
    };
    let count = match random.below(8) {
        0 => random.below(8),
        1 => random.within(1_000, 4_000),
        _ => random.within(20, 600),
    };
    let mut list: Vec<Call> = Vec::with_capacity(count + 16);
    if random.once_in(2) {
        for place in 0..habit.places {
            list.push(Call::Begin(
                place as u8,
                habit.job_type(random),
                random.signed(),
            ));
        }
    }
    list.extend((0..count).map(|_| habit.call(random)));
    list
}
