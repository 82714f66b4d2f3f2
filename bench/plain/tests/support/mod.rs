//! Random workloads, and the rules of the documents written down once more,
//! slowly and word by word.
#![allow(dead_code)]

use std::collections::BTreeSet;

use plain::{Answer, Call, Kind, Told};

pub type Set = BTreeSet<usize>;

/// A small generator of random numbers.
pub struct Random(u64);

impl Random {
    pub fn new(seed: u64) -> Self {
        Self(seed.wrapping_mul(0x9e37_79b9_7f4a_7c15) | 1)
    }

    pub fn next(&mut self) -> u64 {
        self.0 ^= self.0 << 13;
        self.0 ^= self.0 >> 7;
        self.0 ^= self.0 << 17;
        self.0.wrapping_mul(0x2545_f491_4f6c_dd1d) >> 16
    }

    pub fn below(&mut self, end: usize) -> usize {
        (self.next() % end as u64) as usize
    }

    pub fn chance(&mut self, one_in: usize) -> bool {
        self.below(one_in) == 0
    }

    /// A number that is mostly near 0, else anything or an end of the range.
    pub fn number(&mut self) -> i32 {
        match self.below(8) {
            0 => self.next() as i32,
            1 => i32::MAX,
            2 => i32::MIN,
            _ => self.below(9) as i32 - 4,
        }
    }
}

#[derive(Clone, Debug)]
pub struct State {
    pub item: usize,
    pub code: u8,
    pub operand: i32,
    pub arcs: Vec<usize>,
}

#[derive(Clone, Debug)]
pub struct Workload {
    pub parents: Vec<Option<usize>>,
    pub codes: u8,
    pub types: Vec<Vec<State>>,
}

/// How big a random workload gets.
pub struct Size {
    pub items: usize,
    pub types: usize,
    pub states: usize,
    pub codes: u8,
    /// Whether arcs may lead back.
    pub circles: bool,
}

impl Workload {
    pub fn random(random: &mut Random, size: &Size) -> Self {
        let n = 1 + random.below(size.items);
        let types = 1 + random.below(size.types);
        Self {
            parents: random_tree(random, n),
            codes: size.codes,
            types: (0..types).map(|_| random_type(random, n, size)).collect(),
        }
    }

    pub fn file(&self, note: &[u8]) -> Vec<u8> {
        let mut file = b"TLW\x00\x01".to_vec();
        file.push(self.parents.len() as u8);
        file.push(self.types.len() as u8);
        file.push(self.codes);
        file.extend(self.parents.iter().map(|p| p.map_or(255, |p| p as u8)));
        for states in &self.types {
            file.push(states.len() as u8);
            for state in states {
                file.extend([state.item as u8, state.code]);
                file.extend(state.operand.to_be_bytes());
                file.push(state.arcs.len() as u8);
                let arcs = (0..4).map(|i| state.arcs.get(i).map_or(0, |&s| s as u8));
                file.extend(arcs);
            }
        }
        file.extend((note.len() as u16).to_be_bytes());
        file.extend(note);
        file
    }

    /// The states on the ways from a state, itself counted.
    pub fn reached(&self, t: usize, s: usize) -> Set {
        let mut reached = Set::from([s]);
        let mut todo = vec![s];
        while let Some(s) = todo.pop() {
            for &next in &self.types[t][s].arcs {
                if reached.insert(next) {
                    todo.push(next);
                }
            }
        }
        reached
    }

    pub fn unreachable(&self, t: usize, s: usize) -> Set {
        let reached = self.reached(t, s);
        let names = |d| reached.iter().any(|&q| self.types[t][q].item == d);
        (0..self.parents.len()).filter(|&d| !names(d)).collect()
    }

    pub fn unlockable(&self, t: usize, s: usize) -> Set {
        let states = &self.types[t];
        let before: Vec<usize> = (0..states.len())
            .filter(|&p| states[p].arcs.contains(&s))
            .collect();
        let came_by = |d: usize, p: usize| {
            (0..states.len()).any(|q| states[q].item == d && self.reached(t, q).contains(&p))
        };
        self.unreachable(t, s)
            .into_iter()
            .filter(|d| before.iter().all(|&p| !self.unreachable(t, p).contains(d)))
            .filter(|&d| before.iter().any(|&p| came_by(d, p)))
            .collect()
    }

    /// The items on the way from an item up to the root.
    pub fn way_up(&self, item: usize) -> Vec<usize> {
        let mut way = vec![item];
        while let Some(parent) = self.parents[*way.last().unwrap()] {
            way.push(parent);
        }
        way
    }

    pub fn named(&self, t: usize) -> Set {
        self.types[t].iter().map(|state| state.item).collect()
    }

    pub fn local_root(&self, t: usize) -> usize {
        (0..self.parents.len())
            .filter(|root| self.named(t).iter().all(|&d| self.way_up(d).contains(root)))
            .max_by_key(|&root| self.way_up(root).len())
            .unwrap()
    }

    /// The items on the way from the local root down to an item.
    pub fn way_down(&self, t: usize, item: usize) -> Vec<usize> {
        let root = self.local_root(t);
        let mut way: Vec<usize> = self
            .way_up(item)
            .into_iter()
            .take_while(|&d| d != root)
            .collect();
        way.push(root);
        way.reverse();
        way
    }

    pub fn local(&self, t: usize) -> Set {
        self.named(t)
            .iter()
            .flat_map(|&d| self.way_down(t, d))
            .collect()
    }

    pub fn local_children(&self, t: usize, item: usize) -> Set {
        self.local(t)
            .into_iter()
            .filter(|&d| self.parents[d] == Some(item))
            .collect()
    }
}

/// The state that an arc leads to.
pub fn taken(state: &State, register: i32) -> usize {
    let arc = register.max(0) as usize;
    state.arcs[arc.min(state.arcs.len() - 1)]
}

fn random_tree(random: &mut Random, n: usize) -> Vec<Option<usize>> {
    let mut names: Vec<usize> = (0..n).collect();
    for i in (1..n).rev() {
        names.swap(i, random.below(i + 1));
    }
    let deep = random.chance(3);
    let mut parents = vec![None; n];
    for i in 1..n {
        let parent = if deep { i - 1 } else { random.below(i) };
        parents[names[i]] = Some(names[parent]);
    }
    parents
}

fn random_type(random: &mut Random, n: usize, size: &Size) -> Vec<State> {
    loop {
        let count = 1 + random.below(size.states);
        let wide = 1 + random.below(n);
        let states = (0..count)
            .map(|s| State {
                item: random.below(wide),
                code: random.below(size.codes.into()) as u8,
                operand: random.number(),
                arcs: random_arcs(random, s, count, size.circles),
            })
            .collect();
        let workload = Workload {
            parents: vec![None; n],
            codes: size.codes,
            types: vec![states],
        };
        if no_strays(&workload) {
            return workload.types.into_iter().next().unwrap();
        }
    }
}

fn random_arcs(random: &mut Random, s: usize, count: usize, circles: bool) -> Vec<usize> {
    if s + 1 == count {
        return vec![];
    }
    (0..random.below(5).max(usize::from(s == 0)))
        .map(|_| match circles && random.chance(4) {
            true => random.below(count),
            false => s + 1 + random.below((count - s - 1).min(3)),
        })
        .collect()
}

fn no_strays(workload: &Workload) -> bool {
    let states = &workload.types[0];
    let ends = |s| {
        workload
            .reached(0, s)
            .iter()
            .any(|&q| states[q].arcs.is_empty())
    };
    workload.reached(0, 0).len() == states.len() && (0..states.len()).all(ends)
}

/// One work of a job: item, code, operand and the register before.
pub type Work = (usize, u8, i32, i32);

/// A job's course: its works and its last register.
#[derive(Clone, Debug, Default, PartialEq, Eq)]
pub struct Course {
    pub works: Vec<Work>,
    pub register: i32,
}

/// Runs a job alone on the values; nothing if it works too often.
pub fn alone<K: Kind>(
    workload: &Workload,
    values: &mut [K::Value],
    (t, argument): (usize, i32),
) -> Option<Course> {
    let mut course = Course {
        works: vec![],
        register: argument,
    };
    let mut s = 0;
    while course.works.len() < 500 {
        let state = &workload.types[t][s];
        course
            .works
            .push((state.item, state.code, state.operand, course.register));
        (values[state.item], course.register) = K::act(
            values[state.item],
            state.code,
            state.operand,
            course.register,
        );
        if state.arcs.is_empty() {
            return Some(course);
        }
        s = taken(state, course.register);
    }
    None
}

/// All orders of the numbers below n.
pub fn orders(n: usize) -> Vec<Vec<usize>> {
    if n == 0 {
        return vec![vec![]];
    }
    let shorter = orders(n - 1);
    let put = |order: &Vec<usize>, at| {
        let mut order = order.clone();
        order.insert(at, n - 1);
        order
    };
    shorter
        .iter()
        .flat_map(|order| (0..n).map(move |at| put(order, at)))
        .collect()
}

/// Whether some order of the jobs, run alone, has these courses and shows
/// these numbers.
pub fn is_serial<K: Kind>(
    workload: &Workload,
    first: &[K::Value],
    jobs: &[(usize, i32)],
    courses: &[Course],
    shown: &[i64],
) -> bool {
    orders(jobs.len()).iter().any(|order| {
        let mut values = first.to_vec();
        order
            .iter()
            .all(|&j| alone::<K>(workload, &mut values, jobs[j]).as_ref() == Some(&courses[j]))
            && values
                .iter()
                .map(|&value| K::show(value))
                .eq(shown.iter().copied())
    })
}

/// A job as the rules have it.
#[derive(Clone, Debug)]
struct Job {
    t: usize,
    s: usize,
    worked: bool,
    register: i32,
    held: Set,
    locked: Set,
    done: Set,
    finished: bool,
    awaited: bool,
}

/// The sets of a job type, worked out once.
struct Plan {
    named: Set,
    /// The way down to each item of the local lock tree, by item.
    ways: Vec<Vec<usize>>,
    /// The local children of each item, by item.
    children: Vec<Set>,
    /// The unlockable set of each state.
    unlockable: Vec<Set>,
}

impl Plan {
    fn of(workload: &Workload, t: usize) -> Self {
        let local = workload.local(t);
        let items = 0..workload.parents.len();
        let way = |d| match local.contains(&d) {
            true => workload.way_down(t, d),
            false => vec![],
        };
        Self {
            named: workload.named(t),
            ways: items.clone().map(way).collect(),
            children: items.map(|d| workload.local_children(t, d)).collect(),
            unlockable: (0..workload.types[t].len())
                .map(|s| workload.unlockable(t, s))
                .collect(),
        }
    }
}

/// A table as the rules have it.
pub struct Table<K: Kind> {
    pub workload: Workload,
    pub values: Vec<K::Value>,
    plans: Vec<Plan>,
    places: Vec<Option<Job>>,
}

impl<K: Kind> Table<K> {
    pub fn new(values: Vec<K::Value>, workload: Workload) -> Self {
        let types = 0..workload.types.len();
        Self {
            plans: types.map(|t| Plan::of(&workload, t)).collect(),
            workload,
            values,
            places: vec![None; 16],
        }
    }

    pub fn call(&mut self, call: Call) -> Answer {
        let answer = match call {
            Call::Begin(place, t, argument) => self.begin(place, t.into(), argument),
            Call::Step(place) => self.step(place).map(Answer::Stepped),
            Call::Collect(place) => self.collect(place),
            Call::Leave(place) => self.leave(place),
        };
        answer.unwrap_or_else(Answer::Refused)
    }

    /// The places of the unfinished jobs.
    pub fn unfinished(&self) -> Vec<u8> {
        let unfinished = |place: &u8| {
            let job = &self.places[usize::from(*place)];
            job.as_ref().is_some_and(|job| !job.finished)
        };
        (0..16).filter(unfinished).collect()
    }

    fn begin(&mut self, place: u8, t: usize, argument: i32) -> Result<Answer, u8> {
        if self.values.len() < self.workload.parents.len() || K::CODES < self.workload.codes {
            return Err(8);
        }
        if place > 15 {
            return Err(10);
        }
        if t >= self.workload.types.len() {
            return Err(11);
        }
        if self.places[usize::from(place)].is_some() {
            return Err(12);
        }
        self.places[usize::from(place)] = Some(Job {
            t,
            s: 0,
            worked: false,
            register: argument,
            held: Set::new(),
            locked: Set::new(),
            done: Set::new(),
            finished: false,
            awaited: true,
        });
        Ok(Answer::Began)
    }

    fn awaited(&self, place: u8) -> Result<Job, u8> {
        let job = self.places.get(usize::from(place)).cloned().flatten();
        job.filter(|job| job.awaited).ok_or(14)
    }

    fn collect(&mut self, place: u8) -> Result<Answer, u8> {
        let job = self.awaited(place)?;
        if !job.finished {
            return Err(15);
        }
        self.places[usize::from(place)] = None;
        Ok(Answer::Collected(job.register))
    }

    fn leave(&mut self, place: u8) -> Result<Answer, u8> {
        let mut job = self.awaited(place)?;
        job.awaited = false;
        self.places[usize::from(place)] = (!job.finished).then_some(job);
        Ok(Answer::Left)
    }

    fn step(&mut self, place: u8) -> Result<Told, u8> {
        if place > 15 {
            return Err(10);
        }
        let job = self.places[usize::from(place)].clone();
        let mut job = job.filter(|job| !job.finished).ok_or(13)?;
        let told = self.one_step(&mut job);
        let stays = !job.finished || job.awaited;
        self.places[usize::from(place)] = stays.then_some(job);
        Ok(told)
    }

    fn one_step(&mut self, job: &mut Job) -> Told {
        let state = self.workload.types[job.t][job.s].clone();
        // Rule 1.
        let lowest = job.held.iter().copied().find(|&d| self.may_go(job, d));
        if let Some(d) = lowest {
            job.held.remove(&d);
            return Told::Released(d as u8);
        }
        // Rule 2.
        if !job.worked && job.held.contains(&state.item) {
            let value = &mut self.values[state.item];
            (*value, job.register) = K::act(*value, state.code, state.operand, job.register);
            job.worked = true;
            return Told::Worked(state.item as u8);
        }
        // Rule 3.
        if !job.worked {
            let mut way = self.plans[job.t].ways[state.item].iter().copied();
            let wanted = way.find(|d| !job.locked.contains(d));
            let d = wanted.expect("a job wants what it does not hold");
            let holds = |job: &Option<Job>| job.as_ref().is_some_and(|job| job.held.contains(&d));
            return match self.places.iter().position(holds) {
                Some(q) => Told::Waiting(d as u8, q as u8),
                None => {
                    job.held.insert(d);
                    job.locked.insert(d);
                    Told::Locked(d as u8)
                }
            };
        }
        // Rule 4.
        if !state.arcs.is_empty() {
            job.s = taken(&state, job.register);
            job.worked = false;
            job.done.extend(&self.plans[job.t].unlockable[job.s]);
            return Told::Gone(job.s as u8);
        }
        // Rule 5.
        match job.held.pop_first() {
            Some(d) => Told::Released(d as u8),
            None => {
                job.finished = true;
                Told::Finished
            }
        }
    }

    fn may_go(&self, job: &Job, d: usize) -> bool {
        let plan = &self.plans[job.t];
        let leaf = |c: usize| plan.children[c].is_empty();
        let settled = |&c: &usize| job.locked.contains(&c) || leaf(c) && job.done.contains(&c);
        (job.done.contains(&d) || !plan.named.contains(&d)) && plan.children[d].iter().all(settled)
    }
}
