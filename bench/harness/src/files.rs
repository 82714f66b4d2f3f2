//! Workload files: random ones that keep the rules, and damage to them.

use crate::random::Random;

/// A state as a file has it.
#[derive(Clone, Debug)]
pub struct State {
    pub item: u8,
    pub code: u8,
    pub operand: i32,
    pub arcs: Vec<u8>,
}

/// What a file holds.
#[derive(Clone, Debug)]
pub struct Parts {
    pub codes: u8,
    pub parents: Vec<u8>,
    pub types: Vec<Vec<State>>,
    pub note: Vec<u8>,
}

impl Parts {
    /// Makes do with so many codes.
    pub fn keep_codes(&mut self, codes: u8) {
        self.codes = codes;
        for state in self.types.iter_mut().flatten() {
            state.code %= codes;
        }
    }

    /// The bytes of the file.
    pub fn bytes(&self) -> Vec<u8> {
        let mut bytes = b"TLW\0\x01".to_vec();
        bytes.extend([self.parents.len() as u8, self.types.len() as u8, self.codes]);
        bytes.extend(&self.parents);
        for states in &self.types {
            bytes.push(states.len() as u8);
            for state in states {
                bytes.extend([state.item, state.code]);
                bytes.extend(state.operand.to_be_bytes());
                bytes.push(state.arcs.len() as u8);
                let mut arcs = [0; 4];
                arcs[..state.arcs.len()].copy_from_slice(&state.arcs);
                bytes.extend(arcs);
            }
        }
        bytes.extend((self.note.len() as u16).to_be_bytes());
        bytes.extend(&self.note);
        bytes
    }
}

/// A number up to `most`: mostly small, sometimes the most itself.
fn size(random: &mut Random, most: usize) -> usize {
    match random.below(6) {
        0 => most,
        1 => random.within(1, most),
        2 => 1,
        _ => random.within(1, most.min(6)),
    }
}

/// The parents of a random tree: a chain, a star or anything between.
fn tree(random: &mut Random, items: usize) -> Vec<u8> {
    let mut order: Vec<u8> = (0..items as u8).collect();
    random.shuffle(&mut order);
    let near = *random.pick(&[1, 2, 3, 64]);
    let mut parents = vec![255; items];
    for i in 1..items {
        let back = random.within(1, near.min(i));
        let above = if near == 64 {
            random.below(i)
        } else {
            i - back
        };
        parents[order[i] as usize] = order[above];
    }
    if random.once_in(8) {
        parents = (0..items).map(|i| if i == 0 { 255 } else { 0 }).collect();
    }
    parents
}

/// The arcs of a graph in which each state is reached from state 0 and reaches a terminal one:
/// a tree of arcs, its states renumbered, and more arcs from states that are not its leaves.
fn graph(random: &mut Random, states: usize) -> Vec<Vec<u8>> {
    let mut names: Vec<u8> = (0..states as u8).collect();
    random.shuffle(&mut names[1..]);
    let mut arcs = vec![vec![]; states];
    for (s, &name) in names.iter().enumerate().skip(1) {
        let near = random.once_in(2);
        let from = (0..s).rev().filter(|&p| arcs[p].len() < 4);
        let from: Vec<usize> = if near {
            from.take(2).collect()
        } else {
            from.collect()
        };
        arcs[*random.pick(&from)].push(name);
    }
    let more = random.below(2 * states + 1);
    for _ in 0..more {
        let s = random.below(states);
        if (1..4).contains(&arcs[s].len()) {
            let to = random.below(states) as u8;
            arcs[s].push(to);
        }
    }
    let mut named = vec![vec![]; states];
    for (s, mut row) in arcs.into_iter().enumerate() {
        random.shuffle(&mut row);
        named[names[s] as usize] = row;
    }
    named
}

/// A random job type, over a few of the items or over all.
fn job_type(random: &mut Random, items: usize, codes: u8) -> Vec<State> {
    let count = size(random, 32);
    let few: Vec<u8> = (0..random.within(1, 5))
        .map(|_| random.below(items) as u8)
        .collect();
    let any = random.once_in(3);
    graph(random, count)
        .into_iter()
        .map(|arcs| State {
            item: if any {
                random.below(items) as u8
            } else {
                *random.pick(&few)
            },
            code: random.below(codes as usize) as u8,
            operand: random.signed(),
            arcs,
        })
        .collect()
}

/// Random parts that keep the rules.
pub fn parts(random: &mut Random) -> Parts {
    let items = size(random, 64);
    let codes = *random.pick(&[4, 4, 4, 4, 3, 3, 2, 1, 5, 255]);
    let types = size(random, 8);
    let note = match random.below(6) {
        0 => 1_000,
        1 => random.within(0, 1_000),
        2 => 1,
        _ => 0,
    };
    Parts {
        codes,
        parents: tree(random, items),
        types: (0..types).map(|_| job_type(random, items, codes)).collect(),
        note: (0..note).map(|_| random.byte()).collect(),
    }
}

/// A byte that is likely to break a rule just so.
fn odd_byte(random: &mut Random, file: &[u8]) -> u8 {
    let items = file.get(5).copied().unwrap_or(1);
    match random.below(8) {
        0 => random.byte(),
        1 => 255,
        2 => 0,
        3 => items,
        4 => items.wrapping_sub(1),
        5 => file[random.below(file.len())],
        6 => random.below(33) as u8,
        _ => random.below(6) as u8,
    }
}

/// Changes one byte: anywhere, in the header and the parents, or among the states.
fn change(random: &mut Random, file: &mut [u8]) {
    let at = match random.below(4) {
        0 => random.below(file.len()),
        1 => random.below(file.len().min(8)),
        2 => random.below(file.len().min(8 + 64)),
        _ => random.within(file.len().min(8) - 1, file.len() - 1),
    };
    file[at] = match random.below(4) {
        0 => file[at].wrapping_add(1),
        1 => file[at].wrapping_sub(1),
        _ => odd_byte(random, file),
    };
}

/// Damages a file in one way.
fn damage_once(random: &mut Random, file: &mut Vec<u8>) {
    if file.is_empty() {
        return;
    }
    match random.below(8) {
        0 => file.truncate(random.below(file.len())),
        1 => {
            let more = random.within(1, 40);
            file.extend((0..more).map(|_| random.byte()));
        }
        2 => {
            let at = random.below(file.len());
            file.remove(at);
        }
        3 => {
            let at = random.below(file.len());
            file.insert(at, random.byte());
        }
        _ => change(random, file),
    }
}

/// Turns the arcs of a state, so that some state may be reached no more, or reach no end: to the state itself,
/// away, or from a terminal state back to the first.
pub fn turn_arcs(random: &mut Random, parts: &mut Parts) {
    let t = random.below(parts.types.len());
    let s = random.below(parts.types[t].len());
    let arcs = &mut parts.types[t][s].arcs;
    match arcs.len() {
        0 => arcs.push(if random.once_in(2) { s as u8 } else { 0 }),
        count if random.once_in(2) => arcs[random.below(count)] = s as u8,
        _ => arcs.clear(),
    }
}

/// A file with one to three damages. Some are none, since the new byte is the old one or as good.
pub fn damaged(random: &mut Random, mut file: Vec<u8>) -> Vec<u8> {
    for _ in 0..*random.pick(&[1, 1, 1, 2, 3]) {
        damage_once(random, &mut file);
    }
    file
}
