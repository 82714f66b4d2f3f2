//! The workloads whose speed is measured.

use crate::files::{Parts, State};

/// The parents of a chain of items.
fn chain(items: usize) -> Vec<u8> {
    (0..items)
        .map(|i| if i == 0 { 255 } else { i as u8 - 1 })
        .collect()
}

/// The parents of a tree in which each item has two children, as far as there are items.
fn halving(items: usize) -> Vec<u8> {
    (0..items)
        .map(|i| if i == 0 { 255 } else { (i as u8 - 1) / 2 })
        .collect()
}

/// States in a row, over these items in turn, each adding to its tally.
fn row(items: &[u8]) -> Vec<State> {
    let last = items.len() - 1;
    let arcs = |s: usize| if s == last { vec![] } else { vec![s as u8 + 1] };
    items
        .iter()
        .enumerate()
        .map(|(s, &item)| State {
            item,
            code: 1,
            operand: s as i32,
            arcs: arcs(s),
        })
        .collect()
}

/// A largest file: a chain of 64 items, 8 types of 32 states in a row, a note of 1,000 bytes.
pub fn largest_chain() -> Parts {
    let spread: Vec<u8> = (0..32).map(|s| 2 * s).collect();
    Parts {
        codes: 4,
        parents: chain(64),
        types: (0..8).map(|_| row(&spread)).collect(),
        note: vec![7; 1_000],
    }
}

/// Another largest file: a tree that halves, and states with four arcs each, ahead and back.
pub fn largest_web() -> Parts {
    let state = |t: usize, s: usize| State {
        item: ((7 * s + 11 * t) % 64) as u8,
        code: 1,
        operand: -1,
        arcs: if s == 31 {
            vec![]
        } else {
            [s + 1, 31, s / 2, (s + 5) % 32].map(|m| m as u8).to_vec()
        },
    };
    Parts {
        codes: 4,
        parents: halving(64),
        types: (0..8)
            .map(|t| (0..32).map(|s| state(t, s)).collect())
            .collect(),
        note: vec![7; 1_000],
    }
}

/// Eight states down a chain of items: each job locks and leaves every item.
pub fn down_a_chain(items: usize) -> Parts {
    let spread: Vec<u8> = (1..=8).map(|s| (s * items / 8 - 1) as u8).collect();
    Parts {
        codes: 4,
        parents: chain(items),
        types: vec![row(&spread)],
        note: vec![],
    }
}

/// Eight states over the leaves of a tree that halves; eight types, each in a part of its own.
pub fn over_a_tree(items: usize) -> Parts {
    let leaves: Vec<u8> = (items / 2..items).map(|i| i as u8).collect();
    let types = (0..8).map(|t| {
        let part: Vec<u8> = (0..8)
            .map(|s| leaves[(t * leaves.len() / 8 + s * leaves.len() / 64) % leaves.len()])
            .collect();
        row(&part)
    });
    Parts {
        codes: 4,
        parents: halving(items),
        types: types.collect(),
        note: vec![],
    }
}

/// Eight types on items of their own right below the root: their jobs never meet.
pub fn apart() -> Parts {
    let parents = (0..64)
        .map(|i| {
            if i == 0 {
                255
            } else if i <= 8 {
                0
            } else {
                1 + (i - 9) % 8
            }
        })
        .collect();
    let types = (0..8).map(|t| {
        let own: Vec<u8> = (0..7).map(|j| 9 + t + 8 * j).filter(|&i| i < 64).collect();
        row(&[&[1 + t][..], &own[..]].concat())
    });
    Parts {
        codes: 4,
        parents,
        types: types.collect(),
        note: vec![],
    }
}

/// Types that go over the same few items in two orders: each meets the others.
pub fn crossing() -> Parts {
    let parents = (0..8).map(|i| if i == 0 { 255 } else { 0 }).collect();
    let types = (0..8u8).map(|t| {
        let mut items: Vec<u8> = (0..6).map(|s| 1 + (s + t) % 7).collect();
        if t % 2 == 1 {
            items.reverse();
        }
        row(&items)
    });
    Parts {
        codes: 4,
        parents,
        types: types.collect(),
        note: vec![],
    }
}
