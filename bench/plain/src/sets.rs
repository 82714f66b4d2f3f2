//! The sets of a job type: unreachable, unlockable, and its local lock tree.

use crate::bits::{bit, items};
use crate::workload::{JobType, State};
use crate::{MAX_ITEMS, MAX_STATES};

/// The lock tree while a file is read.
pub(crate) struct Tree {
    pub(crate) parents: [u8; MAX_ITEMS],
    pub(crate) children: [u64; MAX_ITEMS],
    /// Each item with all that lie above it.
    pub(crate) above: [u64; MAX_ITEMS],
}

/// What comes before and after each state of a type.
pub(crate) struct Ways {
    /// The items named on the ways from each state, its own counted.
    after: [u64; MAX_STATES],
    /// The items named on the ways to each state, its own counted.
    before: [u64; MAX_STATES],
    /// The states that reach a terminal state.
    ending: u32,
    /// The states that are reached from state 0.
    reached: u32,
}

impl Ways {
    /// Follows the arcs of a type's states. One sweep each way is enough
    /// where all arcs lead to later states.
    pub(crate) fn of(states: &[State]) -> Self {
        let mut ways = Self {
            after: [0; MAX_STATES],
            before: [0; MAX_STATES],
            ending: 0,
            reached: 1,
        };
        for (s, state) in states.iter().enumerate() {
            ways.after[s] = bit(state.item);
            ways.before[s] = bit(state.item);
            ways.ending |= u32::from(state.is_terminal()) << s;
        }
        while ways.sweep_up(states) {}
        while ways.sweep_down(states) {}
        ways
    }

    /// Gives what is known to come after each state to those with an arc to
    /// it, the last state first. Answers whether that may bring more news.
    fn sweep_up(&mut self, states: &[State]) -> bool {
        let (mut news, mut back) = (false, false);
        for (s, state) in states.iter().enumerate().rev() {
            let (mut after, mut ending) = (self.after[s], self.ending);
            for next in targets(state) {
                after |= self.after[next];
                ending |= (self.ending >> next & 1) << s;
                back |= next <= s;
            }
            news |= (after, ending) != (self.after[s], self.ending);
            (self.after[s], self.ending) = (after, ending);
        }
        news && back
    }

    /// Gives what is known to come before each state to those that its arcs
    /// lead to, the first state first. Answers whether that may bring more
    /// news.
    fn sweep_down(&mut self, states: &[State]) -> bool {
        let (mut news, mut back) = (false, false);
        for (s, state) in states.iter().enumerate() {
            for next in targets(state) {
                let before = self.before[next] | self.before[s];
                let reached = self.reached | (self.reached >> s & 1) << next;
                news |= (before, reached) != (self.before[next], self.reached);
                (self.before[next], self.reached) = (before, reached);
                back |= next <= s;
            }
        }
        news && back
    }

    /// The lowest of the states that is not reached from state 0 or reaches
    /// no terminal state.
    pub(crate) fn stray(&self, count: u8) -> Option<usize> {
        let lowest = (self.reached & self.ending).trailing_ones();
        (lowest < count.into()).then_some(lowest as usize)
    }
}

/// Where the arcs of a state lead.
#[inline]
fn targets(state: &State) -> impl Iterator<Item = usize> + '_ {
    let inside = |&next: &u8| usize::from(next) % MAX_STATES;
    state.arcs().iter().map(inside)
}

/// Fills in the unreachable and unlockable sets of a type's states; `all` is
/// the set of the workload's items.
pub(crate) fn fill_sets(states: &mut [State], ways: &Ways, all: u64) {
    // Of the states with an arc to each state: the items still reachable
    // from all of them, and those named on the ways to any of them.
    let mut kept = [u64::MAX; MAX_STATES];
    let mut named = [0u64; MAX_STATES];
    for (p, state) in states.iter().enumerate() {
        for next in targets(state) {
            kept[next] &= ways.after[p];
            named[next] |= ways.before[p];
        }
    }
    for (s, state) in states.iter_mut().enumerate() {
        state.unreachable = all & !ways.after[s];
        state.unlockable = state.unreachable & kept[s] & named[s];
    }
}

/// The plan of a type, with the ways of its states filled in; `first` is the
/// index of its state 0.
pub(crate) fn plan(states: &mut [State], tree: &Tree, first: usize) -> JobType {
    let (mut named, mut any, mut common) = (0, 0, u64::MAX);
    for state in states.iter() {
        let above = tree.above[usize::from(state.item)];
        named |= bit(state.item);
        any |= above;
        common &= above;
    }
    let root = deepest(common, states[0].item, tree);
    let local = any & !common | bit(root);
    for state in states.iter_mut() {
        state.way = local & tree.above[usize::from(state.item)];
    }
    let is_leaf = |d: &u8| tree.children[usize::from(*d)] & local == 0;
    JobType {
        first: first as u16,
        state_count: states.len() as u8,
        root,
        local,
        named,
        leaves: items(named).filter(is_leaf).fold(0, |set, d| set | bit(d)),
    }
}

/// The item on the way up from `item` that has just `chain` above it.
fn deepest(chain: u64, mut item: u8, tree: &Tree) -> u8 {
    while tree.above[usize::from(item)] != chain {
        item = tree.parents[usize::from(item)];
    }
    item
}
