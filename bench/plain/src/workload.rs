//! The workload: what a file holds, and what steps look up in it.

use crate::bits::bit;
use crate::MAX_ITEMS;

/// The parent byte of the root.
pub(crate) const ROOT: u8 = 255;

/// A workload. Every value came from a file that keeps the rules, and carries
/// the sets that a job needs, so that a step never walks a graph.
#[derive(Clone, Debug, PartialEq, Eq)]
pub struct Workload {
    pub(crate) item_count: u8,
    pub(crate) code_count: u8,
    /// The parent bytes; 0 from the last item on.
    pub(crate) parents: [u8; MAX_ITEMS],
    /// The children of each item.
    pub(crate) children: [u64; MAX_ITEMS],
    pub(crate) types: Vec<JobType>,
    /// The states of all types, type by type.
    pub(crate) states: Vec<State>,
}

/// A job type: where its states are, and its local lock tree.
#[derive(Clone, Debug, PartialEq, Eq)]
pub struct JobType {
    /// The index of its state 0 among the states of all types.
    pub(crate) first: u16,
    pub(crate) state_count: u8,
    pub(crate) root: u8,
    /// The items of the local lock tree.
    pub(crate) local: u64,
    /// The items that the type names.
    pub(crate) named: u64,
    /// The items of the local lock tree without local children.
    pub(crate) leaves: u64,
}

/// A state of a job type, with its sets.
#[derive(Clone, Debug, PartialEq, Eq)]
pub struct State {
    /// The items from the local root down to the state's item.
    pub(crate) way: u64,
    pub(crate) unlockable: u64,
    pub(crate) unreachable: u64,
    pub(crate) operand: i32,
    pub(crate) item: u8,
    pub(crate) code: u8,
    pub(crate) arc_count: u8,
    /// The arcs in their order; 0 from the last on.
    pub(crate) arcs: [u8; 4],
}

impl State {
    /// The item that the state works on.
    #[inline]
    pub fn item(&self) -> u8 {
        self.item
    }

    /// The operation code.
    #[inline]
    pub fn code(&self) -> u8 {
        self.code
    }

    /// The operand.
    #[inline]
    pub fn operand(&self) -> i32 {
        self.operand
    }

    /// The states that the arcs lead to, in their order; none of a terminal
    /// state.
    #[inline]
    pub fn arcs(&self) -> &[u8] {
        &self.arcs[..usize::from(self.arc_count)]
    }

    /// Whether there is no arc.
    #[inline]
    pub fn is_terminal(&self) -> bool {
        self.arc_count == 0
    }

    /// The state that a job with this register goes to: the register, raised
    /// to 0 and cut to the last arc, is the arc that it takes. A terminal
    /// state answers 0.
    #[inline]
    pub fn next(&self, register: i32) -> u8 {
        let last = i32::from(self.arc_count) - 1;
        self.arcs[(register.min(last).max(0) & 3) as usize]
    }
}

impl JobType {
    /// The index of its state 0 in [`Workload::states`].
    #[inline]
    pub fn first_state(&self) -> u16 {
        self.first
    }

    /// The number of its states.
    #[inline]
    pub fn state_count(&self) -> u8 {
        self.state_count
    }
}

impl Workload {
    /// The number of items, 1 to 64.
    pub fn item_count(&self) -> u8 {
        self.item_count
    }

    /// The number of operation codes, 1 to 255.
    pub fn code_count(&self) -> u8 {
        self.code_count
    }

    /// The number of job types, 1 to 8.
    pub fn type_count(&self) -> u8 {
        self.types.len() as u8
    }

    /// The number of states of a type.
    pub fn state_count(&self, t: u8) -> Option<u8> {
        Some(self.job_type(t)?.state_count)
    }

    /// The parent of an item: nothing outside the workload, and `Some(None)`
    /// for the root.
    pub fn parent(&self, item: u8) -> Option<Option<u8>> {
        let row = &self.parents[..usize::from(self.item_count)];
        let parent = *row.get(usize::from(item))?;
        Some((parent != ROOT).then_some(parent))
    }

    /// A job type.
    #[inline]
    pub fn job_type(&self, t: u8) -> Option<&JobType> {
        self.types.get(usize::from(t))
    }

    /// A state of a type.
    pub fn state(&self, t: u8, s: u8) -> Option<&State> {
        let job_type = self.job_type(t)?;
        (s < job_type.state_count)
            .then(|| &self.states[usize::from(job_type.first) + usize::from(s)])
    }

    /// The states of all types, type by type.
    #[inline]
    pub fn states(&self) -> &[State] {
        &self.states
    }

    /// The items that no state on any way from the state names; bit d is
    /// item d.
    pub fn unreachable(&self, t: u8, s: u8) -> Option<u64> {
        Some(self.state(t, s)?.unreachable)
    }

    /// The items that a job has just left behind for good when it comes to
    /// the state.
    pub fn unlockable(&self, t: u8, s: u8) -> Option<u64> {
        Some(self.state(t, s)?.unlockable)
    }

    /// The deepest item that is, or lies above, every item that the type
    /// names.
    pub fn local_root(&self, t: u8) -> Option<u8> {
        Some(self.job_type(t)?.root)
    }

    /// The items on the ways from the local root down to the named items,
    /// both ends counted.
    pub fn local_items(&self, t: u8) -> Option<u64> {
        Some(self.job_type(t)?.local)
    }

    /// The set of the parent of an item, empty for the root.
    #[inline]
    pub(crate) fn parent_bit(&self, item: u8) -> u64 {
        match self.parents[usize::from(item & 63)] {
            ROOT => 0,
            parent => bit(parent),
        }
    }
}
