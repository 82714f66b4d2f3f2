//! A table of jobs under strict two-phase locking, over the workloads and
//! kinds of the crate `plain`, to compare the job table with.
//!
//! A job locks a state's item when it needs it, for itself alone, and keeps
//! all its locks until it ends, after the work of a terminal state. So jobs
//! can come into a deadlock: a circle of jobs that each wait for the next.
//! The youngest job of the circle, the one begun last, is then the victim:
//! its works are undone, its locks released, and it begins again with the
//! same argument. It keeps its age, so the oldest job is never a victim.
//!
//! An item that is released goes to the oldest of the jobs that wait for it.
//! Otherwise a caller who steps all jobs in turn may see them undo each other
//! forever, since a younger job can come first to what the oldest waits for.

#![forbid(unsafe_code)]
#![warn(missing_docs)]

use plain::{Kind, State, Workload, MAX_ITEMS, PLACES, STORE_LIMIT};

/// The holder of an item that no job holds.
const NOBODY: u8 = 255;
/// What a job wants that waits for nothing.
const NOTHING: u8 = 255;

/// What a step did.
#[derive(Clone, Copy, PartialEq, Eq, Debug)]
pub enum Progress {
    /// The job locked this item.
    Locked(u8),
    /// The job waits for this item, which the job at this place holds, or will
    /// have first, since it waits for it too and is older.
    Waiting(u8, u8),
    /// The job worked on this item.
    Worked(u8),
    /// The job went to this state.
    Gone(u8),
    /// The job released all its items and is finished.
    Finished,
    /// The job found itself in a deadlock, and the victim, at this place, was
    /// undone and restarted. It may be the job itself.
    Restarted(u8),
    /// There is no unfinished job at the place; nothing happened.
    Idle,
}

/// How far a place is.
#[derive(Clone, Copy, PartialEq, Eq, Debug)]
enum Phase {
    /// There is no job.
    Empty,
    /// The job has not worked in its state.
    Arrived,
    /// The job has worked in its state.
    Worked,
    /// The job is finished.
    Finished,
}

/// What stands at a place.
#[derive(Clone, Copy, Debug)]
struct Job {
    /// The items that the job holds; bit d is item d.
    held: u64,
    /// How many jobs were begun before this one.
    age: u64,
    register: i32,
    argument: i32,
    /// The index of the type's state 0, and of the job's state.
    first: u16,
    state: u16,
    /// The item that the job waits for.
    wants: u8,
    phase: Phase,
}

impl Job {
    const EMPTY: Self = Self {
        held: 0,
        age: 0,
        register: 0,
        argument: 0,
        first: 0,
        state: 0,
        wants: NOTHING,
        phase: Phase::Empty,
    };

    /// Works on the item of its state, which it holds.
    #[inline]
    fn work<K: Kind>(&mut self, state: &State, values: &mut [K::Value]) -> Progress {
        let value = &mut values[usize::from(state.item())];
        (*value, self.register) = K::act(*value, state.code(), state.operand(), self.register);
        self.phase = Phase::Worked;
        Progress::Worked(state.item())
    }

    /// Comes to a state of its type.
    #[inline]
    fn go(&mut self, s: u8) -> Progress {
        self.state = self.first + u16::from(s);
        self.phase = Phase::Arrived;
        Progress::Gone(s)
    }

    /// Releases all its items and ends.
    #[inline]
    fn finish(&mut self, holders: &mut [u8; MAX_ITEMS]) -> Progress {
        for item in items(self.held) {
            holders[item] = NOBODY;
        }
        self.held = 0;
        self.phase = Phase::Finished;
        Progress::Finished
    }
}

/// The items of a set, lowest first.
#[inline]
fn items(mut set: u64) -> impl Iterator<Item = usize> {
    std::iter::from_fn(move || {
        (set != 0).then(|| {
            let item = set.trailing_zeros() & 63;
            set &= set - 1;
            item as usize
        })
    })
}

/// A table of jobs under strict two-phase locking.
#[derive(Clone, Debug)]
pub struct TwoPhase<K: Kind> {
    values: Vec<K::Value>,
    /// The value that each held item had when it was locked.
    saved: Vec<K::Value>,
    workload: Workload,
    jobs: [Job; PLACES],
    /// The place of each item's holder.
    holders: [u8; MAX_ITEMS],
    /// The places of the jobs that wait for each item; bit p is place p.
    waiters: [u16; MAX_ITEMS],
    begun: u64,
    restarts: u64,
}

impl<K: Kind> TwoPhase<K> {
    /// A table whose sixteen places are all empty. Of more than 4,096 values
    /// the first 4,096 count, and the rest stays as it is.
    pub fn new(values: Vec<K::Value>, workload: Workload) -> Self {
        let saved = values.iter().copied().take(MAX_ITEMS).collect();
        Self {
            values,
            saved,
            workload,
            jobs: [Job::EMPTY; PLACES],
            holders: [NOBODY; MAX_ITEMS],
            waiters: [0; MAX_ITEMS],
            begun: 0,
            restarts: 0,
        }
    }

    /// Puts a new job of a type, with an argument, at an empty place. Answers
    /// whether that was possible: the store and the kind fit the workload,
    /// and there are such a place, which is empty, and such a type.
    pub fn begin(&mut self, place: u8, job_type: u8, argument: i32) -> bool {
        let fitting = self.values.len() >= self.workload.item_count().into()
            && K::CODES >= self.workload.code_count();
        let (Some(job), Some(plan)) = (
            self.jobs.get_mut(usize::from(place)),
            self.workload.job_type(job_type),
        ) else {
            return false;
        };
        if !fitting || job.phase != Phase::Empty {
            return false;
        }
        *job = Job {
            age: self.begun,
            register: argument,
            argument,
            first: plan.first_state(),
            state: plan.first_state(),
            phase: Phase::Arrived,
            ..Job::EMPTY
        };
        self.begun += 1;
        true
    }

    /// Moves the unfinished job at a place by one unit of work.
    #[inline]
    pub fn step(&mut self, place: u8) -> Progress {
        let Some(job) = self.jobs.get_mut(usize::from(place)) else {
            return Progress::Idle;
        };
        let state = &self.workload.states()[usize::from(job.state)];
        match job.phase {
            Phase::Empty | Phase::Finished => Progress::Idle,
            Phase::Arrived if job.held >> (state.item() & 63) & 1 != 0 => {
                job.work::<K>(state, &mut self.values)
            }
            Phase::Arrived => {
                let item = state.item();
                self.want(place, item)
            }
            Phase::Worked if !state.is_terminal() => job.go(state.next(job.register)),
            Phase::Worked => job.finish(&mut self.holders),
        }
    }

    /// Whether the job at a place is finished; false where there is none.
    #[inline]
    pub fn finished(&self, place: u8) -> bool {
        self.jobs
            .get(usize::from(place))
            .is_some_and(|job| job.phase == Phase::Finished)
    }

    /// Answers the register of the finished job at a place, which is then
    /// empty; nothing where there is none.
    pub fn collect(&mut self, place: u8) -> Option<i32> {
        let job = self.jobs.get_mut(usize::from(place))?;
        if job.phase != Phase::Finished {
            return None;
        }
        let register = job.register;
        *job = Job::EMPTY;
        Some(register)
    }

    /// How often a job was restarted, of all jobs together.
    pub fn restarts(&self) -> u64 {
        self.restarts
    }

    /// The number that item `i` shows, or nothing where there is no such
    /// item.
    pub fn shown(&self, i: usize) -> Option<i64> {
        let counted = &self.values[..self.values.len().min(STORE_LIMIT)];
        counted.get(i).map(|&value| K::show(value))
    }

    /// Ends the table and gives the values back.
    pub fn finish(self) -> Vec<K::Value> {
        self.values
    }

    /// The job at a place locks an item, or waits for it, or finds itself in
    /// a deadlock.
    #[inline]
    fn want(&mut self, place: u8, item: u8) -> Progress {
        let holder = self.holders[usize::from(item)];
        if holder != NOBODY {
            return self.wait(place, item, holder);
        }
        if self.waiters[usize::from(item)] != 0 {
            let oldest = self.oldest_to_want(place, item);
            if oldest != place {
                self.note_waiting(place, item);
                return Progress::Waiting(item, oldest);
            }
            self.forget_waiting(place);
        }
        self.jobs[usize::from(place)].held |= 1 << (item & 63);
        self.holders[usize::from(item)] = place;
        self.saved[usize::from(item)] = self.values[usize::from(item)];
        Progress::Locked(item)
    }

    /// The job at a place waits for an item's holder. A circle closes only
    /// where a job begins to wait: a job that locks waits for nothing then.
    #[inline]
    fn wait(&mut self, place: u8, item: u8, holder: u8) -> Progress {
        if self.jobs[usize::from(place)].wants == NOTHING {
            self.note_waiting(place, item);
            if let Some(victim) = self.victim(place) {
                self.restart(victim);
                return Progress::Restarted(victim);
            }
        }
        Progress::Waiting(item, holder)
    }

    /// The place of the oldest of the job at a place and of those that wait
    /// for an item.
    fn oldest_to_want(&self, place: u8, item: u8) -> u8 {
        let all = self.waiters[usize::from(item)] | 1 << place;
        items(all.into())
            .min_by_key(|&place| self.jobs[place].age)
            .map_or(place, |oldest| oldest as u8)
    }

    /// The job at a place waits for an item from now on.
    fn note_waiting(&mut self, place: u8, item: u8) {
        self.jobs[usize::from(place)].wants = item;
        self.waiters[usize::from(item)] |= 1 << place;
    }

    /// The job at a place waits for nothing from now on.
    fn forget_waiting(&mut self, place: u8) {
        let wants = &mut self.jobs[usize::from(place)].wants;
        if let Some(waiters) = self.waiters.get_mut(usize::from(*wants)) {
            *waiters &= !(1 << place);
        }
        *wants = NOTHING;
    }

    /// The youngest job of the circle of waiting jobs that the job at a place
    /// is in, if it is in one. Each job waits for at most one other, so there
    /// is one way to follow.
    fn victim(&self, place: u8) -> Option<u8> {
        let age = |place: u8| self.jobs[usize::from(place)].age;
        let mut youngest = place;
        let mut at = self.waits_for(place)?;
        while at != place {
            if age(at) > age(youngest) {
                youngest = at;
            }
            at = self.waits_for(at)?;
        }
        Some(youngest)
    }

    /// The place of the job that the job at a place waits for.
    fn waits_for(&self, place: u8) -> Option<u8> {
        let wants = self.jobs[usize::from(place)].wants;
        let holder = *self.holders.get(usize::from(wants))?;
        (holder != NOBODY).then_some(holder)
    }

    /// Undoes the job at a place and begins it again.
    fn restart(&mut self, place: u8) {
        self.forget_waiting(place);
        let job = &mut self.jobs[usize::from(place)];
        for item in items(job.held) {
            self.values[item] = self.saved[item];
            self.holders[item] = NOBODY;
        }
        *job = Job {
            held: 0,
            register: job.argument,
            state: job.first,
            phase: Phase::Arrived,
            ..*job
        };
        self.restarts += 1;
    }
}

#[cfg(test)]
mod tests {
    use super::*;
    use plain::{read, Slot, SlotValue, Tally};

    /// Two items and four codes; type 0 adds 1 to item 0 and 10 to item 1,
    /// type 1 first adds 10 to item 1 and then 1 to item 0.
    fn crossing() -> Workload {
        let mut file = b"TLW\x00\x01\x02\x02\x04\xff\x00".to_vec();
        file.extend([2, 0, 1, 0, 0, 0, 1, 1, 1, 0, 0, 0]);
        file.extend([1, 1, 0, 0, 0, 10, 0, 0, 0, 0, 0]);
        file.extend([2, 1, 1, 0, 0, 0, 10, 1, 1, 0, 0, 0]);
        file.extend([0, 1, 0, 0, 0, 1, 0, 0, 0, 0, 0]);
        file.extend([0, 0]);
        read(&file).unwrap().0
    }

    fn table() -> TwoPhase<Tally> {
        let mut table = TwoPhase::new(vec![0, 0], crossing());
        assert!(table.begin(4, 0, 7));
        assert!(table.begin(2, 1, 8));
        table
    }

    fn steps(table: &mut TwoPhase<Tally>, place: u8, told: &[Progress]) {
        for &told in told {
            assert_eq!(table.step(place), told);
        }
    }

    use Progress::{Finished, Gone, Idle, Locked, Restarted, Waiting, Worked};

    #[test]
    fn one_job() {
        let mut table = table();
        steps(
            &mut table,
            4,
            &[Locked(0), Worked(0), Gone(1), Locked(1), Worked(1)],
        );
        // All locks are kept up to the end.
        steps(&mut table, 2, &[Waiting(1, 4)]);
        assert!(!table.finished(4));
        assert_eq!(table.collect(4), None);
        steps(&mut table, 4, &[Finished, Idle]);
        assert!(table.finished(4));
        assert_eq!(table.collect(4), Some(10));
        assert_eq!(table.collect(4), None);
        steps(&mut table, 2, &[Locked(1)]);
        assert_eq!((table.shown(0), table.shown(1)), (Some(1), Some(10)));
    }

    /// Brings both jobs to their second items.
    fn crossed() -> TwoPhase<Tally> {
        let mut table = table();
        steps(&mut table, 4, &[Locked(0), Worked(0), Gone(1)]);
        steps(&mut table, 2, &[Locked(1), Worked(1), Gone(1)]);
        assert_eq!((table.shown(0), table.shown(1)), (Some(1), Some(10)));
        table
    }

    #[test]
    fn the_youngest_finds_the_deadlock() {
        let mut table = crossed();
        steps(&mut table, 4, &[Waiting(1, 2), Waiting(1, 2)]);
        steps(&mut table, 2, &[Restarted(2)]);
        assert_eq!((table.shown(0), table.shown(1)), (Some(1), Some(0)));
        steps(&mut table, 4, &[Locked(1), Worked(1)]);
        steps(&mut table, 2, &[Waiting(1, 4)]);
        steps(&mut table, 4, &[Finished]);
        steps(&mut table, 2, &[Locked(1), Worked(1), Gone(1), Locked(0)]);
        assert_eq!(table.restarts(), 1);
    }

    #[test]
    fn the_oldest_finds_the_deadlock() {
        let mut table = crossed();
        steps(&mut table, 2, &[Waiting(0, 4)]);
        steps(&mut table, 4, &[Restarted(2), Locked(1), Worked(1)]);
        steps(&mut table, 2, &[Waiting(1, 4)]);
        assert_eq!(table.restarts(), 1);
    }

    #[test]
    fn a_released_item_goes_to_the_oldest() {
        let mut table = table();
        assert!(table.begin(0, 0, 0));
        assert!(table.begin(1, 0, 0));
        steps(&mut table, 1, &[Locked(0), Worked(0), Gone(1), Locked(1)]);
        steps(&mut table, 0, &[Waiting(0, 1)]);
        steps(&mut table, 4, &[Waiting(0, 1)]);
        steps(&mut table, 1, &[Worked(1), Finished]);
        steps(&mut table, 0, &[Waiting(0, 4)]);
        steps(&mut table, 4, &[Locked(0), Worked(0)]);
        steps(&mut table, 0, &[Waiting(0, 4)]);
        assert_eq!(table.restarts(), 0);
    }

    #[test]
    fn refused_begins() {
        let mut table = table();
        assert!(!table.begin(4, 0, 0), "taken");
        assert!(!table.begin(16, 0, 0), "no such place");
        assert!(!table.begin(0, 2, 0), "no such type");
        steps(&mut table, 0, &[Idle]);
        steps(&mut table, 16, &[Idle]);
        assert!(!table.finished(16));
        assert!(!TwoPhase::<Tally>::new(vec![0], crossing()).begin(0, 0, 0));
        let slots = vec![SlotValue::Free; 2];
        assert!(!TwoPhase::<Slot>::new(slots, crossing()).begin(0, 0, 0));
    }
}
