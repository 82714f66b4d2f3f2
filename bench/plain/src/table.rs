//! The job table: sixteen places, and the calls on them.

use crate::bits::{bit, items, lowest};
use crate::workload::{JobType, State, Workload};
use crate::{Kind, MAX_ITEMS};

/// The number of places.
pub const PLACES: usize = 16;

/// The most values of a store that count.
pub const STORE_LIMIT: usize = 4_096;

/// The holder of an item that no job holds.
const NOBODY: u8 = 255;

/// What a step did.
#[derive(Clone, Copy, PartialEq, Eq, Debug)]
pub enum Told {
    /// The job released this item.
    Released(u8),
    /// The job worked on this item.
    Worked(u8),
    /// The job locked this item.
    Locked(u8),
    /// The job waits for this item, which the job at this place holds.
    Waiting(u8, u8),
    /// The job went to this state.
    Gone(u8),
    /// The job is finished.
    Finished,
}

/// A call as plain data. A ticket counts by its place.
#[derive(Clone, Copy, PartialEq, Eq, Debug)]
pub enum Call {
    /// Begin, at a place, a job of a type, with an argument.
    Begin(u8, u8, i32),
    /// Step the job at a place.
    Step(u8),
    /// Collect the register of the finished job at a place.
    Collect(u8),
    /// Nobody will collect the job at a place.
    Leave(u8),
}

/// What a call answers, as plain data.
#[derive(Clone, Copy, PartialEq, Eq, Debug)]
pub enum Answer {
    /// The begin is accepted.
    Began,
    /// The step is made.
    Stepped(Told),
    /// The register of the finished job.
    Collected(i32),
    /// The leave is accepted.
    Left,
    /// The number of a [`Refusal`].
    Refused(u8),
}

/// Why a call is refused. It has then changed nothing.
#[derive(Clone, Copy, PartialEq, Eq, Debug)]
#[repr(u8)]
pub enum Refusal {
    /// The store has fewer items, or its kind fewer codes, than the workload.
    Misfit = 8,
    /// The place is above 15.
    NoSuchPlace = 10,
    /// There is no such job type.
    NoSuchType = 11,
    /// The place is not empty.
    PlaceTaken = 12,
    /// No unfinished job is at the place.
    NoJob = 13,
    /// No accepted begin at the place awaits its collect or leave.
    NotAwaited = 14,
    /// The job is not finished.
    NotFinished = 15,
}

impl Refusal {
    /// The number of the refusal.
    #[inline]
    pub fn number(self) -> u8 {
        self as u8
    }
}

impl Answer {
    /// The answer of a call that succeeds with `made`.
    #[inline]
    fn of<T>(result: Result<T, Refusal>, made: impl FnOnce(T) -> Self) -> Self {
        match result {
            Ok(value) => made(value),
            Err(refusal) => Self::Refused(refusal.number()),
        }
    }
}

/// How far a place is.
#[derive(Clone, Copy, PartialEq, Eq, Debug)]
enum Phase {
    /// There is no job.
    Empty,
    /// The job has not worked in its state.
    Arrived,
    /// The job has worked in its state.
    Worked,
    /// The job is finished.
    Finished,
}

/// What stands at a place. Sets are kept up as they change, so that a step
/// needs only to test them.
#[derive(Clone, Copy, Debug)]
struct Job {
    /// The held items that may go.
    going: u64,
    /// The items that were never locked, but their parent was, or that are
    /// the local root. On a way down from the local root this is the first
    /// item that was never locked.
    open: u64,
    held: u64,
    locked: u64,
    done: u64,
    register: i32,
    /// The index of the type's state 0, and of the job's state.
    first: u16,
    state: u16,
    kind: u8,
    phase: Phase,
    awaited: bool,
}

impl Job {
    const EMPTY: Self = Self {
        going: 0,
        open: 0,
        held: 0,
        locked: 0,
        done: 0,
        register: 0,
        first: 0,
        state: 0,
        kind: 0,
        phase: Phase::Empty,
        awaited: false,
    };

    /// A new job.
    fn new(kind: u8, job_type: &JobType, argument: i32) -> Self {
        Self {
            open: bit(job_type.root),
            register: argument,
            first: job_type.first,
            state: job_type.first,
            kind,
            phase: Phase::Arrived,
            awaited: true,
            ..Self::EMPTY
        }
    }

    /// Releases the lowest of some held items.
    #[inline]
    fn release(&mut self, among: u64, holders: &mut [u8; MAX_ITEMS]) -> Told {
        let item = lowest(among);
        self.held &= !bit(item);
        self.going &= !bit(item);
        holders[usize::from(item)] = NOBODY;
        Told::Released(item)
    }

    /// Works on the item of its state, which it holds.
    #[inline]
    fn work<K: Kind>(&mut self, state: &State, values: &mut [K::Value]) -> Told {
        debug_assert_ne!(self.held & bit(state.item), 0);
        let value = &mut values[usize::from(state.item)];
        (*value, self.register) = K::act(*value, state.code, state.operand, self.register);
        self.phase = Phase::Worked;
        Told::Worked(state.item)
    }

    /// Locks an open item for the job, which stands at this place, or waits
    /// for its holder.
    #[inline]
    fn want(
        &mut self,
        item: u8,
        place: u8,
        holders: &mut [u8; MAX_ITEMS],
        workload: &Workload,
    ) -> Told {
        let holder = &mut holders[usize::from(item)];
        if *holder != NOBODY {
            return Told::Waiting(item, *holder);
        }
        *holder = place;
        self.lock(item, workload);
        Told::Locked(item)
    }

    /// Locks an open item that nobody holds.
    #[inline]
    fn lock(&mut self, item: u8, workload: &Workload) {
        self.held |= bit(item);
        self.locked |= bit(item);
        self.open = self.open & !bit(item) | workload.children[usize::from(item)];
        self.let_go(bit(item) | workload.parent_bit(item), workload);
    }

    /// Comes to a state of its type.
    #[inline]
    fn go(&mut self, s: u8, workload: &Workload) -> Told {
        self.state = self.first + u16::from(s);
        self.phase = Phase::Arrived;
        let new = workload.states[usize::from(self.state)].unlockable;
        if new & !self.done != 0 {
            self.done |= new;
            self.let_go(self.held, workload);
        }
        Told::Gone(s)
    }

    /// Finds which of some items may go from now on: held ones that are done
    /// or not named, and whose local children were all locked or are leaves
    /// that are done. An item that may go always may.
    #[inline]
    fn let_go(&mut self, among: u64, workload: &Workload) {
        let job_type = &workload.types[usize::from(self.kind)];
        let settled = self.locked | self.done & job_type.leaves | !job_type.local;
        let spare = self.done | !job_type.named;
        for item in items(among & self.held & spare & !self.going) {
            if workload.children[usize::from(item)] & !settled == 0 {
                self.going |= bit(item);
            }
        }
    }

    /// Ends the job, which has released everything.
    #[inline]
    fn finish(&mut self) -> Told {
        if self.awaited {
            self.phase = Phase::Finished;
        } else {
            *self = Self::EMPTY;
        }
        Told::Finished
    }
}

/// A job table: the values of a store, a workload and sixteen places.
#[derive(Clone, Debug)]
pub struct Table<K: Kind> {
    values: Vec<K::Value>,
    workload: Workload,
    jobs: [Job; PLACES],
    /// The place of each item's holder.
    holders: [u8; MAX_ITEMS],
}

impl<K: Kind> Table<K> {
    /// A table whose places are all empty. Of more than 4,096 values the
    /// first 4,096 count, and the rest stays as it is.
    pub fn new(values: Vec<K::Value>, workload: Workload) -> Self {
        Self {
            values,
            workload,
            jobs: [Job::EMPTY; PLACES],
            holders: [NOBODY; MAX_ITEMS],
        }
    }

    /// Ends the table and gives the values back.
    pub fn finish(self) -> Vec<K::Value> {
        self.values
    }

    /// The workload.
    pub fn workload(&self) -> &Workload {
        &self.workload
    }

    /// Whether there are at least as many values, and the kind has at least
    /// as many codes, as the workload needs.
    pub fn fitting(&self) -> bool {
        self.values.len() >= self.workload.item_count.into() && K::CODES >= self.workload.code_count
    }

    /// The number that item `i` shows, or nothing where there is no such
    /// item.
    pub fn shown(&self, i: usize) -> Option<i64> {
        let counted = &self.values[..self.values.len().min(STORE_LIMIT)];
        counted.get(i).map(|&value| K::show(value))
    }

    /// Makes one call.
    #[inline]
    pub fn call(&mut self, call: Call) -> Answer {
        match call {
            Call::Begin(place, job_type, argument) => {
                Answer::of(self.begin(place, job_type, argument), |()| Answer::Began)
            }
            Call::Step(place) => Answer::of(self.step(place), Answer::Stepped),
            Call::Collect(place) => Answer::of(self.collect(place), Answer::Collected),
            Call::Leave(place) => Answer::of(self.leave(place), |()| Answer::Left),
        }
    }

    /// Puts a new job of a type, with an argument, at an empty place.
    ///
    /// # Errors
    ///
    /// `Misfit`, `NoSuchPlace`, `NoSuchType`, `PlaceTaken`, tested in this
    /// order.
    pub fn begin(&mut self, place: u8, job_type: u8, argument: i32) -> Result<(), Refusal> {
        if !self.fitting() {
            return Err(Refusal::Misfit);
        }
        let job = self
            .jobs
            .get_mut(usize::from(place))
            .ok_or(Refusal::NoSuchPlace)?;
        let plan = self
            .workload
            .job_type(job_type)
            .ok_or(Refusal::NoSuchType)?;
        if job.phase != Phase::Empty {
            return Err(Refusal::PlaceTaken);
        }
        *job = Job::new(job_type, plan, argument);
        Ok(())
    }

    /// The unfinished job at a place makes one step.
    ///
    /// # Errors
    ///
    /// `NoSuchPlace`, then `NoJob`.
    #[inline]
    pub fn step(&mut self, place: u8) -> Result<Told, Refusal> {
        let Self {
            values,
            workload,
            jobs,
            holders,
        } = self;
        let job = jobs
            .get_mut(usize::from(place))
            .ok_or(Refusal::NoSuchPlace)?;
        if job.going != 0 {
            return Ok(job.release(job.going, holders));
        }
        let state = &workload.states[usize::from(job.state)];
        Ok(match job.phase {
            Phase::Empty | Phase::Finished => return Err(Refusal::NoJob),
            Phase::Arrived => match state.way & job.open {
                0 => job.work::<K>(state, values),
                wanted => job.want(lowest(wanted), place, holders, workload),
            },
            Phase::Worked if !state.is_terminal() => job.go(state.next(job.register), workload),
            Phase::Worked if job.held != 0 => job.release(job.held, holders),
            Phase::Worked => job.finish(),
        })
    }

    /// Answers the register of the finished job at a place, which is then
    /// empty.
    ///
    /// # Errors
    ///
    /// `NotAwaited`, then `NotFinished`.
    pub fn collect(&mut self, place: u8) -> Result<i32, Refusal> {
        let job = self.awaited(place)?;
        if job.phase != Phase::Finished {
            return Err(Refusal::NotFinished);
        }
        let register = job.register;
        *job = Job::EMPTY;
        Ok(register)
    }

    /// Says that nobody will collect the job at a place: a finished job's
    /// place empties, an unfinished job's with its last step.
    ///
    /// # Errors
    ///
    /// `NotAwaited`.
    pub fn leave(&mut self, place: u8) -> Result<(), Refusal> {
        let job = self.awaited(place)?;
        if job.phase == Phase::Finished {
            *job = Job::EMPTY;
        } else {
            job.awaited = false;
        }
        Ok(())
    }

    /// The job at a place, if it is awaited.
    fn awaited(&mut self, place: u8) -> Result<&mut Job, Refusal> {
        self.jobs
            .get_mut(usize::from(place))
            .filter(|job| job.awaited)
            .ok_or(Refusal::NotAwaited)
    }
}

#[cfg(test)]
mod tests {
    use super::*;
    use crate::{read, Slot, SlotValue, Tally};

    /// One item and four codes; a type that adds 5, and one that reads.
    fn small() -> Workload {
        let mut file = b"TLW\x00\x01\x01\x02\x04\xff".to_vec();
        file.extend([1, 0, 1, 0, 0, 0, 5, 0, 0, 0, 0, 0]);
        file.extend([1, 0, 0, 0, 0, 0, 0, 0, 0, 0, 0, 0]);
        file.extend([0, 0]);
        read(&file).unwrap().0
    }

    fn table() -> Table<Tally> {
        Table::new(vec![0], small())
    }

    #[test]
    fn a_job_from_begin_to_collect() {
        let mut table = table();
        assert_eq!(table.begin(15, 0, 9), Ok(()));
        for told in [
            Told::Locked(0),
            Told::Worked(0),
            Told::Released(0),
            Told::Finished,
        ] {
            assert_eq!(table.collect(15), Err(Refusal::NotFinished));
            assert_eq!(table.step(15), Ok(told));
        }
        assert_eq!(table.step(15), Err(Refusal::NoJob));
        assert_eq!(table.begin(15, 0, 9), Err(Refusal::PlaceTaken));
        assert_eq!(table.collect(15), Ok(5));
        assert_eq!(table.collect(15), Err(Refusal::NotAwaited));
        assert_eq!(table.begin(15, 0, 9), Ok(()));
        assert_eq!(table.shown(0), Some(5));
        assert_eq!(table.shown(1), None);
    }

    #[test]
    fn waiting_tells_the_holder() {
        let mut table = table();
        assert_eq!(table.call(Call::Begin(3, 0, 0)), Answer::Began);
        assert_eq!(table.call(Call::Begin(4, 1, 0)), Answer::Began);
        assert_eq!(table.call(Call::Step(3)), Answer::Stepped(Told::Locked(0)));
        assert_eq!(
            table.call(Call::Step(4)),
            Answer::Stepped(Told::Waiting(0, 3))
        );
    }

    #[test]
    fn refusals_in_their_order() {
        let mut table = table();
        assert_eq!(table.begin(16, 2, 0), Err(Refusal::NoSuchPlace));
        assert_eq!(table.begin(0, 0, 0), Ok(()));
        assert_eq!(table.begin(0, 2, 0), Err(Refusal::NoSuchType));
        assert_eq!(table.begin(0, 1, 0), Err(Refusal::PlaceTaken));
        assert_eq!(table.step(16), Err(Refusal::NoSuchPlace));
        assert_eq!(table.step(1), Err(Refusal::NoJob));
        assert_eq!(table.call(Call::Collect(16)), Answer::Refused(14));
        assert_eq!(table.call(Call::Leave(16)), Answer::Refused(14));
        assert_eq!(table.call(Call::Leave(1)), Answer::Refused(14));
        assert_eq!(table.call(Call::Collect(0)), Answer::Refused(15));
    }

    #[test]
    fn leaving() {
        let mut table = table();
        table.begin(0, 0, 0).unwrap();
        assert_eq!(table.leave(0), Ok(()));
        assert_eq!(table.leave(0), Err(Refusal::NotAwaited));
        assert_eq!(table.collect(0), Err(Refusal::NotAwaited));
        assert_eq!(table.begin(0, 0, 0), Err(Refusal::PlaceTaken));
        while table.step(0) != Ok(Told::Finished) {}
        table.begin(0, 0, 0).unwrap();
        while table.step(0) != Ok(Told::Finished) {}
        assert_eq!(table.leave(0), Ok(()));
        assert_eq!(table.begin(0, 0, 0), Ok(()));
    }

    #[test]
    fn misfits() {
        let mut short = Table::<Tally>::new(vec![], small());
        assert_eq!(short.begin(16, 2, 0), Err(Refusal::Misfit));
        // The workload has four codes, slots have three.
        let mut slots = Table::<Slot>::new(vec![SlotValue::Free], small());
        assert_eq!(slots.call(Call::Begin(0, 0, 0)), Answer::Refused(8));
        assert_eq!(slots.step(16), Err(Refusal::NoSuchPlace));
        assert_eq!(slots.step(0), Err(Refusal::NoJob));
        assert!(!slots.fitting());
    }

    #[test]
    fn at_most_4096_values_count() {
        let table = Table::<Tally>::new(vec![7; 5_000], small());
        assert_eq!(table.shown(4_095), Some(7));
        assert_eq!(table.shown(4_096), None);
        assert_eq!(table.finish().len(), 5_000);
    }
}
