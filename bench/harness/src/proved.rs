//! The proved library behind safe functions.
//!
//! Nothing checks these declarations against the library's, and its proofs take the slices as Rust has them:
//! that they come from Rust slices, of which the writable ones do not overlap, is all that a call has to keep.

use plain::{Answer, Call, SlotValue, Told};

/// How a call ended: 0, the number of a fault, 253 for what is not there, 254 for want of room, 255 for want of memory.
#[repr(C)]
#[derive(Clone, Copy, PartialEq, Eq, Debug)]
pub struct End {
    pub number: u8,
    pub place: usize,
}

/// What is told of a file.
#[repr(C)]
#[derive(Clone, Copy, PartialEq, Eq, Debug)]
pub struct FileTold {
    pub end: End,
    pub note_length: usize,
    pub items: u8,
    pub codes: u8,
    pub types: u8,
}

/// A call as plain numbers.
#[repr(C)]
#[derive(Clone, Copy, PartialEq, Eq, Debug)]
pub struct PlainCall {
    kind: u8,
    place: u8,
    job_type: u8,
    argument: i32,
}

/// An answer as plain numbers.
#[repr(C)]
#[derive(Clone, Copy, PartialEq, Eq, Debug, Default)]
pub struct PlainAnswer {
    kind: u8,
    first: u8,
    second: u8,
    register: i32,
}

/// A slot as plain data.
#[repr(C)]
#[derive(Clone, Copy, PartialEq, Eq, Debug)]
pub struct PlainSlot {
    held: bool,
    number: i32,
}

/// What is told of a job type.
#[repr(C)]
#[derive(Clone, Copy, PartialEq, Eq, Debug)]
pub struct TypeTold {
    pub end: End,
    pub states: u8,
    pub root: u8,
}

/// What is told of writing: how reading ended, the number of a refusal or 0, and the length of the new file.
#[repr(C)]
#[derive(Clone, Copy, PartialEq, Eq, Debug)]
pub struct WriteTold {
    pub end: End,
    pub refusal: u8,
    pub length: usize,
}

/// What is told of a text: how the call ended, and the length of the text.
#[repr(C)]
#[derive(Clone, Copy, PartialEq, Eq, Debug)]
pub struct TextTold {
    pub end: End,
    pub length: usize,
}

impl End {
    /// The end of a call that did what it is for.
    pub const DONE: End = End {
        number: 0,
        place: 0,
    };
    /// The end of a call that looks for what is not there.
    pub const NOTHING: End = End {
        number: 253,
        place: 0,
    };
    /// The end of a call whose answers do not fit.
    pub const NO_ROOM: End = End {
        number: 254,
        place: 0,
    };
}

extern "C" {
    fn fadzrike_read(file: *const u8, file_length: usize) -> FileTold;
    fn fadzrike_run_tallies(
        file: *const u8,
        file_length: usize,
        calls: *const PlainCall,
        call_count: usize,
        row: *mut i32,
        row_length: usize,
        answers: *mut PlainAnswer,
        answers_length: usize,
        shown: *mut i64,
        shown_length: usize,
    ) -> End;
    fn fadzrike_run_slots(
        file: *const u8,
        file_length: usize,
        calls: *const PlainCall,
        call_count: usize,
        row: *const PlainSlot,
        row_length: usize,
        answers: *mut PlainAnswer,
        answers_length: usize,
        shown: *mut i64,
        shown_length: usize,
    ) -> End;
    fn fadzrike_run_joined(
        file: *const u8,
        file_length: usize,
        calls: *const PlainCall,
        call_count: usize,
        front: *mut i32,
        front_length: usize,
        back: *mut i32,
        back_length: usize,
        answers: *mut PlainAnswer,
        answers_length: usize,
        shown: *mut i64,
        shown_length: usize,
    ) -> End;
    fn fadzrike_type(
        file: *const u8,
        file_length: usize,
        t: u8,
        local: *mut bool,
        local_length: usize,
    ) -> TypeTold;
    fn fadzrike_state(
        file: *const u8,
        file_length: usize,
        t: u8,
        s: u8,
        never: *mut bool,
        never_length: usize,
        left: *mut bool,
        left_length: usize,
    ) -> End;
    fn fadzrike_write(
        file: *const u8,
        file_length: usize,
        note: *const u8,
        note_length: usize,
        buffer: *mut u8,
        buffer_length: usize,
    ) -> WriteTold;
    fn fadzrike_run_rounds(
        file: *const u8,
        file_length: usize,
        calls: *const PlainCall,
        call_count: usize,
        again: u32,
        row: *mut i32,
        row_length: usize,
        answers: *mut PlainAnswer,
        answers_length: usize,
    ) -> End;
    fn fadzrike_yard(
        file: *const u8,
        file_length: usize,
        input: *const u8,
        input_length: usize,
        output: *mut u8,
        output_length: usize,
    ) -> TextTold;
}

impl From<Call> for PlainCall {
    fn from(call: Call) -> Self {
        let (kind, place, job_type, argument) = match call {
            Call::Begin(place, job_type, argument) => (0, place, job_type, argument),
            Call::Step(place) => (1, place, 0, 0),
            Call::Collect(place) => (2, place, 0, 0),
            Call::Leave(place) => (3, place, 0, 0),
        };
        PlainCall {
            kind,
            place,
            job_type,
            argument,
        }
    }
}

impl From<SlotValue> for PlainSlot {
    fn from(slot: SlotValue) -> Self {
        match slot {
            SlotValue::Free => PlainSlot {
                held: false,
                number: 0,
            },
            SlotValue::Held(number) => PlainSlot { held: true, number },
        }
    }
}

impl From<Answer> for PlainAnswer {
    fn from(answer: Answer) -> Self {
        let (kind, first, second, register) = match answer {
            Answer::Began => (0, 0, 0, 0),
            Answer::Stepped(Told::Released(item)) => (1, item, 0, 0),
            Answer::Stepped(Told::Worked(item)) => (2, item, 0, 0),
            Answer::Stepped(Told::Locked(item)) => (3, item, 0, 0),
            Answer::Stepped(Told::Waiting(item, holder)) => (4, item, holder, 0),
            Answer::Stepped(Told::Gone(state)) => (5, state, 0, 0),
            Answer::Stepped(Told::Finished) => (6, 0, 0, 0),
            Answer::Collected(register) => (7, 0, 0, register),
            Answer::Left => (8, 0, 0, 0),
            Answer::Refused(number) => (9, number, 0, 0),
        };
        PlainAnswer {
            kind,
            first,
            second,
            register,
        }
    }
}

impl PlainAnswer {
    /// The number of its kind: see `From<Answer>`.
    pub fn kind(&self) -> usize {
        self.kind.into()
    }
}

/// Reads a file.
pub fn read(file: &[u8]) -> FileTold {
    // SAFETY: pointer and length are those of a slice.
    unsafe { fadzrike_read(file.as_ptr(), file.len()) }
}

/// What a list of calls came to.
#[derive(Clone, PartialEq, Eq, Debug)]
pub struct Ran {
    pub end: End,
    pub answers: Vec<PlainAnswer>,
    pub shown: Vec<i64>,
}

/// Makes the calls on a new table over the row of tallies.
pub fn run_tallies(file: &[u8], calls: &[PlainCall], row: &mut [i32]) -> Ran {
    let mut answers = vec![PlainAnswer::default(); calls.len()];
    let mut shown = vec![0; row.len().min(plain::STORE_LIMIT)];
    // SAFETY: pointers and lengths are those of slices, and the writable ones are apart.
    let end = unsafe {
        fadzrike_run_tallies(
            file.as_ptr(),
            file.len(),
            calls.as_ptr(),
            calls.len(),
            row.as_mut_ptr(),
            row.len(),
            answers.as_mut_ptr(),
            answers.len(),
            shown.as_mut_ptr(),
            shown.len(),
        )
    };
    Ran {
        end,
        answers,
        shown,
    }
}

/// Makes the calls on a new table over the row of tallies, and then so many times again.
pub fn run_rounds(
    file: &[u8],
    calls: &[PlainCall],
    again: u32,
    row: &mut [i32],
    answers: &mut [PlainAnswer],
) -> End {
    // SAFETY: pointers and lengths are those of slices, and the writable ones are apart.
    unsafe {
        fadzrike_run_rounds(
            file.as_ptr(),
            file.len(),
            calls.as_ptr(),
            calls.len(),
            again,
            row.as_mut_ptr(),
            row.len(),
            answers.as_mut_ptr(),
            answers.len(),
        )
    }
}

/// Makes the calls on a new table over these slots.
pub fn run_slots(file: &[u8], calls: &[PlainCall], row: &[PlainSlot]) -> Ran {
    let mut answers = vec![PlainAnswer::default(); calls.len()];
    let mut shown = vec![0; row.len().min(plain::STORE_LIMIT)];
    // SAFETY: pointers and lengths are those of slices, and the writable ones are apart.
    let end = unsafe {
        fadzrike_run_slots(
            file.as_ptr(),
            file.len(),
            calls.as_ptr(),
            calls.len(),
            row.as_ptr(),
            row.len(),
            answers.as_mut_ptr(),
            answers.len(),
            shown.as_mut_ptr(),
            shown.len(),
        )
    };
    Ran {
        end,
        answers,
        shown,
    }
}

/// Makes the calls on a new table over two rows of tallies as one.
pub fn run_joined(file: &[u8], calls: &[PlainCall], front: &mut [i32], back: &mut [i32]) -> Ran {
    let mut answers = vec![PlainAnswer::default(); calls.len()];
    let items = front.len().min(plain::STORE_LIMIT) + back.len().min(plain::STORE_LIMIT);
    let mut shown = vec![0; items.min(plain::STORE_LIMIT)];
    // SAFETY: pointers and lengths are those of slices, and the writable ones are apart.
    let end = unsafe {
        fadzrike_run_joined(
            file.as_ptr(),
            file.len(),
            calls.as_ptr(),
            calls.len(),
            front.as_mut_ptr(),
            front.len(),
            back.as_mut_ptr(),
            back.len(),
            answers.as_mut_ptr(),
            answers.len(),
            shown.as_mut_ptr(),
            shown.len(),
        )
    };
    Ran {
        end,
        answers,
        shown,
    }
}

/// The set of a row that tells of each item whether it is there.
fn set_of(row: &[bool; 64]) -> u64 {
    row.iter()
        .rev()
        .fold(0, |set, &there| set << 1 | u64::from(there))
}

/// What is told of type t of a file, and the items of its local lock tree.
pub fn job_type(file: &[u8], t: u8) -> (TypeTold, u64) {
    let mut local = [false; 64];
    // SAFETY: pointers and lengths are those of slices.
    let told = unsafe { fadzrike_type(file.as_ptr(), file.len(), t, local.as_mut_ptr(), 64) };
    (told, set_of(&local))
}

/// The unreachable and the unlockable set of state s of type t of a file.
pub fn state(file: &[u8], t: u8, s: u8) -> (End, u64, u64) {
    let (mut never, mut left) = ([false; 64], [false; 64]);
    // SAFETY: pointers and lengths are those of slices, and the writable ones are apart.
    let end = unsafe {
        fadzrike_state(
            file.as_ptr(),
            file.len(),
            t,
            s,
            never.as_mut_ptr(),
            64,
            left.as_mut_ptr(),
            64,
        )
    };
    (end, set_of(&never), set_of(&left))
}

/// Writes the workload of a file, with this note, at the front of the buffer.
pub fn write(file: &[u8], note: &[u8], buffer: &mut [u8]) -> WriteTold {
    // SAFETY: pointers and lengths are those of slices, and the writable one is apart.
    unsafe {
        fadzrike_write(
            file.as_ptr(),
            file.len(),
            note.as_ptr(),
            note.len(),
            buffer.as_mut_ptr(),
            buffer.len(),
        )
    }
}

/// Puts what the program yard prints for a file and an input at the front of the row.
pub fn yard(file: &[u8], input: &[u8], row: &mut [u8]) -> TextTold {
    // SAFETY: pointers and lengths are those of slices, and the writable one is apart.
    unsafe {
        fadzrike_yard(
            file.as_ptr(),
            file.len(),
            input.as_ptr(),
            input.len(),
            row.as_mut_ptr(),
            row.len(),
        )
    }
}
